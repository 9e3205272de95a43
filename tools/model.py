#!/usr/bin/env python3
"""An independent model of the program `names`, written from the words of documents 01 and 02 and the rulings on them, in another language than the product.

    model.py < script > answers

It says what the scripts of crates/scripts/data have to answer (tools/scripts.py calls it); nothing of the product is derived from it, and
it is no part of any proof. A name in quotes is a sentence of document 01.
"""
import re
import sys

N = 256
DIGITS = 16
STORED = 12
WORDS = 19 * N - 15


class Damage(Exception):
    pass


def digit(key, k):
    return key >> (60 - 4 * k) & 15


def first_diff(a, b):
    return next((k for k in range(DIGITS) if digit(a, k) != digit(b, k)), DIGITS)


def header(depth, length, key):
    word = depth << 56 | length << 48
    for i in range(min(length, STORED)):
        word |= digit(key, depth + i) << (44 - 4 * i)
    return word


def leaf_word(i):
    return 2 + 2 * i


def node_word(j):
    return 2 + 2 * N + 17 * j


def leaf_ref(i):
    return i + 1


def node_ref(j):
    return j + 1025


def meaning(ref):
    """("empty",), ("leaf", i) or ("node", j); anything else is damage."""
    if ref == 0:
        return ("empty",)
    if 1 <= ref <= 1024 and ref - 1 < N:
        return ("leaf", ref - 1)
    if 1025 <= ref <= 2047 and ref - 1025 < N - 1:
        return ("node", ref - 1025)
    raise Damage


def branch(pool, j, w):
    """The branch place of node j, met at walk depth w."""
    word = pool[node_word(j)]
    depth, length = word >> 56, word >> 48 & 255
    if depth < w or length > 15 or depth + length > 15:
        raise Damage
    return depth + length


class Walk:
    """The nodes that a walk along a key has met, each with the word of the reference to it and the walk depth there; and its end."""

    def __init__(self, pool, key):
        self.nodes = []
        self.at, self.w = 1, 0
        self.end = None
        try:
            while True:
                met = meaning(pool[self.at])
                if met[0] != "node":
                    self.end = met
                    return
                b = branch(pool, met[1], self.w)
                self.nodes.append((self.at, self.w, met[1], b))
                self.at = node_word(met[1]) + 1 + digit(key, b)
                self.w = b + 1
        except Damage:
            self.end = ("damage",)


def lowest_leaf(pool, ref, w):
    """The key of the leaf that the lowest non-empty children lead to."""
    while True:
        met = meaning(ref)
        if met[0] == "empty":
            raise Damage
        if met[0] == "leaf":
            return pool[leaf_word(met[1])]
        b = branch(pool, met[1], w)
        kids = [r for r in children(pool, met[1]) if r != 0]
        if not kids:
            raise Damage
        ref, w = kids[0], b + 1


def children(pool, j):
    return pool[node_word(j) + 1:node_word(j) + 17]


def free(bytes_, first, count):
    return next((i for i in range(count) if bytes_[first + i] == 0), None)


def lookup(pool, key):
    """Number, value, nodes."""
    walk = Walk(pool, key)
    if walk.end[0] == "damage":
        return 2, 0, len(walk.nodes)
    if walk.end[0] == "leaf" and pool[leaf_word(walk.end[1])] == key:
        return 0, pool[leaf_word(walk.end[1]) + 1], len(walk.nodes)
    return 3, 0, len(walk.nodes)


def plan_put(pool, map_, key, value):
    """Number, stores, what they do to the map."""
    if value == 0:  # "Puts of file number 0 are refused, for new and held keys alike."
        return 7, [], {}
    try:
        walk = Walk(pool, key)
        if walk.end[0] == "damage":
            raise Damage
        if walk.end[0] == "leaf" and pool[leaf_word(walk.end[1])] == key:
            return 0, [(leaf_word(walk.end[1]) + 1, value)], {}
        i = free(map_, 0, N)
        new = [(leaf_word(i), key), (leaf_word(i) + 1, value)] if i is not None else None
        if walk.end[0] == "empty" and not walk.nodes:
            return (0, new + [(1, leaf_ref(i))], {i: 1}) if new else (4, [], {})
        if walk.end[0] == "leaf":
            other = pool[leaf_word(walk.end[1])]
        else:
            _, w, j, _ = walk.nodes[-1]
            other = lowest_leaf(pool, node_ref(j), w)
        f = first_diff(key, other)
        found = next((n for n in walk.nodes if n[3] >= f), None)
        if f == DIGITS or found and found[3] == f and not (found == walk.nodes[-1] and walk.end[0] == "empty"):
            raise Damage
        if found and found[3] == f:
            return (0, new + [(walk.at, leaf_ref(i))], {i: 1}) if new else (4, [], {})
        if found:
            at, w, target, b = found
        elif walk.end[0] == "leaf":
            at, w, target, b = walk.at, walk.w, None, None
        else:
            raise Damage
        j = free(map_, N, N - 1)
        if not new or j is None:
            return 4, [], {}
        kids = [0] * 16
        kids[digit(key, f)] = leaf_ref(i)
        kids[digit(other, f)] = pool[at]
        stores = new + [(node_word(j), header(w, f - w, key))] + [(node_word(j) + 1 + c, kids[c]) for c in range(16)]
        if target is not None:
            stores.append((node_word(target), header(f + 1, b - f - 1, other)))
        return 0, stores + [(at, node_ref(j))], {i: 1, N + j: 1}
    except Damage:
        return 2, [], {}


def plan_delete(pool, key):
    try:
        walk = Walk(pool, key)
        if walk.end[0] == "damage":
            raise Damage
        if walk.end[0] != "leaf" or pool[leaf_word(walk.end[1])] != key:
            return 3, [], {}
        i = walk.end[1]
        if not walk.nodes:
            return 0, [(1, 0)], {i: 0}
        at, w, j, b = walk.nodes[-1]
        kids = [(c, r) for c, r in enumerate(children(pool, j)) if r != 0]
        if len(kids) >= 3:
            return 0, [(walk.at, 0)], {i: 0}
        if len(kids) == 1:
            raise Damage
        other = next(r for c, r in kids if c != digit(key, b))
        stores = [(at, other)]
        met = meaning(other)
        if met[0] == "node":
            place = branch(pool, met[1], b + 1)
            stores.append((node_word(met[1]), header(w, place - w, lowest_leaf(pool, other, b + 1))))
        return 0, stores, {i: 0, N + j: 0}
    except Damage:
        return 2, [], {}


def reached(pool):
    """Slots reached and, for each node, its walk depth, branch place and a key below: of a sound pool; damage otherwise."""
    leaves, nodes = set(), {}

    def visit(ref, w):
        met = meaning(ref)
        if met[0] == "empty":
            return []
        if met[0] == "leaf":
            if met[1] in leaves:
                raise Damage
            leaves.add(met[1])
            return [pool[leaf_word(met[1])]]
        j = met[1]
        b = branch(pool, j, w)
        if j in nodes:
            raise Damage
        nodes[j] = None
        below = [visit(r, b + 1) for r in children(pool, j)]
        if sum(1 for r in children(pool, j) if r != 0) < 2:
            raise Damage
        keys = [k for c in range(16) for k in below[c]]
        if any(digit(k, b) != c for c in range(16) for k in below[c]):
            raise Damage
        if any(digit(k, d) != digit(keys[0], d) for k in keys for d in range(b)):
            raise Damage
        depth = pool[node_word(j)] >> 56
        if pool[node_word(j)] != header(depth, b - depth, keys[0]):
            raise Damage
        nodes[j] = (w, b, keys[0])
        return keys

    visit(pool[1], 0)
    return leaves, nodes


def open_(pool, map_):
    """Number, keys, headers rewritten."""
    try:
        leaves, nodes = reached(pool)
    except Damage:
        map_[:] = [0] * len(map_)
        return 2, 0, 0
    headers = 0
    for j in sorted(nodes):
        w, b, key = nodes[j]
        if pool[node_word(j)] >> 56 > w:
            pool[node_word(j)] = header(w, b - w, key)
            headers += 1
    map_[:] = [int(i in leaves) for i in range(N)] + [int(j in nodes) for j in range(N - 1)]
    return 0, len(leaves), headers


def entries(pool):
    found = []

    def visit(ref):
        met = meaning(ref)
        if met[0] == "leaf":
            found.append((pool[leaf_word(met[1])], pool[leaf_word(met[1]) + 1]))
        elif met[0] == "node":
            for r in children(pool, met[1]):
                visit(r)

    visit(pool[1])
    return found


def make(pool, stores):
    for word, value in stores:
        pool[word] = value


KEY = rb"([0-9a-f]{16})"
NUMBER = rb"(0|[1-9][0-9]*)"
LINES = [("P", rb"P\t" + KEY + rb"\t" + NUMBER), ("D", rb"D\t" + KEY), ("G", rb"G\t" + KEY), ("L", rb"L"), ("C", rb"C\t" + NUMBER)]


def command(line):
    if len(line) <= 63:
        for tag, form in LINES:
            met = re.fullmatch(form, line, re.DOTALL)
            if not met:
                continue
            if tag == "C":
                return ("C", int(met[1])) if int(met[1]) <= 21 else None
            if tag == "P":
                return ("P", int(met[1], 16), int(met[2])) if int(met[2]) < 2 ** 64 else None
            return (tag,) + tuple(int(k, 16) for k in met.groups())
    return None


def lines_of(data):
    lines = data.split(b"\n")
    return lines if lines[-1] else lines[:-1]


def answers(data):
    pool, map_ = [0] * WORDS, [0] * (2 * N - 1)
    pool[0] = N
    cut = None
    for number, line in enumerate(lines_of(data), 1):
        met = command(line)
        if met is None or cut is not None and met[0] not in "PD":
            cut = None
            yield "?", number
            continue
        if met[0] == "C":
            cut = met[1]
        elif met[0] == "G":
            yield ("G",) + lookup(pool, met[1])
        elif met[0] == "L":
            found = entries(pool)
            for key, value in found:
                yield "L", "%016x" % key, value
            yield "E", len(found)
        else:
            code, stores, marks = plan_put(pool, map_, *met[1:]) if met[0] == "P" else plan_delete(pool, *met[1:])
            made = stores if cut is None else stores[:cut]
            make(pool, made)
            if cut is None:
                for slot, taken in marks.items():
                    map_[slot] = taken
                yield met[0], code, len(made)
            else:
                cut = None
                _, keys, headers = open_(pool, map_)
                yield "C", code, len(made), keys, headers


def run(data):
    return "".join("\t".join(map(str, a)) + "\n" for a in answers(data)).encode()


if __name__ == "__main__":
    sys.setrecursionlimit(10000)
    sys.stdout.buffer.write(run(sys.stdin.buffer.read()))
