"""The library through its C interface, and a pool's words by their names. For tools/pictures.py."""

import ctypes
import os
import pathlib
import subprocess
import sys

ROOT = pathlib.Path(__file__).resolve().parent.parent
LIB_DIR = pathlib.Path(os.environ.get("WORT_LIB_DIR", ROOT / "crates" / "wort" / "out"))
# of a plan's words: the count, the stores of the first group, the fences, the first word number, and how many
COUNT, FIRST, FENCES, PLACES, ROOM = 0, 1, 2, 7, 23
VALUES = PLACES + ROOM
PlanWords = ctypes.c_uint64 * (VALUES + ROOM)
ADR = 1  # the generation that plans are made for here: the one whose plans ask for fences
LEFT_OVER = 0xEEEEEEEEEEEEEEEE  # what the words of a pool hold before it is formatted


def load(directory):
    """libwort.a as a shared object, loaded."""
    archive = LIB_DIR / "libwort.a"
    if not archive.exists():
        sys.exit(f"libwort.a is not in {LIB_DIR}; build it with: (cd crates/wort && rt lib)")
    made = pathlib.Path(directory) / "libwort.so"
    whole = ["-Wl,--whole-archive", str(archive), "-Wl,--no-whole-archive"]
    if subprocess.run(["gcc", "-shared", "-o", str(made), *whole]).returncode:
        sys.exit(f"gcc makes no shared object of {archive}")
    library = ctypes.CDLL(str(made))
    for call in "format open lookup list put delete plan_put plan_delete plan_open step finish".split():
        getattr(library, "wort_" + call).restype = ctypes.c_uint64
    return library


class Refused(SystemExit):
    """A call's refusal: it ends the program where it is not expected."""


class Plan:
    """A plan's words, its stores, how many of them are its first group, and its fences."""

    def __init__(self, words):
        self.words, self.first, self.fences = words, words[FIRST], words[FENCES]
        self.stores = [(words[PLACES + i], words[VALUES + i]) for i in range(words[COUNT])]


class Pool:
    """A pool with its map, and the library's calls on them."""

    def __init__(self, library, n, filler=LEFT_OVER):
        self.library, self.n = library, n
        self.words = (ctypes.c_uint64 * (19 * n - 15))(*[filler] * (19 * n - 15))
        self.map = (ctypes.c_uint8 * (2 * n - 1))()

    def copy(self):
        other = Pool(self.library, self.n)
        ctypes.memmove(other.words, self.words, ctypes.sizeof(self.words))
        ctypes.memmove(other.map, self.map, ctypes.sizeof(self.map))
        return other

    def call(self, name, *lent, allowed=(0,)):
        """A call that is lent these; whole numbers go as 64-bit ones, runs with their length but for plans."""
        arguments = []
        for a in lent:
            if isinstance(a, int):
                arguments.append(ctypes.c_uint64(a))
            elif isinstance(a, ctypes.Array):
                arguments += [a] if isinstance(a, PlanWords) else [a, ctypes.c_size_t(len(a))]
            else:
                arguments.append(ctypes.byref(a))
        number = getattr(self.library, "wort_" + name)(*arguments)
        if number not in allowed:
            raise Refused(f"wort_{name} answers {number}")
        return number

    def format(self):
        self.call("format", self.words, self.map, self.n)
        return self

    def put(self, key, value):
        stores = ctypes.c_uint64()
        self.call("put", self.words, self.map, key, value, stores)
        return stores.value

    def plan(self, name, *lent):
        words = PlanWords()
        self.call("plan_" + name, *lent, ADR, words)
        return Plan(words)

    def plan_put(self, key, value):
        return self.plan("put", self.words, self.map, key, value)

    def plan_delete(self, key):
        return self.plan("delete", self.words, key)

    def plan_open(self):
        return self.plan("open", self.words)

    def step(self, plan, at):
        self.call("step", self.words, plan.words, at)

    def left(self, plan, arrived):
        """The pool that a cut leaves when these stores of a plan have arrived, in this order."""
        cut = self.copy()
        for at in arrived:
            cut.step(plan, at)
        return cut

    def finish(self, plan):
        self.call("finish", self.map, plan.words)

    def open(self):
        """The map is lost and made anew: the number of keys and of headers rewritten."""
        keys, headers = ctypes.c_uint64(), ctypes.c_uint64()
        self.map = (ctypes.c_uint8 * (2 * self.n - 1))()
        self.call("open", self.words, self.map, keys, headers)
        return keys.value, headers.value

    def lookup(self, key):
        """The file number, None for an absent name; and the nodes passed."""
        value, nodes = ctypes.c_uint64(), ctypes.c_uint64()
        number = self.call("lookup", self.words, key, value, nodes, allowed=(0, 3))
        return (None if number else value.value), nodes.value

    def list(self):
        keys, values = (ctypes.c_uint64 * self.n)(), (ctypes.c_uint64 * self.n)()
        count, more = ctypes.c_uint64(), ctypes.c_uint64()
        self.call("list", self.words, 0, keys, values, count, more)
        return list(zip(keys, values))[: count.value]

    # where words stand, and what they are called

    def leaf_word(self, i):
        return 2 + 2 * i

    def node_word(self, j):
        return 2 + 2 * self.n + 17 * j

    def name(self, word):
        if word < 2:
            return ("N", "root")[word]
        if word < 2 + 2 * self.n:
            return f"leaf {(word - 2) // 2} {('key', 'value')[word % 2]}"
        j, place = divmod(word - 2 - 2 * self.n, 17)
        return f"node {j} header" if place == 0 else f"node {j} child {place - 1:x}"

    def is_header(self, word):
        return self.name(word).endswith("header")

    def tree(self):
        """What is reached from the root, as lookup goes: None, ("leaf", i, key, value) or ("node", j, walk depth, depth, length, children)."""

        def at(word, depth):
            r = self.words[word]
            if r == 0:
                return None
            if r <= 1024:
                return "leaf", r - 1, self.words[self.leaf_word(r - 1)], self.words[self.leaf_word(r - 1) + 1]
            base = self.node_word(r - 1025)
            h, length = self.words[base] >> 56, self.words[base] >> 48 & 255
            children = {c: t for c in range(16) if (t := at(base + 1 + c, h + length + 1))}
            return "node", r - 1025, depth, h, length, children

        return at(1, 0)
