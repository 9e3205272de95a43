#!/usr/bin/env python3
"""Makes docs/pictures/*.svg and docs/WALKTHROUGH.md from the running library.

Usage: pictures.py [--check]      --check makes nothing, and fails if what is kept differs from what the library does.

Every word, answer and listing shown is what the library's calls left and said. WORT_LIB_DIR says where libwort.a stands
(crates/wort/out).
"""

import itertools
import sys
import tempfile

from svg import FAINT, INK, PAPER, Picture
from wort import LEFT_OVER, ROOT, Pool, Refused, load

KEYS = [0x200, 0x202, 0x20F, 0x222]  # the names of document 01's example; their file numbers are 1 to 4
NEW, FILE = KEYS[3], 4
PLACES = 4
BLUE, PALE, GREY, RED, ROSE, GREEN = "#2f6fbd", "#cfe2f7", "#d9dce0", "#c0262d", "#fbe3e4", "#e3f3e3"


def hexed(word):
    return f"{word:016x}"


def short(key):
    return f"{key:x}"


def written(pool, word, value):
    """A word's content: keys and headers in hexadecimal, references and file numbers as numbers."""
    if value == LEFT_OVER:
        return "left over"
    return hexed(value) if pool.is_header(word) else f"0x{value:x}" if pool.name(word).endswith("key") else str(value)


def answer(found):
    return "absent" if found is None else f"file {found}"


class State:
    """A pool at one moment: its words, what lookup and listing say, and what an opening would do."""

    def __init__(self, pool):
        self.pool = pool.copy()
        self.words = list(pool.words)
        self.map = list(pool.map)
        self.tree = pool.tree()
        self.lookups = [pool.lookup(k) for k in KEYS]
        self.listing = pool.list()
        mended = pool.copy()
        self.mend = mended.plan_open().stores
        self.opened = mended.open()
        self.words_opened = list(mended.words)
        assert [(k, v) for k, (v, _) in zip(KEYS, self.lookups) if v is not None] == self.listing

    def listed(self):
        return " ".join(short(k) for k, _ in self.listing)


def three_names(library):
    """A pool of four places with the first three names."""
    pool = Pool(library, PLACES).format()
    for file, key in enumerate(KEYS[:3], start=1):
        pool.put(key, file)
    return pool


def run(pool, plan):
    """The states before a plan's stores and after each, and after finishing."""
    states = [State(pool)]
    for at in range(len(plan.stores)):
        pool.step(plan, at)
        states.append(State(pool))
    pool.finish(plan)
    return states


def switch(states):
    """The number of the store at which lookup and listing change."""
    changes = [i for i in range(1, len(states)) if states[i].listing != states[i - 1].listing]
    assert len(changes) == 1
    return changes[0]


# ---- trees


def spread(tree):
    """How many leaves stand side by side."""
    return 1 if tree[0] == "leaf" else sum(spread(t) for t in tree[5].values())


def draw_tree(p, tree, x, y, column=72):
    """A tree with its leaves in columns from x on, its top at y."""
    centre = x + column * spread(tree) / 2
    if tree[0] == "leaf":
        p.box(centre - 33, y, 66, 34, GREEN, round_=3)
        p.text(centre, y + 14, f"leaf {tree[1]}", 11, anchor="middle")
        p.text(centre, y + 28, f"{short(tree[2])} : {tree[3]}", 11, anchor="middle", mono=True)
        return centre
    _, j, walk, depth, length, children = tree
    stale = depth > walk
    for c, child in children.items():
        below = draw_tree(p, child, x, y + 92, column)
        p.line(centre, y + 48, below, y + 90, arrow=True)
        p.text((centre + 2 * below) / 3 + (6 if below >= centre else -14), y + 76, short(c), 12, BLUE, mono=True, bold=True)
        x += column * spread(child)
    p.box(centre - 70, y, 140, 48, ROSE if stale else PALE, RED if stale else INK, 3, 2 if stale else 1)
    p.text(centre, y + 14, f"node {j}" + (", stale" if stale else ""), 11, RED if stale else INK, "middle", bold=True)
    p.text(centre, y + 28, f"depth {depth}, length {length}", 11, anchor="middle")
    p.text(centre, y + 42, f"met at {walk}, digit {depth + length}", 11, anchor="middle")
    return centre


def rooted(p, tree, x, y, width):
    """A tree below its root reference, in the middle of a panel."""
    left = x + (width - 72 * spread(tree)) / 2
    centre = left + 72 * spread(tree) / 2
    p.box(centre - 24, y, 48, 18, PAPER, round_=3)
    p.text(centre, y + 13, "root", 11, anchor="middle")
    p.line(centre, y + 18, centre, y + 36, arrow=True)
    draw_tree(p, tree, left, y + 38)


def legend(p, x, y, entries):
    for fill, edge, words in entries:
        p.box(x, y - 10, 14, 13, fill, edge)
        p.text(x + 20, y, words, 11)
        x += 30 + 6.6 * len(words)


# ---- the split, store by store

CELL, GAP, STRIP = 15, 26, 270


def slot(pool, word):
    """The leaf or node that a word belongs to, by its name."""
    return " ".join(pool.name(word).split()[:2])


def shown_words(pool, plan):
    """The words that the plan stores to, as they stand in the pool, by the leaf or node that they belong to."""
    slots = {}
    for word in sorted({word for word, _ in plan.stores}):
        slots.setdefault(slot(pool, word), []).append(word)
    return slots


def glyph(pool, word, value):
    """One letter for a word's content."""
    if value == LEFT_OVER:
        return ""
    if pool.name(word) == "root" or "child" in pool.name(word):
        return "0" if value == 0 else "L" if value <= 1024 else "N"
    return "v" if "value" in pool.name(word) else "h" if pool.is_header(word) else "k"


def strip(p, pool, slots, x, y, plan, made, state):
    """The words of one state as a row of cells."""
    stored = {word for word, _ in plan.stores[:made]}
    for words in slots.values():
        for word in words:
            value = state.words[word]
            last = made and word == plan.stores[made - 1][0]
            fill = BLUE if last else PALE if word in stored else GREY if value == LEFT_OVER else PAPER
            p.box(x, y, CELL, 17, fill)
            p.text(x + CELL / 2, y + 13, glyph(pool, word, value), 10, PAPER if last else INK, "middle", mono=True)
            x += CELL
        x += GAP


def strip_heads(p, pool, slots, x, y):
    for name, words in slots.items():
        p.text(x, y - 14, name, 10)
        for word in words:
            kind = pool.name(word).split()[-1]
            p.text(x + CELL / 2, y, {"root": "", "key": "k", "value": "v", "header": "h"}.get(kind, kind), 10, FAINT, "middle", True)
            x += CELL
        x += GAP


def split_row(p, pool, slots, y, plan, made, state):
    p.text(40, y + 13, str(made), 11, anchor="end", mono=True)
    if made:
        word, value = plan.stores[made - 1]
        p.text(52, y + 13, pool.name(word), 11)
        p.text(256, y + 13, written(pool, word, value), 11, anchor="end", mono=True)
    else:
        p.text(52, y + 13, "before the put", 11)
    strip(p, pool, slots, STRIP, y, plan, made, state)
    for i, (found, _) in enumerate(state.lookups):
        p.text(682 + 36 * i, y + 13, "absent" if found is None else str(found), 10, RED if found is None else INK, "middle", found is not None)
    p.text(820, y + 13, state.listed(), 11, mono=True)
    p.text(944, y + 13, str(state.opened[1]), 11, RED if state.opened[1] else INK, "end", True)


def split_heads(p, pool, slots, y):
    p.text(40, y, "store", 10, FAINT, "end")
    p.text(52, y, "which word", 10, FAINT)
    p.text(256, y, "becomes", 10, FAINT, "end")
    strip_heads(p, pool, slots, STRIP, y)
    p.text(736, y - 14, "lookup says, for", 10, anchor="middle")
    for i, key in enumerate(KEYS):
        p.text(682 + 36 * i, y, short(key), 10, FAINT, "middle", True)
    p.text(820, y - 14, "the listing", 10)
    p.text(944, y - 14, "open", 10, anchor="end")
    p.text(944, y, "mends", 10, FAINT, "end")


def panels(states):
    """Runs of states that lookup sees alike: first, last."""
    runs = []
    for i, state in enumerate(states):
        if runs and states[runs[-1][0]].tree == state.tree:
            runs[-1][1] = i
        else:
            runs.append([i, i])
    return runs


def fence(p, y, words):
    """A line for a fence, with its words below it."""
    p.line(20, y + 4, 940, y + 4, BLUE, 2, dash="6 4")
    p.text(20, y + 19, words, 11, BLUE, bold=True)
    return y + 26


def picture_split(library):
    pool = three_names(library)
    plan = pool.plan_put(NEW, FILE)
    states = run(pool, plan)
    slots, turn = shown_words(pool, plan), switch(states)
    assert plan.fences == 2
    runs = panels(states)
    p = Picture(960, 1010, "A put that splits a node, store by store")
    p.text(20, 28, f"A put of {short(NEW)} that splits node 0: {len(plan.stores)} stores, one switch", 16, bold=True)
    p.text(20, 48, f"A pool of {PLACES} places holds {', '.join(short(k) for k in KEYS[:3])}. Each row is the memory after one more store; power may go after any of them.", 12)
    legend(p, 20, 72, [(BLUE, INK, "stored just now"), (PALE, INK, "stored by this put"), (PAPER, INK, "held before"), (GREY, INK, "left over, not reached")])
    p.text(600, 72, "k key, v value, h header, L leaf, N node, 0 empty", 11, FAINT)
    split_heads(p, pool, slots, 114)
    y = 122
    for made, state in enumerate(states):
        if made == plan.first + 1:
            y = fence(p, y, f"a fence here, on ADR: the stores 1 to {plan.first} are a group, and may arrive in any order")
        if made == turn:
            p.line(20, y + 4, 940, y + 4, RED, 2)
            p.text(20, y + 19, "the switch: the last store. Until here the name is absent from both lookup and listing, from here on it is in both.", 11, RED, bold=True)
            y += 26
        split_row(p, pool, slots, y, plan, made, state)
        y += 21
    y = fence(p, y, "and one here, before the next operation begins")
    p.text(20, y + 32, "The tree as lookup sees it", 14, bold=True)
    p.text(240, y + 32, "A node shows the walk depth at which it is met, and the digit that chooses its child (in blue). A leaf shows name : file.", 11, FAINT)
    for i, (first, last) in enumerate(runs):
        x = 20 + i * 310
        at = f"after store {last}" if first == last else f"before, and after stores 1 to {last}"
        p.box(x, y + 46, 300, 348, PAPER, RED if first == turn else FAINT, 4, 2 if first == turn else 1)
        p.text(x + 12, y + 66, at, 12, bold=True)
        rooted(p, states[first].tree, x, y + 78, 300)
        p.text(x + 12, y + 360, f"listing: {states[first].listed()}", 11, mono=True)
        mended = states[first].opened[1]
        p.text(x + 12, y + 380, f"open: {states[first].opened[0]} names, {mended} header{'s' if mended != 1 else ''} mended", 11, RED if mended else INK)
    p.height = y + 414
    return p


# ---- the merge


def taken(state):
    """The slots that a map marks."""
    return "marks " + ", ".join(f"leaf {i}" if i < PLACES else f"node {i - PLACES}" for i, byte in enumerate(state.map) if byte)


def panel(p, x, y, levels, title, state, note, marks, edge=FAINT):
    """A state with its tree, in a box with room for so many nodes one below the other."""
    p.box(x, y, 440, 240 + 92 * levels, PAPER, edge, 4, 2 if edge == RED else 1)
    p.text(x + 14, y + 22, title, 13, bold=True)
    p.text(x + 14, y + 40, note, 11, FAINT)
    rooted(p, state.tree, x, y + 54, 440)
    y += 92 * levels - 184
    for i, (key, (found, nodes)) in enumerate(zip(KEYS, state.lookups)):
        p.text(x + 14 + 104 * i, y + 352, f"{short(key)}: {answer(found)}", 11, RED if found is None else INK, mono=True)
    p.text(x + 14, y + 334, "lookup", 10, FAINT)
    p.text(x + 14, y + 374, "listing", 10, FAINT)
    p.text(x + 70, y + 374, state.listed(), 11, mono=True)
    p.text(x + 14, y + 394, "map", 10, FAINT)
    p.text(x + 70, y + 394, marks, 11)
    p.text(x + 14, y + 413, "header", 10, FAINT)
    p.text(x + 70, y + 413, f"node 0: {hexed(state.words[state.pool.node_word(0)])}", 11, mono=True)


def picture_merge(library):
    pool = three_names(library)
    pool.put(NEW, FILE)
    plan = pool.plan_delete(NEW)
    states = run(pool, plan)
    done, stale = State(pool), states[1]
    cut = stale.pool.copy()
    names, headers = cut.open()
    opened = State(cut)
    assert switch(states) == plan.first == 1 and plan.fences == 2 and done.words == opened.words and done.map == opened.map
    stored = [f"{pool.name(word)} := {written(pool, word, value)}" for word, value in plan.stores]
    p = Picture(960, 1060, "A delete that merges two nodes, its stale node, and the opening that mends it")
    p.text(20, 28, f"A delete of {short(NEW)} that merges two nodes: {len(plan.stores)} stores, the first is the switch, each is a group", 16, bold=True)
    legend(p, 20, 54, [(PALE, INK, "node"), (ROSE, RED, "stale node: its depth is above the walk depth at which it is met"), (GREEN, INK, "leaf, name : file number")])
    p.text(20, 74, "A node shows the walk depth at which it is met, and the digit that chooses its child (in blue): depth + length, which stale nodes keep.", 11, FAINT)
    panel(p, 20, 94, 2, "Before", states[0], "node 1 has two children: the leaf that goes, and node 0", taken(states[0]))
    panel(p, 500, 94, 2, "After store 1, the switch", stale, stored[0] + " (a delete counts from its first store)", "as before, until the delete finishes; lost if power goes", RED)
    p.line(462, 300, 496, 300, INK, 1.5, True)
    p.line(600, 520, 330, 567, INK, 1.5, True)
    p.text(20, 546, f"fence; store 2: {stored[1]}; fence", 11, mono=True)
    p.line(720, 520, 720, 566, INK, 1.5, True)
    p.text(732, 540, "power goes; the map is lost", 11)
    p.text(732, 556, f"open: {names} names, {headers} header mended", 11)
    panel(p, 20, 570, 1, "After store 2 and finishing", done, "not cut", taken(done))
    panel(p, 500, 570, 1, "After the cut and an opening", opened, f"open stored {pool.name(stale.mend[0][0])} := {hexed(stale.mend[0][1])}", taken(opened))
    p.text(480, 930, "The last two pools and maps are equal, word for word and byte for byte.", 12, anchor="middle", bold=True)
    p.height = 948
    return p


# ---- the layout


def word_box(p, x, y, w, number, name, text, fill):
    p.text(x + 3, y - 4, str(number), 10, FAINT, mono=True)
    p.box(x, y, w, 34, fill)
    p.text(x + w / 2, y + 13, name, 10, FAINT, "middle")
    p.text(x + w / 2, y + 28, text, 10, INK, "middle", True)


def layout_words(p, pool, y):
    """All words of a small pool, in the order of their numbers, a line for the front and one for each node."""
    reached = {i for i, byte in enumerate(pool.map) if byte}
    word_box(p, 20, y, 60, 0, "N", str(pool.words[0]), PAPER)
    word_box(p, 80, y, 60, 1, "root", str(pool.words[1]), PAPER)
    for i in range(PLACES):
        w = pool.leaf_word(i)
        fill = GREEN if i in reached else GREY
        word_box(p, 160 + 196 * i, y, 126, w, f"leaf {i} key", hexed(pool.words[w]), fill)
        word_box(p, 286 + 196 * i, y, 60, w + 1, "value", str(pool.words[w + 1]), fill)
    for j in range(PLACES - 1):
        y += 64
        w = pool.node_word(j)
        used = PLACES + j in reached
        word_box(p, 20, y, 124, w, f"node {j} header", hexed(pool.words[w]) if used else "left over", PALE if used else GREY)
        for c in range(16):
            text = str(pool.words[w + 1 + c]) if used else ""
            word_box(p, 148 + 49.5 * c, y, 49.5, w + 1 + c, f"child {c:x}", text, PALE if used else GREY)
    return y + 64


def layout_header(p, library, y):
    """A header's three fields, on document 01's example."""
    pool = Pool(library, 2).format()
    first, second = 0x1234567800000000, 0x1234567900000000
    pool.put(first, 1)
    pool.put(second, 2)
    word = pool.words[pool.node_word(0)]
    p.text(20, y, "A header word", 14, bold=True)
    p.text(150, y, f"of a root node over the two names {hexed(first)} and {hexed(second)}:", 11, FAINT)
    fields = [("bits 63..56: depth", word >> 56, 2, 150), ("bits 55..48: length", word >> 48 & 255, 2, 150), ("bits 47..0: the first twelve digits of the prefix, unused places 0", word & (1 << 48) - 1, 12, 420)]
    x = 20
    for name, value, digits, width in fields:
        p.box(x, y + 30, width, 26, PALE)
        p.text(x + 4, y + 25, name, 11)
        p.text(x + width / 2, y + 48, f"{value:0{digits}x}", 13, anchor="middle", mono=True)
        x += width
    p.text(x + 12, y + 48, f"branches at digit {(word >> 56) + (word >> 48 & 255)}", 11)
    return y + 88


def layout_references(p, y):
    p.text(20, y, "A reference", 14, bold=True)
    spans = [("0", "empty", 70, PAPER), ("1 to 1024", "leaf number r - 1", 300, GREEN), ("1025 to 2047", "node number r - 1025", 300, PALE), ("any other, or past this pool's leaves or nodes", "damage", 250, ROSE)]
    x = 20
    for numbers, meaning, width, fill in spans:
        p.box(x, y + 30, width, 26, fill)
        p.text(x + 2, y + 25, numbers, 10, mono=len(numbers) < 14)
        p.text(x + width / 2, y + 47, meaning, 12, anchor="middle")
        x += width
    return y + 88


def layout_map(p, pool, y):
    p.text(20, y, "The map", 14, bold=True)
    p.text(150, y, "2N - 1 bytes beside the pool, lost at a cut and made anew by open: 0 is free, any other value taken", 11, FAINT)
    for i, byte in enumerate(pool.map):
        leaf = i < PLACES
        p.text(22 + 80 * i, y + 25, str(i), 10, FAINT, mono=True)
        p.box(20 + 80 * i, y + 30, 80, 34, (GREEN if leaf else PALE) if byte else GREY)
        p.text(60 + 80 * i, y + 43, f"leaf {i}" if leaf else f"node {i - PLACES}", 10, FAINT, "middle")
        p.text(60 + 80 * i, y + 58, str(byte), 11, INK, "middle", True)
    return y + 84


def picture_layout(library):
    pool = three_names(library)
    pool.put(NEW, FILE)
    p = Picture(960, 700, "The layout of a pool")
    p.text(20, 28, f"A pool of N = {PLACES} places with {len(pool.list())} names: {len(pool.words)} words of 8 bytes", 16, bold=True)
    p.text(20, 48, "Word 0 is N, word 1 the root reference. Leaf i begins at word 2 + 2i, node j at word 2 + 2N + 17j; in all 19N - 15 words.", 12)
    legend(p, 20, 72, [(GREEN, INK, "leaf in use"), (PALE, INK, "node in use"), (GREY, INK, "free: whatever was there before")])
    p.text(530, 72, "The number of each word stands above it.", 11, FAINT)
    y = layout_words(p, pool, 106)
    y = layout_references(p, y + 6)
    y = layout_header(p, library, y + 6)
    p.height = layout_map(p, pool, y + 6)
    return p


# ---- the walk-through


def memory(state, pool):
    """The words that are not left over, a line for each leaf and node."""

    def text(word):
        return written(pool, word, state.words[word])

    lines = [f"word  0  N       {state.words[0]}", f"word  1  root    {state.words[1]}"]
    for i in range(PLACES):
        w = pool.leaf_word(i)
        lines.append(f"word {w:2}  leaf {i}  key {text(w)}  value {text(w + 1)}")
    for j in range(PLACES - 1):
        w = pool.node_word(j)
        children = [f"{c:x}: {text(w + 1 + c)}" for c in range(16) if state.words[w + 1 + c]]
        if all(state.words[w + 1 + c] == LEFT_OVER for c in range(16)):
            children = ["all left over"]
        lines.append(f"word {w:2}  node {j}  header {text(w)}  children {', '.join(children)}")
    return "```text\n" + "\n".join(lines) + "\n```"


def walk_row(pool, plan, made, before, state):
    word, value = plan.stores[made - 1]
    found = " ".join("absent" if v is None else f"{v}" for v, _ in state.lookups)
    nodes = " ".join(str(n) for _, n in state.lookups)
    mend = "none" if not state.mend else f"{pool.name(state.mend[0][0])} := {hexed(state.mend[0][1])}"
    was, becomes = written(pool, word, before.words[word]), written(pool, word, value)
    return f"| {made} | {word} | {pool.name(word)} | {was} | {becomes} | {found} | {nodes} | {state.listed()} | {mend} |"


def subsets(stores):
    return [list(part) for size in range(len(stores) + 1) for part in itertools.combinations(stores, size)]


def numbers(stores):
    """Stores by their numbers, from 1 on."""
    return ", ".join(str(at + 1) for at in stores)


def group_row(what, states):
    """A row for states that answer alike."""
    (answers,) = {(tuple(v for v, _ in s.lookups), s.listed(), tuple(s.mend)) for s in states}
    found = " ".join("absent" if v is None else f"{v}" for v in answers[0])
    mend = ", ".join(f"{states[0].pool.name(word)} := {hexed(value)}" for word, value in answers[2]) or "none"
    return f"| {what} | {len(states)} | {found} | {answers[1]} | {mend} |"


def too_early(pool):
    """What is wrong where the last store arrived before another: a call meets damage, or the new name has a file number that was never given."""
    try:
        pool.list()
        found = [pool.lookup(key)[0] for key in KEYS]
        pool.copy().open()
    except Refused:
        return "damage"
    assert found[:3] == [1, 2, 3] and found[3] == LEFT_OVER
    return "number"


def walk_groups(start, plan):
    """The put's two groups: what a cut leaves when a group's stores arrive in any order, and what it could leave without the fence between."""
    first, last = range(plan.first), len(plan.stores) - 1
    assert plan.fences == 2
    chosen = [at for at in first if plan.stores[at][1]]
    others = [at for at in first if not plan.stores[at][1]]
    header = first[-1]
    arrived = [part + more for part in subsets(chosen) for more in ([], others)]
    cut = [(part, State(start.left(plan, part))) for part in arrived]
    rows = [
        group_row(f"some of 1 to {header + 1}, without {header + 1}", [state for part, state in cut if header not in part]),
        group_row(f"some of 1 to {header + 1}, with {header + 1}", [state for part, state in cut if header in part]),
        group_row(f"1 to {header + 1}, then {last + 1}", [State(start.left(plan, [*first, last]))]),
    ]
    early = [too_early(start.left(plan, [last, *part])) for part in arrived if len(part) < len(first)]
    return f"""The plan's stores are in two groups: 1 to {header + 1}, then {last + 1}. On ADR the caller puts a fence after store {header + 1} and one after store {last + 1}, before the next operation begins; its plan says 2 fences. On eADR stores arrive in their order, and the plan says none.
Between two fences of ADR stores may reach memory in any order. So a cut in the first group leaves any of its stores, and not only the first rows of the table.

Tried here with the library: of the first group the {len(chosen)} stores that write something other than 0 ({numbers(chosen)}), every subset of them, with none of the other {len(others)} and with all.

| arrived | tried | lookup {' '.join(short(k) for k in KEYS)} | listing | open mends |
|---|---|---|---|---|
{chr(10).join(rows)}

This is what the fence after store {header + 1} is for. Were store {last + 1} to arrive with one of these subsets and not with the whole group, each of the {len(early)} would be wrong: in {early.count("damage")} a call meets damage, in {early.count("number")} the new name has a file number that was never given."""


def walkthrough(library):
    pool = three_names(library)
    start = State(pool)
    plan = pool.plan_put(NEW, FILE)
    states = run(pool, plan)
    turn = switch(states)
    rows = [walk_row(pool, plan, i, states[i - 1], states[i]) for i in range(1, len(states))]
    _, leaf, other, _ = start.tree[5][NEW >> 4 * (15 - start.tree[3] - start.tree[4]) & 15]
    stale = [i for i in range(len(states)) if states[i].mend]
    half = states[turn - 1]
    again = half.pool.copy()
    names, headers = again.open()
    retried = again.plan_put(NEW, FILE)
    assert stale == [turn - 1] and len(retried.stores) == len(plan.stores)
    return f"""# The half-split node, store by store

Made by `tools/pictures.py` from the running library, which plans the put and makes its stores one step at a time: every word, answer and listing below is what the library's calls left and said. The names are those of
document 01's example: {', '.join(hex(k) for k in KEYS)}, with file numbers 1 to 4. The pool has {PLACES} places ({len(pool.words)} words); what its words held before it was formatted is
called "left over" ({hexed(LEFT_OVER)} here), and it plays no part. Keys and headers are in hexadecimal, references and file numbers in decimal. 
The pool's layout, drawn as it is after the put:

![The layout of the pool, after the put](pictures/layout.svg)

## Before

Three names are held. They differ in digit 15 alone, so one node leads to them: node 0, depth 0, length 15, with the children 0, 2 and f. Children that are not shown are 0, empty. A reference r of 1 to 1024 is to leaf r - 1, one from 1025 on to node r - 1025.

{memory(start, pool)}

The listing is {start.listed()}. A lookup of {short(NEW)} passes node 0 and comes to leaf {leaf}, whose key is {hex(other)}: absent.

## The put of {hex(NEW)}, {len(plan.stores)} stores

{hex(NEW)} first differs from the names below node 0 in digit 14, and node 0 branches at digit 15: the reference to node 0 is split. A new leaf and a new node are written, which nothing refers to yet;
then node 0's header says where node 0 will be met; last, the root refers to the new node. "lookup" is the file number of each of the four names in turn, "nodes" how many nodes each lookup passed, and "open mends" the header that an opening would rewrite if power went right after this store.

| store | word | which | was | becomes | lookup {' '.join(short(k) for k in KEYS)} | nodes | listing | open mends |
|---|---|---|---|---|---|---|---|---|
{chr(10).join(rows)}

![The put, store by store](pictures/split.svg)

**The switch is store {turn}, the last.** After each of the stores 1 to {turn - 1} lookup and listing are those of before the put; from store {turn} on they are those of after it. At no moment does one of them have the name without the other.

## Two groups, two fences

{walk_groups(start.pool, plan)}

## The moment of the question: {turn - 1} of {len(plan.stores)} stores made

{memory(half, pool)}

The node is half split: node 1 is whole and not referred to, and node 0's header is already that of its place below node 1, depth {half.tree[3]}, while the root still refers to node 0, at walk depth {half.tree[2]}. Node 0 is *stale*. No lookup goes wrong by it: a walk
asks only that a node's depth is not below the walk depth, and takes depth + length, which is {half.tree[3] + half.tree[4]} as before. The listing, {half.listed()}, goes the same way.

## What open mends

Power goes here, and the map is lost. Opening checks the whole pool, and rewrites the one stale header by one store: {pool.name(half.mend[0][0])}, word {half.mend[0][0]}, becomes {hexed(half.mend[0][1])} again (depth 0, length 15, digits of the names below). It answers {names} names and {headers} header.
If opening is itself cut, it was cut before that store or after it; the next one finds the same header to mend, or none. The map it makes marks {sum(again.map)} slots, so the leaf and the node that the put had begun to use are free again, and the put, made again, has its {len(retried.stores)} stores.

{memory(State(again), again)}

A cut before store {turn - 1} has arrived, or after store {turn}, leaves nothing to mend.

## After the put

{memory(states[-1], pool)}

The listing is {states[-1].listed()}. A delete of {hex(NEW)} goes the other way, by two stores with the switch first, each a group with a fence behind it. On ADR every operation needs its last fence before the next one begins: after a delete of one store the next put could else fill the freed leaf in memory while the old reference still leads there.

![The delete, its stale node, and the opening that mends it](pictures/merge.svg)
"""


def main():
    if sys.argv[1:] not in ([], ["--check"]):
        sys.exit(__doc__)
    docs = ROOT / "docs"
    with tempfile.TemporaryDirectory() as directory:
        library = load(directory)
        made = {
            docs / "pictures" / "split.svg": str(picture_split(library)),
            docs / "pictures" / "merge.svg": str(picture_merge(library)),
            docs / "pictures" / "layout.svg": str(picture_layout(library)),
            docs / "WALKTHROUGH.md": walkthrough(library),
        }
    if sys.argv[1:]:
        other = [str(f.relative_to(ROOT)) for f, text in made.items() if not f.exists() or f.read_text() != text]
        if other:
            sys.exit("not what the library does: " + ", ".join(other))
        print("the pictures and the walk-through are what the library does")
        return
    (docs / "pictures").mkdir(exist_ok=True)
    for f, text in made.items():
        f.write_text(text)


main()
