"""Makes BENCHMARKS.md and bench.svg of what bench.c prints.

Usage: report.py BENCH.TSV DIRECTORY
"""

import math
import pathlib
import os
import sys
import time

NAMES = {"wort": "this library", "plain": "plain C", "judy": "JudyL", "btree": "BTreeMap", "lmdb": "LMDB"}
SHAPES = ["dense", "sparse", "clustered"]
OPERATIONS = ["put", "hit", "miss", "quick hit", "quick miss", "list", "delete"]
CAPACITIES = ["64", "256", "1024"]
# Source document 000, table 1 (b): cache lines flushed for each insertion, of 128 million keys.
PAPER = {"dense": 2.2, "sparse": 2.4, "clustered": 2.3}
# At most so many times the other's median.
TO_PLAIN = {"hit": 1.0, "miss": 1.0, "quick miss": 1.0, "put": 1.0, "list": 1.5, "delete": 1.5, "open": 1.5}
TO_JUDY = {"hit": 1.0, "quick miss": 1.0, "put": 1.0}
QUICK_HIT = 1.15
LMDB_AT_MOST = 0.1
STALE_AT_MOST = 3.0


class Figures:
    """The lines of one run, by their fields."""

    def __init__(self, path):
        self.time, self.open, self.headers, self.cost = {}, {}, {}, {}
        for line in pathlib.Path(path).read_text().splitlines():
            kind, *fields = line.split("\t")
            if kind == "time":
                shape, operation, name, time = fields
                self.time[shape, operation, name] = float(time)
            elif kind == "open":
                capacity, stale, name, time, headers = fields
                self.open[capacity, stale, name] = float(time)
                self.headers[capacity] = int(headers)
            elif kind == "cost":
                shape, operation, count, *means = fields
                self.cost[shape, operation] = (int(count), *map(float, means))

    def ratio(self, shape, operation, name, to):
        return self.time[shape, operation, name] / self.time[shape, operation, to]

    def open_ratio(self, capacity, stale, name="wort"):
        return self.open[capacity, stale, name] / self.open[capacity, stale, "plain"]

    def stale_ratio(self, capacity):
        return self.open[capacity, "all", "wort"] / self.open[capacity, "none", "wort"]


def table(head, rows):
    lines = ["| " + " | ".join(head) + " |", "|" + "---|" * len(head)]
    lines += ["| " + " | ".join(row) + " |" for row in rows]
    return "\n".join(lines) + "\n"


def short(number):
    return f"{number:.0f}" if number >= 100 else f"{number:.1f}"


def time_table(figures):
    head = ["keys", "operation", *NAMES.values(), "to plain C", "to JudyL", "LMDB to it"]
    rows = []
    for shape in SHAPES:
        for operation in OPERATIONS:
            times = [short(figures.time[shape, operation, name]) for name in NAMES]
            to = [figures.ratio(shape, operation, "wort", "plain"), figures.ratio(shape, operation, "wort", "judy")]
            lmdb = figures.ratio(shape, operation, "lmdb", "wort")
            rows.append([shape, operation, *times, *[f"{ratio:.2f}" for ratio in to], f"{lmdb:.1f}"])
    return table(head, rows)


def open_table(figures):
    head = ["N", "stale headers", "this library", "plain C", "to plain C", "to none stale"]
    rows = []
    for capacity in CAPACITIES:
        for stale in ["none", "all"]:
            times = [short(figures.open[capacity, stale, name] / 1000) for name in ["wort", "plain"]]
            headers = str(figures.headers[capacity]) if stale == "all" else "0"
            to_none = figures.open[capacity, stale, "wort"] / figures.open[capacity, "none", "wort"]
            rows.append([capacity, headers, *times, f"{figures.open_ratio(capacity, stale):.2f}", f"{to_none:.2f}"])
    return table(head, rows)


def cost_table(figures):
    head = ["keys", "operation", "of these", "stores", "ordered groups", "parts", "lines", "flushes"]
    rows = []
    for (shape, operation), (count, *means) in figures.cost.items():
        if count:
            rows.append([shape, operation, str(count), *[f"{mean:.2f}" for mean in means]])
    return table(head, rows)


def paper_table(figures):
    head = ["keys", "parts", "lines flushed", "WORT in source document 000"]
    rows = []
    for shape in SHAPES:
        _, _, _, parts, _, flushes = figures.cost[shape, "put, new key"]
        rows.append([shape, f"{parts:.2f}", f"{flushes:.2f}", f"{PAPER[shape]:.1f}"])
    return table(head, rows)


def noise(figures, operation):
    """How far plain C lies from a second copy of itself, as a ratio of 1 or more."""
    if operation == "open":
        ratios = [figures.open_ratio(capacity, stale, "again") for capacity in CAPACITIES for stale in ["none", "all"]]
    else:
        ratios = [figures.ratio(shape, operation, "again", "plain") for shape in SHAPES]
    return max(max(ratio, 1 / ratio) for ratio in ratios)


def verdict(ratio, most, apart=1.0):
    if ratio <= most:
        return "held"
    return "within the noise" if ratio <= most * apart else "MISSED"


def aims(figures):
    """Each aim, the worst ratio met, and whether it holds."""
    found = []
    for operation, most in TO_PLAIN.items():
        if operation == "open":
            worst = max(figures.open_ratio(capacity, stale) for capacity in CAPACITIES for stale in ["none", "all"])
        else:
            worst = max(figures.ratio(shape, operation, "wort", "plain") for shape in SHAPES)
        held = verdict(worst, most, noise(figures, operation))
        found.append((f"{operation}: at most {most:.1f} of plain C", worst, held))
    for operation, most in TO_JUDY.items():
        for shape in SHAPES:
            ratio = figures.ratio(shape, operation, "wort", "judy")
            found.append((f"{operation}, {shape}: at most {most:.1f} of JudyL", ratio, verdict(ratio, most)))
    worst = max(figures.time[shape, "quick hit", "wort"] / figures.time[shape, "hit", "wort"] for shape in SHAPES)
    found.append((f"quick hit: at most {QUICK_HIT} of a hit", worst, verdict(worst, QUICK_HIT)))
    slowest = max(figures.ratio(shape, "put", "wort", "lmdb") for shape in SHAPES)
    found.append(("put: at most 0.1 of LMDB", slowest, verdict(slowest, LMDB_AT_MOST)))
    worst = max(figures.stale_ratio(capacity) for capacity in CAPACITIES)
    found.append((f"open, every header stale: at most {STALE_AT_MOST:.0f} of none stale", worst, verdict(worst, STALE_AT_MOST)))
    return found


def aim_table(figures):
    rows = [[aim, f"{ratio:.2f}", held] for aim, ratio, held in aims(figures)]
    return table(["aim", "worst ratio", "outcome"], rows)


def noise_line(figures):
    return ", ".join(f"{operation} {noise(figures, operation):.2f}" for operation in TO_PLAIN)


def toolchain():
    """The toolchain that the project is pinned to, by the first word of its file."""
    with open(os.path.join(os.path.dirname(os.path.abspath(__file__)), "../tools/toolchain")) as file:
        return file.read().split()[0]


def page(figures):
    return f"""# Times and costs

Written by `make bench` on {time.strftime("%Y-%m-%d")}, with {toolchain()}. All were measured side by side in one run: medians of 201 rounds, each from
an empty table to an empty table, the order of the contenders changing with each round. **The ratios hold; the absolute times do not**: they are of
one machine at one moment, with other work beside.

![Times as ratios to plain C](bench.svg)

- *plain C* is bench/plain.c: the same rules, written for speed, gcc -O3, no checks but the document's.
- *JudyL* and *BTreeMap* (Rust's) are tables in ordinary memory: a cut loses them. No operation here is flushed.
- *LMDB* makes one transaction an operation, each synchronised as it must be to survive a cut, to a file in memory: no disk is
  waited for.

## Times

Nanoseconds for each key, 1,024 keys. *Dense*: 1 to 1,024. *Sparse*: 64 random bits. *Clustered*: sixteen folders, 32 random bits
of folder and 32 of name; the names missed are of the same folders. Quick hits and misses are of `wort_lookup_quick`; JudyL, BTreeMap
and LMDB have one lookup, timed once more. Listing is one call for all keys.

{time_table(figures)}
Opening, microseconds a call, N keys held:

{open_table(figures)}
## Aims

{aim_table(figures)}
Noise: plain C lies apart from a second copy of itself by up to these ratios in this run: {noise_line(figures)}.

## What an operation costs to make persistent

Means over 1,024 keys in random order, from the library's plans. A group is what may arrive in any order between two fences: for a
put everything but the last store, then the last; for a delete the switch, then the header. On ADR each group takes a fence, on eADR none. Lines are distinct 64-byte lines, of a
pool that begins on one; a line is flushed once for each group that stores to it. Parts are what the paper's algorithm 1 flushes, a
call for each: leaf, new node, header, reference. Opening stores one header, in one line and one group, for each that is stale.

{cost_table(figures)}
A put of a new key against the paper's figures (table 1 (b): flushes an insertion, 128 million keys):

{paper_table(figures)}
The paper does not say how many flushes its new node counts for. As parts it is one, as lines three, for its seventeen words.
"""


# ---- the plot ----

COLOURS = {"wort": "#0072b2", "plain": "#999999", "judy": "#e69f00", "btree": "#009e73", "lmdb": "#cc79a7"}
WIDTH, HEIGHT, LEFT, TOP, GAP = 1380, 380, 56, 64, 24
LOWEST, HIGHEST = 0.1, 1000.0
MARKS = [0.1, 1, 10, 100, 1000]


def height_of(ratio, room):
    """Where a ratio stands on the logarithmic scale, from the bottom of the panel."""
    held = min(max(ratio, LOWEST), HIGHEST)
    return room * math.log(held / LOWEST) / math.log(HIGHEST / LOWEST)


def text(x, y, words, anchor="middle", size=12):
    return f'<text x="{x:.1f}" y="{y:.1f}" text-anchor="{anchor}" font-size="{size}">{words}</text>'


def bar(x, width, base, ratio, room, name, told):
    tall = height_of(ratio, room)
    return (
        f'<rect x="{x:.1f}" y="{base - tall:.1f}" width="{width:.1f}" height="{tall:.1f}" fill="{COLOURS[name]}">'
        f"<title>{told}</title></rect>"
    )


def panel(figures, shape, left, wide, base, room):
    parts = [text(left + wide / 2, TOP - 10, shape, size=14)]
    for mark in MARKS:
        y = base - height_of(mark, room)
        strong = ' stroke-width="1.5"' if mark == 1 else ' stroke-dasharray="2 3"'
        parts.append(f'<line x1="{left:.1f}" x2="{left + wide:.1f}" y1="{y:.1f}" y2="{y:.1f}" stroke="#555"{strong}/>')
    group = wide / len(OPERATIONS)
    width = group * 0.8 / len(NAMES)
    for i, operation in enumerate(OPERATIONS):
        start = left + group * (i + 0.1)
        for j, name in enumerate(NAMES):
            ratio = figures.ratio(shape, operation, name, "plain")
            told = f"{shape}, {operation}, {NAMES[name]}: {ratio:.2f}"
            parts.append(bar(start + j * width, width * 0.9, base, ratio, room, name, told))
        parts.append(text(left + group * (i + 0.5), base + 16, operation, size=11))
    return parts


def legend():
    parts = []
    for i, (name, words) in enumerate(NAMES.items()):
        x = LEFT + i * 130
        parts.append(f'<rect x="{x}" y="{HEIGHT - 24}" width="12" height="12" fill="{COLOURS[name]}"/>')
        parts.append(text(x + 18, HEIGHT - 14, words, anchor="start"))
    return parts


def plot(figures):
    base, room = HEIGHT - 64, HEIGHT - 64 - TOP
    wide = (WIDTH - LEFT - GAP * len(SHAPES)) / len(SHAPES)
    parts = [
        f'<svg xmlns="http://www.w3.org/2000/svg" width="{WIDTH}" height="{HEIGHT}" viewBox="0 0 {WIDTH} {HEIGHT}"'
        ' font-family="sans-serif" fill="#222">',
        f'<rect width="{WIDTH}" height="{HEIGHT}" fill="#fff"/>',
        text(LEFT, 24, "Time for each key as a ratio to plain C (medians of one run; lower is quicker)", "start", 15),
    ]
    for mark in MARKS:
        parts.append(text(LEFT - 8, base - height_of(mark, room) + 4, f"{mark:g}", anchor="end"))
    for i, shape in enumerate(SHAPES):
        parts += panel(figures, shape, LEFT + i * (wide + GAP), wide, base, room)
    return "\n".join([*parts, *legend(), "</svg>"]) + "\n"


def main():
    if len(sys.argv) != 3:
        sys.exit(__doc__)
    figures = Figures(sys.argv[1])
    docs = pathlib.Path(sys.argv[2])
    (docs / "BENCHMARKS.md").write_text(page(figures))
    (docs / "bench.svg").write_text(plot(figures))
    for aim, ratio, held in aims(figures):
        print(f"{held:<16}  {ratio:6.2f}  {aim}")


main()
