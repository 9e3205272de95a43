#!/usr/bin/env python3
"""Spells the definitions and lemmas of this repository as today's Rattle spells names: words in snake case, joined by underscores.

Usage: respell.py [PLACE ..]      PLACE is a file or a folder below the top of the repository; all of crates/ if none is given.

tools/respelled.tsv has a row for each name that changes: as it was, a tab, as it is now. It was made of the names that the files of specs/ and proofs/ declare;
types, facts and constructors in capitals keep theirs, and a lemma that would meet a definition ends in `_lem`. Functions of src/ keep their names.
Run once, on the tree that the kit's port.py left.

In .antt files each word that is a row turns, but for a name that Rattle makes for the file; in comments only a name that no prose has (with a capital inside)
or one between backquotes. In .rt files clauses, `ghost use` lines and comments turn, in .edit files the texts, in .md files what stands between backquotes.
"""

import pathlib
import re
import sys

ROOT = pathlib.Path(__file__).resolve().parent.parent
ROWS = dict(line.split("\t") for line in (ROOT / "tools" / "respelled.tsv").read_text().splitlines())
WORD = re.compile(r'[^\s(){}.;,@"«»`\[\]:|]+')
SPAN = re.compile(r"`[^`\n]*`")
MADE = re.compile(r"(?m)^([^\s:]+) : tie\.")
CLAUSE = re.compile(r"^\s*(requires|ensures|ghost)\b")
PROSE = {a: b for a, b in ROWS.items() if re.search(r"[a-z0-9][A-Z]", a) and a != "eADR"}


def words(text, rows):
    return WORD.sub(lambda m: rows.get(m[0], m[0]), text)


def comment(text):
    """Prose: a name with a capital inside turns anywhere, any other between backquotes alone."""
    text = SPAN.sub(lambda m: words(m[0], ROWS), text)
    return words(text, PROSE)


def antt(text):
    made = set(MADE.findall(text))
    rows = {a: b for a, b in ROWS.items() if a not in made}
    out = []
    for line in text.split("\n"):
        code, mark, rest = (line, "", "") if not re.search(r"(^|\s)-- ?", line) else re.match(r"(.*?(?:^|\s))(--)(.*)$", line).groups()
        out.append(words(code, rows) + mark + comment(rest))
    return "\n".join(out)


def rt(text):
    out, depth = [], 0
    for line in text.split("\n"):
        code, mark, rest = (line, "", "") if "//" not in line else re.match(r"(.*?)(//)(.*)$", line).groups()
        if depth or CLAUSE.match(code):
            depth += code.count("{") - code.count("}")
            code = words(code, ROWS)
        out.append(code + mark + comment(rest))
    return "\n".join(out)


def edit(text):
    out, turn = [], rt
    for line in text.split("\n"):
        if line.startswith("file: "):
            turn = antt if line.endswith(".antt") else rt
        head, mark, rest = line.partition(": ")
        out.append(head + mark + turn(rest) if head in ("old", "new") else "#" + comment(line[1:]) if line.startswith("#") else line)
    return "\n".join(out)


TURNS = {".antt": antt, ".rt": rt, ".edit": edit, ".md": lambda text: SPAN.sub(lambda m: words(m[0], ROWS), text)}


def main():
    for place in sys.argv[1:] or ["crates"]:
        top = ROOT / place
        for path in sorted(top.rglob("*")) if top.is_dir() else [top]:
            if path.is_file() and path.suffix in TURNS and "out" not in path.relative_to(ROOT).parts:
                was = path.read_text()
                now = TURNS[path.suffix](was)
                if now != was:
                    path.write_text(now)


main()
