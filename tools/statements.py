#!/usr/bin/env python3
"""Holds the statements to what was read, to the letter: tools/statements.sums has a sum for each definition of a statement file, for its
`use` and `mod` lines, and for each function of the C interface with its promise. Comments and blank lines do not count, nor do the bodies of
functions, which are proved.

Usage: statements.py [--write]      --write renews the sums, on purpose: a changed sum is what a reviewer reads.

Statement files are those of crates/demands/specs and crates/wort/specs, but Mistakes.antt, which promises nothing. Of other crates those
definitions count that the statements speak of and no code computes: a proof would not refuse it if they said less.
"""

import hashlib
import pathlib
import re
import sys

ROOT = pathlib.Path(__file__).resolve().parent.parent
SUMS = ROOT / "tools" / "statements.sums"
OTHERS = {
    "crates/finding/specs/Lookups.antt": {"Finds"},
    "crates/listing/specs/Rows.antt": {"Word", "Words"},
    "crates/survey/specs/Soundness.antt": {"slot_of", "module", "Sound", "Stale", "Straight", "InUse"},
    "crates/tree/specs/Listing.antt": {"module"},
    "crates/tree/specs/Stores.antt": {"Part"},
}
MARKS = {"unfoldable", "abbrev", "pub", "record", "data"}


def lines(path):
    """The lines of a file that are code."""
    text = path.read_text()
    if "{-" in text or "/*" in text:
        sys.exit(f"{path.relative_to(ROOT)}: a comment over several lines could hide a definition")
    for line in text.splitlines():
        line = re.sub(r"(^|\s)(--|//) .*$", "", line).rstrip()
        if line:
            yield line


def definitions(path):
    """The parts of a file of definitions, by name: a definition is all that stands below its first line until the next."""
    parts, name = {}, ""
    for line in lines(path):
        if not line.startswith((" ", "}")):
            name = next(w for w in re.split(r"[\s(){}.:]+", line) if w not in MARKS)
        parts.setdefault(name, []).append(line)
    return parts


def functions(path):
    """The functions of the C interface, by name, each from its first line to its body; and the lines that bring in what they cite."""
    parts, name = {}, ""
    for line in lines(path):
        if line.startswith(("use ", "ghost use ")):
            parts.setdefault("use", []).append(line)
        elif found := re.search(r'extern "C" fn (\w+)', line):
            name = found.group(1)
        if name and line != "{":
            parts.setdefault(name, []).append(line)
        if line.endswith("{"):
            name = ""
    return parts


def statements():
    """The sum of each part, by its file and name."""
    sums = {}
    files = [f for c in ("demands", "wort") for f in (ROOT / "crates" / c / "specs").glob("*.antt") if f.name != "Mistakes.antt"]
    parts = {str(f.relative_to(ROOT)): definitions(f) for f in files}
    for file, names in OTHERS.items():
        parts[file] = {n: p for n, p in definitions(ROOT / file).items() if n in names or n == "use"}
    for f in (ROOT / "crates" / "wort" / "src").rglob("*.rt"):
        parts[str(f.relative_to(ROOT))] = functions(f)
    for file, by_name in parts.items():
        for name, text in by_name.items():
            sums[f"{file} {name}"] = hashlib.sha256("\n".join(text).encode()).hexdigest()[:16]
    return sums


def main():
    if sys.argv[1:] not in ([], ["--write"]):
        sys.exit(__doc__)
    now = statements()
    if sys.argv[1:]:
        SUMS.write_text("".join(f"{now[part]} {part}\n" for part in sorted(now)))
    read = {part: sum for sum, _, part in (line.partition(" ") for line in SUMS.read_text().splitlines())}
    faults = []
    for part in sorted(now.keys() | read.keys()):
        file, _, name = part.partition(" ")
        if part not in now:
            faults.append(f"{file}: `{name}` is gone")
        elif part not in read:
            faults.append(f"{file}: `{name}` is new, and was not read")
        elif now[part] != read[part]:
            faults.append(f"{file}: `{name}` is not what was read")
    if faults:
        sys.exit("\n".join(faults) + "\nWhere that is meant: tools/claims.sh --write, and a reviewer reads what changed.")


main()
