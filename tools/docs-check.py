#!/usr/bin/env python3
"""Holds the documents against the repository: whatever they name has to be there, and whatever they count has to be so.

Usage: docs-check.py [--write]      --write puts the counted numbers into the documents.

Read: README.md, docs/*.md, host/README.md; but not docs/PORT.md and docs/DESIGN-PASS.md, which speak of names that are gone. Blocks between ``` are not read, but
README's first block of C has to be examples/hello.c, and each other one has to stand in examples/durable.c and in the comment of include/wort.h.

A link [..](path) has to lead to a file or folder, seen from its document; #place has to be a heading there.

Each `text in backticks` has to be one of these:
- a path, seen from the root, from its document or from crates/, or the name of some file;
- `make TARGET` with a target of the Makefile, or another command whose paths are there;
- names: of a definition, law, function, type, case or field in crates/ (.antt, .rt), of a crate, of a must-fail edit, of
  include/wort.h, or one of the words listed below as OTHERS. Names of one or two letters are not looked up.

A count is a number in a table whose column is headed "lines", "files" or "edits", with a path in the row's first cell (a row "all"
is the sum of the rows above it), or a text "`path`: N lines", "N files" or "N edits". Columns headed "definitions", "code" and
"proofs" count the lines below the path's folders specs, src and proofs.

In docs/AUDIT.md, the table of files below "What a reader must believe" has to list just the files that the statements of
crates/demands and the contracts of the C interface, crates/wort, reach through their `use` lines, and the table below "What a
reader need not believe" the others.
Mistakes.antt in crates/demands promises nothing and is no statement.

The counting rule. A line counts unless it is blank, only a comment (-- or // or #), or a `use`, `ghost use` or `mod` line; files are
.antt, .rt, .rs, .c, .h, .py and .sh below the path, Lib.antt left out; edits are the .edit files below the path.
"""

import pathlib
import re
import sys

ROOT = pathlib.Path(__file__).resolve().parent.parent
DOCUMENTS = [ROOT / "README.md", *sorted(f for f in (ROOT / "docs").glob("*.md") if f.name not in ("PORT.md", "DESIGN-PASS.md")), ROOT / "host" / "README.md"]
SOURCES = {".antt", ".rt", ".rs", ".c", ".h", ".py", ".sh"}
MADE = ("build/", "crates/wort/out/", "crates/names/out/", "host/target/")  # what commands make
COMMANDS = {"rt", "gcc", "cargo", "python3", "make"}
OTHERS = set(
    "let else match requires ensures use ghost pub mod struct enum array u64 u8 usize leading_zeros specs src proofs declared"
    " unicodedata NFC BTreeMap LMDB JudyL NOSYNC WRITEMAP libwort passed failed logic proved number stdin stdout SEED COUNT MOST"
    " WORT_LIB_DIR WORT_LIB_NAME FILE DIR release bin long exhaust can-fail by-plan memcpy memset"
    " length take drop get_or set replicate".split()  # the toolchain's lists
)
NAME = re.compile(r"[^\W\d][\w′₀-₉'≤≥<>≡-]*", re.U)
DEFINED = re.compile(r"^\s*(?:\|\s*)?(?:(?:unfoldable|abbrev|pub|record|data|module|mod)\s+)*([^\W\d][^\s:(){}.;,]*)\s*(?:\{[^}]*\}\s*)*(?:[:({]|where)", re.U)
DECLARED = re.compile(r"\b(?:fn|struct|enum|const|type|mod)\s+(\w+)|^\s*(?:pub\s+)?(\w+)(?::|\(|,|\s*\{)", re.M)
USED = re.compile(r"^(?:ghost )?use Rattle\.(\w+)\.specs\.(\w+)", re.M)
FOLDERS = {"definitions": "specs", "code": "src", "proofs": "proofs"}
COUNTED = {"lines", "files", "edits", *FOLDERS}
COUNT = re.compile(r"`([^`\s]+)`: ([\d,]+) (lines|files|edits)")


def is_made(file):
    """Whether commands made a file, and the repository does not have it."""
    return bool({"target", "build", "out", ".git"} & set(file.relative_to(ROOT).parts))


def sources(path):
    """The source files at a path, a file or a folder."""
    found = [path] if path.is_file() else sorted(path.rglob("*"))
    return [f for f in found if f.suffix in SOURCES and f.name != "Lib.antt" and not is_made(f)]


def counts(line):
    text = line.strip()
    return bool(text) and not re.match(r"(--|//|#(?!\[)|/\*|\*|use |ghost use |(pub )?mod )", text)


def counted(path, what):
    if what == "edits":
        return sum(not is_made(f) for f in path.rglob("*.edit"))
    if what == "files":
        return len(sources(path))
    path = path / FOLDERS.get(what, "")
    return sum(counts(line) for f in sources(path) for line in f.read_text().splitlines())


def known_names():
    names = set(OTHERS)
    for f in (ROOT / "crates").rglob("*"):
        if is_made(f):
            continue
        if f.suffix == ".antt":
            names.update(m.group(1) for line in f.read_text().splitlines() if (m := DEFINED.match(line)))
            names.add(f.stem)
        elif f.suffix == ".rt":
            names.update(a or b for a, b in DECLARED.findall(f.read_text()))
        elif f.suffix == ".edit":
            names.add(f.stem)
    names.update(f.name for f in (ROOT / "crates").iterdir())
    names.update(NAME.findall((ROOT / "include" / "wort.h").read_text()))
    return names


def definitions():
    """The files of definitions that the statements and the C interface reach, and the others."""
    crates = ROOT / "crates"

    def uses(file):
        return [crates / c / "specs" / f"{m}.antt" for c, m in USED.findall(file.read_text()) if m != "declared" and (crates / c).is_dir()]

    everything = {f for f in crates.glob("*/specs/*.antt") if f.name != "Lib.antt"}
    reached, ahead = set(), [f for f in everything if f.parent.parent.name in ("demands", "wort") and f.name != "Mistakes.antt"]
    ahead += [f for source in crates.glob("wort/src/*.rt") for f in uses(source)]
    while ahead:
        file = ahead.pop()
        if file not in reached:
            reached.add(file)
            ahead += uses(file)
    return reached, everything - reached


class Check:
    def __init__(self, write):
        self.write, self.faults, self.seen = write, [], 0
        self.rows = {}  # the paths that stand in tables of counts, by heading
        self.names = known_names()
        self.files = {f.name for f in ROOT.rglob("*") if not is_made(f)}
        self.targets = set(re.findall(r"^(\w+):", (ROOT / "Makefile").read_text(), re.M))

    def fault(self, place, text):
        self.faults.append(f"{place}: {text}")

    def resolved(self, document, path):
        """The file or folder that a path in a document means, or None."""
        path = path.rstrip("/")
        for base in (ROOT, document.parent, ROOT / "crates"):
            if (base / path).exists():
                return base / path
        return None

    def link(self, document, place, target):
        path, _, heading = target.partition("#")
        if re.match(r"\w+://", path):
            return
        there = document if not path else (document.parent / path).resolve()
        if not there.exists():
            self.fault(place, f"the link {target} leads nowhere")
        elif heading and heading not in headings(there):
            self.fault(place, f"{path or document.name} has no heading #{heading}")

    def command(self, words):
        if words[0] == "make":
            return all(w in self.targets or "=" in w for w in words[1:])
        return all(w.startswith(MADE) or (ROOT / w).exists() or "/" not in w or w.startswith(("./", "-")) for w in words[1:])

    def token(self, document, place, text):
        self.seen += 1
        words = text.split()
        if not words or f"{text}/".startswith(MADE):
            return
        if words[0] in COMMANDS or (len(words) > 1 and self.resolved(document, words[0])):
            if not self.command(words):
                self.fault(place, f"`{text}` is no command of this repository")
            return
        if len(words) == 1 and ("/" in text or "." in text) and re.fullmatch(r"[\w./+-]+", text):
            if not self.resolved(document, text) and text.rstrip("/").split("/")[-1] not in self.files and text != "libwort.a":
                self.fault(place, f"there is no file `{text}`")
            return
        if re.fullmatch(r"[\w-]+", text) and text in self.files:
            return
        for name in NAME.findall(text):
            if len(name) > 2 and name not in self.names and not re.fullmatch(r"0x.*", name):
                self.fault(place, f"no definition, law, function or edit is called `{name}`")

    def number(self, document, place, path, what, given):
        there = self.resolved(document, path)
        if there is None:
            self.fault(place, f"there is no `{path}` to count")
            return given
        return self.same(place, f"{path} has {{}} {what}", given, counted(there, what))

    def same(self, place, text, given, true):
        self.seen += 1
        if int(given.replace(",", "")) != true and not self.write:
            self.fault(place, text.format(f"{true:,}") + f", not {given}")
        return f"{true:,}"

    def row(self, document, place, heading, cells, heads, sums):
        """A row of a table with counts: the same row, with the counted numbers."""
        path = re.search(r"`([^`]+)`|\]\(([^)]+)\)", cells[0])
        for i, what in enumerate(heads):
            number = cells[i].strip() if i < len(cells) else ""
            if what not in COUNTED or not re.fullmatch(r"[\d,]+", number):
                continue
            if path:
                true = self.number(document, place, path.group(1) or path.group(2), what, number)
                self.rows.setdefault((document.name, heading), set()).add(self.resolved(document, path.group(1) or path.group(2)))
                sums[i] = sums.get(i, 0) + int(true.replace(",", ""))
            elif cells[0].strip() == "all":
                true = self.same(place, f"all {what} are {{}}", number, sums.get(i, 0))
            else:
                continue
            cells[i] = f" {true} "
        return "|" + "|".join(cells) + "|"

    def document(self, document):
        if not document.exists():
            self.fault(document.relative_to(ROOT), "is not there")
            return
        heading, heads, sums, fenced, lines = "", [], {}, False, []
        for n, line in enumerate(document.read_text().splitlines(), start=1):
            place = f"{document.relative_to(ROOT)}:{n}"
            fenced ^= line.startswith("```")
            if fenced or line.startswith(("```", "    ")):
                lines.append(line)
                continue
            if line.startswith("#"):
                heading = line.lstrip("# ")
            if line.startswith("|"):
                cells = line.strip().strip("|").split("|")
                if not heads:
                    heads, sums = [c.strip() for c in cells], {}
                elif COUNTED & set(heads):
                    line = self.row(document, place, heading, cells, heads, sums)
            else:
                heads = []
            line = COUNT.sub(lambda m: f"`{m[1]}`: {self.number(document, place, m[1], m[3], m[2])} {m[3]}", line)
            for target in re.findall(r"\]\(([^)\s]+)\)", line):
                self.link(document, place, target)
            for text in re.findall(r"`([^`]+)`", line):
                self.token(document, place, text)
            lines.append(line)
        if self.write:
            document.write_text("\n".join(lines) + "\n")

    def believed(self):
        for heading, true in zip(("What a reader must believe", "What a reader need not believe"), definitions()):
            given = self.rows.get(("AUDIT.md", heading), set()) - {None}
            for file in sorted(given ^ true):
                wrong = "stands and does not belong" if file in given else "is missing"
                self.fault("docs/AUDIT.md", f"{file.relative_to(ROOT)} {wrong} below {heading!r}")

    def programs(self):
        """README's first block of C is a whole example; the others, and the lines in the header's comment, are parts of another."""
        hello, durable = ((ROOT / "examples" / name).read_text() for name in ("hello.c", "durable.c"))
        blocks = re.findall(r"^```c\n(.*?)^```$", (ROOT / "README.md").read_text(), re.M | re.S)
        if blocks[:1] != [hello]:
            self.fault("README.md", "its first C program is not examples/hello.c")
        header = re.sub(r"^ \*(   )?", "", (ROOT / "include" / "wort.h").read_text(), flags=re.M)
        for block in blocks[1:]:
            for place, text in (("README.md", durable), ("include/wort.h", header)):
                if block not in text:
                    self.fault(place, f"not there as README.md and examples/durable.c have it: {block.splitlines()[0]} ..")


def headings(document):
    """The headings of a document, as links name them."""
    found = re.findall(r"^#+ (.*)$", document.read_text(), re.M)
    return {re.sub(r"[^\w -]", "", h.lower()).replace(" ", "-") for h in found}


def main():
    if sys.argv[1:] not in ([], ["--write"]):
        sys.exit(__doc__)
    check = Check(write=bool(sys.argv[1:]))
    for document in DOCUMENTS:
        check.document(document)
    check.believed()
    check.programs()
    if check.faults:
        sys.exit("\n".join(check.faults) + f"\n{len(check.faults)} faults in the documents.")
    print(f"{len(DOCUMENTS)} documents, {check.seen} names and counts: all as the repository has them")


main()
