"""Two spellings, one file: the first-day check.

Types names in several spellings, normalises them (NFC), makes the 64-bit name number, puts each name once and opens it by
every other spelling. Then lists the folder and opens every listed name. Ends with status 1 if a spelling misses.

The normaliser (Python's unicodedata) and the hash (BLAKE2b, 32 bits for the folder and 32 for the name) are this example's
own. They are no part of the proved library, which is handed name numbers and never sees text.

Usage: two_spellings.py [--without-normaliser]

--without-normaliser shows how a listed file could once not be opened: spellings miss, and the status is 1.
WORT_LIB_DIR says where libwort.a stands (crates/wort/out in this repository).
"""

import ctypes
import hashlib
import os
import pathlib
import subprocess
import sys
import tempfile
import unicodedata

HERE = pathlib.Path(__file__).resolve().parent
LIB_DIR = pathlib.Path(os.environ.get("WORT_LIB_DIR", HERE.parent.parent / "crates" / "wort" / "out"))

PLACES = 64
DONE, ABSENT = 0, 3

FOLDER, OTHER_FOLDER = "letters", "archive"

# What it shows, the spelling that is put, and the others that must open the same file.
NAMES = [
    ("e acute", "caf\u00e9.txt", ["cafe\u0301.txt"]),
    ("A ring", "\u00c5.txt", ["\u212b.txt", "A\u030a.txt"]),
    ("Hangul", "\uac01.txt", ["\u1100\u1161\u11a8.txt"]),
    ("two marks", "q\u0307\u0323.txt", ["q\u0323\u0307.txt"]),
    ("normal already", "plan.txt", []),
    ("ligature fi", "\ufb01le.txt", []),
    ("letters f, i", "file.txt", []),
]


class Library:
    """The calls of include/wort.h that this example makes, on one pool."""

    def __init__(self, path):
        self.c = ctypes.CDLL(str(path))
        words, bytes_ = 19 * PLACES - 15, 2 * PLACES - 1
        self.pool = (ctypes.c_uint64 * words)()
        self.map = (ctypes.c_uint8 * bytes_)()
        self.lent_pool = (self.pool, ctypes.c_size_t(words))
        self.lent = (*self.lent_pool, self.map, ctypes.c_size_t(bytes_))
        for call in (self.c.wort_format, self.c.wort_put, self.c.wort_lookup, self.c.wort_list):
            call.restype = ctypes.c_uint64
        self.must(self.c.wort_format(*self.lent, ctypes.c_uint64(PLACES)))

    @staticmethod
    def must(number):
        if number != DONE:
            sys.exit(f"the library answers {number}")

    def put(self, key, value):
        stores = ctypes.c_uint64()
        self.must(self.c.wort_put(*self.lent, ctypes.c_uint64(key), ctypes.c_uint64(value), ctypes.byref(stores)))

    def lookup(self, key):
        """The file number, or None for an absent name."""
        value, nodes = ctypes.c_uint64(), ctypes.c_uint64()
        number = self.c.wort_lookup(*self.lent_pool, ctypes.c_uint64(key), ctypes.byref(value), ctypes.byref(nodes))
        if number == ABSENT:
            return None
        self.must(number)
        return value.value

    def list(self, start):
        """Every name number from one on, with its file number."""
        keys, values = (ctypes.c_uint64 * PLACES)(), (ctypes.c_uint64 * PLACES)()
        count, more = ctypes.c_uint64(), ctypes.c_uint64()
        length = ctypes.c_size_t(PLACES)
        self.must(
            self.c.wort_list(
                *self.lent_pool, ctypes.c_uint64(start), keys, length, values, length, ctypes.byref(count), ctypes.byref(more)
            )
        )
        return list(zip(keys, values))[: count.value]


def shared_object(directory):
    """libwort.a as a shared object, which ctypes can load."""
    archive = LIB_DIR / "libwort.a"
    if not archive.exists():
        sys.exit(f"libwort.a is not in {LIB_DIR}; build it with: (cd crates/wort && rt lib)")
    made = pathlib.Path(directory) / "libwort.so"
    whole = ["-Wl,--whole-archive", str(archive), "-Wl,--no-whole-archive"]
    if subprocess.run(["gcc", "-shared", "-o", str(made), *whole]).returncode:
        sys.exit(f"gcc makes no shared object of {archive}")
    return made


def hash32(text):
    return int.from_bytes(hashlib.blake2b(text.encode(), digest_size=4).digest(), "big")


def name_number(folder, name, normalise):
    return hash32(normalise(folder)) << 32 | hash32(normalise(name))


def code_points(name):
    return " ".join(f"{ord(letter):04X}" for letter in name.removesuffix(".txt"))


def row(*cells):
    """A line of the table. The name as typed comes last: marks and wide letters push nothing out of its column."""
    widths = [14, 26, 16, 4, 6, 0]
    print("  ".join(f"{cell:<{width}}" for cell, width in zip(cells, widths)).rstrip())


def opens(found):
    return "absent" if found is None else found


def spellings(library, normalise):
    """Puts each name by its first spelling and opens it by all; the spellings that miss."""
    for file, (_, first, _) in enumerate(NAMES, start=1):
        library.put(name_number(FOLDER, first, normalise), file)
        library.put(name_number(OTHER_FOLDER, first, normalise), 100 + file)
    missed = []
    row("name", "code points before .txt", "name number", "file", "opens", "typed")
    for file, (what, first, others) in enumerate(NAMES, start=1):
        for spelling in [first, *others]:
            number = name_number(FOLDER, spelling, normalise)
            found = library.lookup(number)
            row(what, code_points(spelling), f"{number:016x}", file, opens(found), spelling)
            if found != file:
                missed.append(f"{what} typed as {code_points(spelling)}")
    return missed


def listing(library, normalise):
    """Opens every name that the folder lists; those that do not open, and those put and not listed."""
    folder = hash32(normalise(FOLDER))
    put = {name_number(FOLDER, first, normalise): first for _, first, _ in NAMES}
    listed = [(key, file) for key, file in library.list(folder << 32) if key >> 32 == folder]
    missed = [f"not listed: {name}" for key, name in put.items() if key not in dict(listed)]
    print()
    row("listed", "", "name number", "file", "opens", "name")
    for key, file in listed:
        found = library.lookup(key)
        row("", "", f"{key:016x}", file, opens(found), put.get(key, "put by no one"))
        if found != file or key not in put:
            missed.append(f"listed {key:016x}")
    print()
    return missed


def main():
    sys.stdout.reconfigure(errors="backslashreplace")
    words = sys.argv[1:]
    if words not in ([], ["--without-normaliser"]):
        sys.exit(__doc__)
    nothing = "The normaliser is left out: every spelling is a name of its own.\n"
    own = "The normaliser (NFC) and the hash are this example's own, not part of the proved library.\n"
    print(nothing if words else own)

    def normalise(text):
        return text if words else unicodedata.normalize("NFC", text)

    with tempfile.TemporaryDirectory() as directory:
        library = Library(shared_object(directory))
        missed = spellings(library, normalise) + listing(library, normalise)
    if missed:
        sys.exit("\nMISSED: " + "; ".join(missed))
    print("Every spelling opens its file, and every listed name opens.")


main()
