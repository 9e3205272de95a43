#!/usr/bin/env python3
"""Writes the scripts that the program `scripts` runs, beside those that were given, and what model.py says that they answer.

    scripts.py CRATE

In the folder CRATE, a script is data/NAME.in, and what it answers data/NAME.out. The files `stdin` and `stdout` of CRATE, the list of all
scripts and what the program says of each, are written too. The same files are written each time.
"""
import os
import random
import sys

import model

MOST = 2 ** 64 - 1


def put(key, value):
    return "P\t%016x\t%d" % (key, value)


def delete(key):
    return "D\t%016x" % key


def get(key):
    return "G\t%016x" % key


def cut(n):
    return "C\t%d" % n


def wrong():
    """Each kind of wrong line, by itself and where a cut waits for its P or D."""
    key = "%016x" % 0x200
    kinds = [
        "", " ", "\t", "L ", "L\t", " L", "l", "LL", "E", "?", "X", "E\t3",
        "P", "P\t", "P\t" + key, "P\t" + key + "\t", "P\t\t1", "P\t" + key + "\t\t1", "P\t\t" + key + "\t1", "P\t" + key + "\t1\t", "P\t" + key + "\t1\t1",
        "P " + key + " 1", "P\t" + key + " 1", "p\t" + key + "\t1", "P\t1\t" + key,
        "P\t" + key + "\t01", "P\t" + key + "\t00", "P\t" + key + "\t+1", "P\t" + key + "\t-1", "P\t" + key + "\t1.0", "P\t" + key + "\t1e3", "P\t" + key + "\t0x1", "P\t" + key + "\ta",
        "P\t" + key + "\t 1", "P\t" + key + "\t1 ", "P\t" + key + "\t18446744073709551616", "P\t" + key + "\t99999999999999999999", "P\t" + key + "\t184467440737095516150",
        "D", "D\t", "D\t" + key[1:], "D\t0" + key, "D\t" + key + "\t", "D\t" + key + "\t1", "D\t" + key[:-1] + "F", "D\t" + key[:-1] + "g", "D\t0x" + key[2:], "D\t" + key[:-1] + " ",
        "G", "G\t", "G\t" + key[1:], "G\t0" + key, "G\t" + key.replace("2", "A"), "G\t" + key + "\t", "G " + key,
        "C", "C\t", "C\t22", "C\t00", "C\t021", "C\t-1", "C\t+1", "C\t1\t", "C\t 1", "C 1", "C\t18446744073709551616", "C\tf",
    ]
    lines = [put(0x200, 7)]
    for kind in kinds:
        lines += [kind, get(0x200), cut(1), kind, put(0x202, 8), delete(0x202)]
    for kind in [get(0x200), "L", cut(2), cut(22), "C\t2\r"]:
        lines += [cut(0), kind, put(0x202, 8), delete(0x202)]
    return lines


def full(random_):
    """A pool that is filled, refuses another key, gives room again and is listed whole."""
    keys = [random_.getrandbits(64) for _ in range(256)]
    lines = [put(k, MOST - i) for i, k in enumerate(keys)] + ["L"]
    lines += [put(5, 5), get(5), put(keys[9], 0), get(keys[9])]
    for n in (0, 3, 21):
        lines += [cut(n), put(6, 6), cut(n), put(keys[0], n), cut(n), delete(7)]
    lines += [delete(keys[3]), put(5, 5), put(6, 6), delete(5), delete(keys[200]), put(keys[3], 1), put(keys[200], 2), put(8, 8), "L"]
    return lines


def emptied(random_):
    """A pool that is emptied and used again, in several orders."""
    lines = []
    for turn in range(4):
        keys = [random_.getrandbits(64) for _ in range(20)] + [turn << 60 | k for k in range(20)] + [turn << 32 | k << 28 for k in range(8)]
        random_.shuffle(keys)
        lines += [put(k, i) for i, k in enumerate(keys)]
        random_.shuffle(keys)
        lines += [line for k in keys for line in (delete(k), get(k))] + ["L", delete(keys[0])]
    return lines


# A put of each kind: what stands before it, and the put
PUTS = [
    ([put(0x200, 1)], put(0x200, 2)),
    ([], put(0x200, 1)),
    ([put(0x200, 1), put(0x202, 2)], put(0x20f, 3)),
    ([put(0x200, 1)], put(0x202, 2)),
    ([put(0x200, 1), put(0x1200, 2)], put(0x201, 3)),
    ([put(0x200, 1), put(0x202, 2), put(0x20f, 3)], put(0x222, 4)),
    ([put(0x123456789abcdef0, 1), put(0x123456789abcdef1, 2)], put(0x123456789abcde00, 3)),
    ([put(0x123456789abcdef0, 1), put(0x123456789abcdef1, 2)], put(MOST, 3)),
    ([put(0x123456789abcdef0, 1), put(0x123456789abcdef1, 2)], put(0x123456789abcdef1, 3)),
]

# a delete of each kind
DELETES = [
    ([put(0x200, 1)], delete(0x200)),
    ([put(0x200, 1), put(0x202, 2), put(0x20f, 3)], delete(0x202)),
    ([put(0x200, 1), put(0x202, 2)], delete(0x200)),
    ([put(0x200, 1), put(0x202, 2), put(0x222, 3)], delete(0x222)),
    ([put(0x200, 1), put(0x202, 2), put(0x222, 3)], delete(0x202)),
    ([put(0x123456789abcdef0, 1), put(0x123456789abcdef1, 2), put(0, 3)], delete(0)),
    ([put(0x123456789abcdef0, 1), put(0x123456789abcdef1, 2), put(0, 3), put(MOST, 4)], delete(0)),
    ([put(0x200, 1), put(0x202, 2)], delete(0x201)),
    ([], delete(0x200)),
]


def cuts(kinds):
    """Each of these, cut after 0 to 21 stores; what is left then is listed, the operation made whole, and all of it deleted."""
    lines = []
    for before, operation in kinds:
        keys = sorted({line.split("\t")[1] for line in before + [operation]})
        for n in range(22):
            lines += before + [cut(n), operation, "L"] + ["G\t" + k for k in keys] + [operation, "L"] + ["D\t" + k for k in keys]
    return lines + ["L"]


def mixed(random_):
    """Puts, deletes, look-ups, listings and cuts of keys that share many digits."""
    keys = [random_.choice([0, 0xabc << 52]) | random_.getrandbits(8) << random_.choice([0, 28, 52]) for _ in range(60)]
    lines = []
    for _ in range(1500):
        key = random_.choice(keys)
        operation = random_.choice([put(key, random_.getrandbits(random_.choice([1, 20, 64]))), delete(key)])
        lines += random_.choices([[operation], [get(key)], [cut(random_.randrange(22)), operation], ["L"]], [60, 20, 30, 1])[0]
    return lines + ["L"]


def retired():
    """File number 0: refused for a new key, a held one and under a cut, which is used up."""
    lines = [put(0x200, 0), put(0x200, 1), put(0x200, 0), get(0x200), cut(3), put(0x202, 0), get(0x202), cut(1), put(0x200, 0)]
    return lines + [put(0x202, 2), delete(0x200), put(0x200, 0), "L"]


def text(lines):
    return "".join(line + "\n" for line in lines).encode()


def long_lines():
    """Lines of 63, 64, 65 and 100,000 bytes, that begin as right lines do or do not; the next line is read as ever."""
    start = put(0x200, 1)
    lines = [start]
    for size in (62, 63, 64, 65, 127, 128, 129):
        lines += [start.ljust(size, "0"), "L" * size, get(0x200), cut(3), "\t" * size, put(0x202, 2), delete(0x202)]
    return lines + [cut(3), start.ljust(100000, "0"), put(0x202, 2), "L"]


def odd_bytes():
    """Every byte by itself, in a line, at a line's end and within a field."""
    out = text([put(0x200, 1)])
    for b in range(256):
        byte = bytes([b])
        out += byte + b"\n" + b"L" + byte + b"\n" + b"G\t000000000000020" + byte + b"\n" + b"P\t0000000000000200\t1" + byte + b"\n"
    return out + b"L\n"


def scripts():
    random_ = random.Random(20)
    return {
        "10-wrong": text(wrong()),
        "11-full": text(full(random_)),
        "12-emptied": text(emptied(random_)),
        "13-put-cuts": text(cuts(PUTS)),
        "14-delete-cuts": text(cuts(DELETES)),
        "15-mixed-cuts": text(mixed(random_)),
        "16-long-lines": text(long_lines()),
        "17-odd-bytes": odd_bytes(),
        "18-no-input": b"",
        "19-one-newline": b"\n",
        "20-last-line": text([put(0x200, 1)]) + b"L",
        "21-last-line-wrong": text([put(0x200, 1)]) + b"L\t",
        "22-last-line-cut": text([put(0x200, 1), cut(1)]) + delete(0x200).encode(),
        "23-cut-waits": text([put(0x200, 1)]) + cut(3).encode(),
        "24-retired": text(retired()),
    }


def write(path, data):
    with open(path, "wb") as f:
        f.write(data)


def read(path):
    with open(path, "rb") as f:
        return f.read()


def main(crate):
    sys.setrecursionlimit(10000)
    data = os.path.join(crate, "data")
    for name, script in scripts().items():
        write(os.path.join(data, name + ".in"), script)
    names = sorted(f[:-3] for f in os.listdir(data) if f.endswith(".in"))
    for name in names:  # those that were given with document 01 too: 02 (x) answers their puts of 0 otherwise
        write(os.path.join(data, name + ".out"), model.run(read(os.path.join(data, name + ".in"))))
    write(os.path.join(crate, "stdin"), text(line for name in names for line in (name + ".in", name + ".out")))
    write(os.path.join(crate, "stdout"), text(name + ".in answers as expected" for name in names))


if __name__ == "__main__":
    main(sys.argv[1])
