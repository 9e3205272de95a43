#!/usr/bin/env python3
"""The stack of each call of include/wort.h, as compiled for x86-64: read from the instructions in crates/wort/out/libwort.a.

Usage: stack.py [--lib ARCHIVE]                      prints a table
       stack.py [--lib ARCHIVE] --check FILE         fails if the table in a document is another
       stack.py [--lib ARCHIVE] --below BYTES CALL.. fails if one of these calls, with all that it calls, needs BYTES or more

A return address is counted with the frame below it, and so is what a function keeps under its stack pointer (the red zone).
What cannot be read with certainty, such as a call through a register, is refused.
"""
import argparse
import pathlib
import re
import shutil
import subprocess
import sys

ROOT = pathlib.Path(__file__).resolve().parent.parent
FIRST, LAST = "<!-- printed by tools/stack.py -->", "<!-- end of what tools/stack.py prints -->"
WORD = 8
PADDING = ("nop", "data16", "cs nop", "xchg   %ax,%ax", "int3")


class Unread(Exception):
    """Something in the machine code that this program does not read."""


def disassembled(archive):
    """Each function's instructions: by address, its text, and the symbol that the linker puts into it."""
    objdump = shutil.which("x86_64-linux-gnu-objdump") or "objdump"
    run = subprocess.run([objdump, "-dr", "--no-show-raw-insn", archive], capture_output=True, text=True, check=True)
    functions = {}
    for line in run.stdout.splitlines():
        if head := re.fullmatch(r"[0-9a-f]+ <(.+)>:", line):
            code = functions[head[1]] = {}
        elif linked := re.fullmatch(r"\s+[0-9a-f]+: R_X86_64_\S+\s+(?:\.text\.)?(.+?)[-+]0x[0-9a-f]+", line):
            at, text, _ = code.popitem()[1]
            code[at] = (at, text, linked[1])
        elif instruction := re.fullmatch(r"\s*([0-9a-f]+):\t([^#]+?)\s*(#.*)?", line):
            at = int(instruction[1], 16)
            code[at] = (at, re.sub(r"^(notrack|bnd)\s+", "", instruction[2]), None)
    return functions


def grows(text):
    """By how many bytes an instruction makes the stack longer."""
    if moved := re.match(r"(push|pop)q?\s", text):
        return WORD if moved[1] == "push" else -WORD
    if fixed := re.fullmatch(r"(sub|add)\s+\$0x([0-9a-f]+),%rsp", text):
        size = int(fixed[2], 16)
        size -= (size >> 63) << 64
        return size if fixed[1] == "sub" else -size
    if fixed := re.fullmatch(r"lea\s+(-?)0x([0-9a-f]+)\(%rsp\),%rsp", text):
        return int(fixed[2], 16) * (1 if fixed[1] else -1)
    if re.search(r",%[re]?sp$|^leave|^enter|^pushf|^popf", text) and not text.startswith(("cmp", "test")):
        raise Unread(f"a stack pointer that is set by '{text}'")
    return 0


class Function:
    """How much stack a function takes itself, and how much it has taken when it calls another."""

    def __init__(self, name, code):
        self.name, self.code = name, code
        self.frame, self.calls = WORD, set()
        self.depths, self.tables = {}, []
        self.walk([(min(code), WORD)])
        # Only a table of places leads to what is left: the stack is there as it was at the jump.
        while rest := [at for at in code if at not in self.depths and not code[at][1].startswith(PADDING)]:
            if not self.tables:
                raise Unread(f"{name}: no way to the instruction at {rest[0]:x}")
            self.walk([(rest[0], max(self.tables))])

    def walk(self, to_do):
        """Follows each way through the code; at every instruction the stack is as long on each way."""
        order = sorted(self.code)
        after = dict(zip(order, order[1:]))
        while to_do:
            at, depth = to_do.pop()
            if self.depths.setdefault(at, depth) != depth:
                raise Unread(f"{self.name}: at {at:x} the stack has two lengths")
            for following in self.step(at, depth, after.get(at)):
                if following not in self.code:
                    raise Unread(f"{self.name}: a way out at {at:x}")
                if following not in self.depths:
                    to_do.append((following, depth + grows(self.code[at][1])))

    def step(self, at, depth, after):
        """Notes what an instruction needs, and says which can follow it."""
        _, text, linked = self.code[at]
        below = [int(size, 16) for size in re.findall(r"-0x([0-9a-f]+)\(%rsp", text)]
        self.frame = max([self.frame, depth + grows(text)] + [depth + size for size in below])
        if text.startswith("call"):
            self.calls.add((depth, self.callee(text, linked)))
            return [after]
        if text.startswith(("ret", "ud2", "hlt")):
            return []
        if not text.startswith("j"):
            return [after]
        if "*" in text:
            self.tables.append(depth)
            return []
        if linked:
            # The other function takes this one's place, return address and all.
            self.calls.add((depth - WORD, self.callee(text, linked)))
            return [] if text.startswith("jmp") else [after]
        aim = int(text.split()[1], 16)
        return [aim] if text.startswith("jmp") else [aim, after]

    def callee(self, text, linked):
        """The function that is called or jumped to."""
        named = re.fullmatch(r"call\s+[0-9a-f]+ <([^+]+)>", text)
        callee = linked or (named and named[1])
        if not callee or callee.startswith("."):
            raise Unread(f"{self.name}: '{text}', {callee}")
        return callee


class Stack:
    def __init__(self, archive):
        self.functions = {name: Function(name, code) for name, code in disassembled(archive).items()}
        self.outside = set()

    def need(self, name, above=()):
        """The bytes of the deepest chain of calls, each function once, and the bytes of each further level of recursion."""
        if name not in self.functions:
            self.outside.add(name)
            return WORD, 0
        function = self.functions[name]
        most, level = function.frame, 0
        above = above + ((name, 0),)
        for depth, callee in sorted(function.calls):
            here = above[:-1] + ((name, depth),)
            names = [caller for caller, _ in here]
            if callee in names:
                level = max(level, sum(size for _, size in here[names.index(callee):]))
                continue
            deeper, again = self.need(callee, here)
            most, level = max(most, depth + deeper), max(level, again)
        return most, level


def table(stack, calls):
    lines = ["| call | its own frame | with all that it calls | each further level |", "|---|---|---|---|"]
    for call in calls:
        most, level = stack.need(call)
        again = f"{level:,}" if level else "no recursion"
        lines.append(f"| `{call}` | {stack.functions[call].frame:,} | {most:,} | {again} |")
    outside = " and ".join(f"`{name}`" for name in sorted(stack.outside))
    if outside:
        lines += ["", f"Bytes. Of {outside}, which are not the library's, only the return address is counted."]
    return "\n".join([FIRST, *lines, LAST])


def too_much(stack, limit, calls):
    """What is wrong with the calls that do not stay below the limit."""
    for call in calls:
        most, level = stack.need(call)
        if level:
            yield f"{call} needs {level} bytes of stack for each level of recursion: it has no bound here"
        elif most >= limit:
            yield f"{call} needs {most} bytes of stack, with all that it calls: it has to be below {limit}"


def main():
    words = argparse.ArgumentParser()
    words.add_argument("--lib", default=ROOT / "crates/wort/out/libwort.a")
    words.add_argument("--check")
    words.add_argument("--below", nargs="+")
    words = words.parse_args()
    calls = re.findall(r"^uint64_t (wort_\w+)\(", (ROOT / "include/wort.h").read_text(), re.M)
    stack = Stack(words.lib)
    printed = table(stack, calls)
    if words.below:
        limit, *named = words.below
        if unknown := set(named) - set(calls):
            sys.exit(f"include/wort.h declares no {', '.join(sorted(unknown))}")
        sys.exit("\n".join(too_much(stack, int(limit), named)) or 0)
    if words.check and printed not in pathlib.Path(words.check).read_text():
        sys.exit(f"{words.check} has to have this:\n{printed}")
    if not words.check:
        print(printed)


try:
    main()
except Unread as what:
    sys.exit(f"stack.py does not read this: {what}")
