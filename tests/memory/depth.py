#!/usr/bin/env -S python3 -B
"""The most that each operation can take of the stack, on any file: the deepest way through the machine code of its archive.

    tests/memory/depth.py HEADER ARCHIVE...

Every function is followed from its beginning along all its jumps, and at each instruction it is known how far down the stack is. What memcpy and memset take, which
the C library has, is not counted. It says where an operation can take more than the header states, or what it cannot tell (a stack that is moved in another way, a
function that calls itself), and ends with status 1 then. A jump to a place that is computed is taken for the jump table of a `match`: Rattle has no function pointers.
"""

import re
import subprocess
import sys
from collections import namedtuple

OPERATIONS = {"verdict": "VERDICT", "check": "CHECK", "verdict_large": "LARGE_VERDICT", "check_large": "LARGE_CHECK"}
LIBRARY = {"memcpy", "memmove", "memset"}
WORD = 8
FUNCTION = re.compile(r"^[0-9a-f]+ <(.*)>:$")
INSTRUCTION = re.compile(r"^ *([0-9a-f]+):\t(\S+) *(.*?)(?: +<.*>)?$")
TARGET = re.compile(r"R_X86_64_PLT32\t(?:\.text\.)?(.*)-0x4$")
NUMBER = re.compile(r"\$(0x[0-9a-f]+),%(?:rsp|r11)$")
BELOW = re.compile(r"-0x([0-9a-f]+)\(%rsp[,)]")  # up to 128 bytes below the stack's end are a function's that calls none
FILLING = re.compile(r"nop|data16|cs$|xchg|int3")  # between blocks

Instruction = namedtuple("Instruction", "address does to target")


class Untold(Exception):
    """What this cannot tell of the machine code."""


def functions_of(archive):
    """The instructions of each function of an archive, with the function that a call or jump goes to."""
    lines = subprocess.run(["objdump", "-dr", "--no-show-raw-insn", archive], check=True, capture_output=True, text=True).stdout.splitlines()
    functions, name = {}, None
    for line, following in zip(lines, lines[1:] + [""]):
        named, instruction, target = FUNCTION.match(line), INSTRUCTION.match(line), TARGET.search(following)
        if named:
            name = named.group(1)
            functions[name] = []
        elif name and instruction:
            address, does, to = instruction.groups()
            functions[name].append(Instruction(int(address, 16), does, to, target and target.group(1)))
    return functions


class Walk:
    """The ways through a function: how far down the stack is before each instruction, return address included; the most; and the calls, each with that."""

    def __init__(self, name, instructions):
        self.name, self.instructions = name, instructions
        self.index = {instruction.address: i for i, instruction in enumerate(instructions)}
        self.depths, self.most, self.calls, self.tables = {}, WORD, [], set()
        self.follow([(0, WORD)])
        # what no jump reached is in a jump table
        for i, instruction in enumerate(instructions):
            if i not in self.depths and not FILLING.match(instruction.does):
                if len(self.tables) != 1:
                    raise Untold(f"{name}: how {instruction.does} {instruction.to} is reached")
                self.follow([(i, *self.tables)])

    def follow(self, ways):
        while ways:
            i, depth = ways.pop()
            if i in self.depths:
                if self.depths[i] != depth:
                    raise Untold(f"{self.name}: how far down the stack is at {self.instructions[i].address:x}")
                continue
            self.depths[i] = depth
            instruction = self.instructions[i]
            after = depth + self.moved(i)
            self.most = max([self.most, after, *(depth + int(below, 16) for below in BELOW.findall(instruction.to))])
            does, target = instruction.does, instruction.target
            if does == "call":
                if not target:
                    raise Untold(f"{self.name}: what is called at {instruction.address:x}")
                self.calls.append((depth, target))
            elif does.startswith("j") and target:
                self.calls.append((depth - WORD, target))
            elif does == "jmp" and instruction.to.startswith("*"):
                self.tables.add(depth)
            elif does == "jne" and self.instructions[i - 1][1:3] == ("cmp", "%r11,%rsp"):
                pass  # the loop of a long frame, which is counted as a whole where it begins
            elif does.startswith("j"):
                to = int(instruction.to, 16)
                if to not in self.index:
                    raise Untold(f"{self.name}: where the jump at {instruction.address:x} goes")
                ways.append((self.index[to], after))
            if does == "ret" and depth != WORD:
                raise Untold(f"{self.name}: how far down the stack is at its end")
            if does not in ("jmp", "ret", "ud2"):
                ways.append((i + 1, after))

    def moved(self, i):
        """By how much an instruction moves the stack down."""
        does, to = self.instructions[i].does, self.instructions[i].to
        number = NUMBER.match(to)
        if does in ("push", "pop"):
            return WORD if does == "push" else -WORD
        if does in ("sub", "add") and number and to.endswith("%rsp"):
            size = int(number.group(1), 16)
            if size >= 1 << 31:
                raise Untold(f"{self.name}: what {does} {to} does to the stack")
            return (self.pages(i) or size) if does == "sub" else -size
        if does in ("leave", "enter") or re.search(r",%[re]?sp$", to) and does not in ("cmp", "test"):
            raise Untold(f"{self.name}: what {does} {to} does to the stack")
        return 0

    def pages(self, i):
        """Where a long frame is taken page by page, in a loop up to %r11, all that the loop takes; else 0."""
        last, but_one = (self.instructions[i - back] if i >= back else None for back in (1, 2))
        number = last and last.does == "sub" and last.to.endswith("%r11") and NUMBER.match(last.to)
        return int(number.group(1), 16) if number and (but_one.does, but_one.to) == ("mov", "%rsp,%r11") else 0


def deepest(functions, name, above=()):
    """The most bytes that a call of this function takes."""
    if name in LIBRARY:
        return WORD
    if name not in functions or name in above:
        raise Untold(f"how deep {name} goes, called by {', '.join(above)}")
    walk = Walk(name, functions[name])
    return max([walk.most] + [depth + deepest(functions, called, (*above, name)) for depth, called in set(walk.calls)])


def main(header, *archives):
    """What is wrong, in lines."""
    stated = dict(re.findall(r"PEZVORAN_(\w+)_STACK_BYTES = (\d+)", open(header).read()))
    wrong, left = [], dict(OPERATIONS)
    for archive in archives:
        functions = functions_of(archive)
        for operation in sorted(left.keys() & functions.keys()):
            most, states = deepest(functions, operation), int(stated[left.pop(operation)])
            print(f"depth: {operation} takes at most {most} bytes, the header states {states}")
            wrong += [f"depth: {operation} may take {most} bytes of the stack, more than the header states"] if most > states else []
    return wrong + [f"depth: there is no {operation} in {' '.join(archives)}" for operation in left]


if __name__ == "__main__":
    try:
        wrong = main(*sys.argv[1:])
    except Untold as what:
        wrong = [f"depth: cannot tell {what}"]
    if wrong:
        sys.exit("\n".join(wrong))
