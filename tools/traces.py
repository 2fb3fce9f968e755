#!/usr/bin/env python3
"""Compares traces with a second reading of the machine and of the trace's definition.

    python3 tools/traces.py [PROGRAM]

PROGRAM is ./fork95 where it isn't given. Each of the runs and examples below is traced by the
program. Its image is also run by the machine in this file, which is written from docs/MACHINE.md and
the RISC-V manual, and shares no code with the program. The events of some texts, hart by hart, are
compared with those that docs/LANGUAGE.md gives to their operations. The last line counts what
passed.

    python3 tools/traces.py --image IMAGE --harts P --cycles N

writes the trace of an image by this machine, and the report of the run to standard error.
"""

import argparse
import struct
import subprocess
import sys
import tempfile
from pathlib import Path

sys.dont_write_bytecode = True
from tally import tell

TOP = Path(__file__).resolve().parent.parent
MASK = 0xFFFFFFFF
NAMES = ("split", "shrink", "end", "resume", "meet", "agree")
DATA, CONTROL, LOCAL, DEVICES = 0x10000000, 0x18000000, 0x20000000, 0x30000000
SECONDS = 300

# Small texts, with groups and without.
RUNS = [
    ("void main(void) { }", 1, 9999),
    ("sh int x; void main(void) { x = 1 + 2 + 3; }", 1, 9999),
    ("sh int x; void main(void) { start { x = $; } }", 4, 9999),
    ("sh int x; void main(void) { start (2) { x = $; } x = 5; }", 5, 9999),
    ("void main(void) { start { if (1) farm { barrier; if ($ == 1) putint(7); } seq putint($); } }", 3, 9999),
    ("sh int c; void main(void) { start { mpadd(&c, $); while (c < 100) mpadd(&c, 9); } }", 7, 5000),
    ("sh int x; void main(void) { start { pr int *p = &x; farm { if ($ == 5) p = 0; } x = *p; } }", 8, 9999),
    ("void main(void) { while (__PROC_NR__ == 1) ; putint(__PROC_NR__); }", 3, 777),
    ("void main(void) { start { fork (26215; @=0; $=0) seq putint(1); } }", 2, 9999),
]

# Examples, the number of harts, and the input.
EXAMPLES = [
    ("if_in_lockstep", 8, ""),
    ("who_is_where", 6, ""),
    ("sync_recursion", 8, ""),
    ("farm", 3, "12 7 30 16"),
    ("odd_even_sort", 6, "5 2 9 1 4 4"),
    ("list_ranking", 16, ""),
]
MOST_CYCLES = 20_000

# Texts with the events of each hart, by the operations that docs/LANGUAGE.md gives to the forms.
EVENTS = [
    ("sh int x; void main(void) { start (2) { x = $; } x = 5; }", [
        "split end resume", "split end resume", "split resume",
    ]),
    ("void main(void) { start { if ($) putint(1); } }", [
        "split split resume end resume", "split split end resume end resume",
    ]),
    ("void main(void) { start { if ($ < 1) putint(1); else putint(2); } }",
        3 * ["split split end resume end resume"]),
    ("void main(void) { start { putint($ ? 7 : 8); } }",
        2 * ["split split end resume end resume"]),
    ("void main(void) { start { putint($ && 1); putint($ || 0); } }", [
        "split split resume split end resume end resume",
        "split split end resume split resume end resume",
    ]),
    ("void main(void) { start { int i = $; while (i > 0) i = i - 1; } }", [
        "split split shrink resume end resume",
        "split split shrink shrink resume end resume",
        "split split shrink shrink shrink resume end resume",
    ]),
    ("sh int n; void main(void) { start { n = 2; if (n) putint(1); farm { barrier; } seq putint(2); } }",
        2 * ["split agree meet meet meet end resume"]),
    ("void main(void) { start { fork (2; @=$%2; $=$/2) putint(@); } }",
        4 * ["split agree split end resume end resume"]),
    ("void main(void) { start { fork (1; @=$) if ($ < 0) putint(1); } }", [
        "split agree split split resume end resume end resume",
        "split agree split resume end resume",
    ]),
    ("void main(void) { start { fork (0; @=0) putint(1); } }",
        2 * ["split agree split resume end resume"]),
    ("sync int f(sh int a) { return a; } void main(void) { start { putint(f($)); } barrier; }",
        2 * ["split agree end resume meet"]),
]


def signed(word):
    return word - (1 << 32) if word >> 31 else word


def extended(value, bits):
    return (value - (1 << bits) if value >> (bits - 1) else value) & MASK


class Image:
    """The parts of an image file."""

    def __init__(self, data):
        count = struct.unpack("<6I", data[:24])
        at = 24
        self.code = struct.unpack(f"<{count[2]}I", data[at:at + 4 * count[2]])
        at += 4 * count[2]
        self.words = struct.unpack(f"<{count[3]}I", data[at:at + 4 * count[3]])
        at += 4 * count[3] + 12 * count[4]
        table = struct.unpack(f"<{2 * count[5]}I", data[at:at + 8 * count[5]])
        self.commits = {a: (w % 256, w // 256) for a, w in zip(table[::2], table[1::2])}


class Trap(Exception):
    """The machine ends in this turn."""


class Fault(Exception):
    """A store to the device that ends the machine at a site."""


class Hart:
    def __init__(self):
        self.registers = [0] * 32
        self.pc = 0
        self.local = {}
        self.ended = False


class Machine:
    """Memory as tables of words by address, with 0 for those that are not there."""

    def __init__(self, image, harts, numbers):
        self.image, self.count = image, len(numbers)
        self.harts = [Hart() for _ in range(harts)]
        self.memory = {DATA + 4 * i: w & MASK for i, w in enumerate([*image.words, *numbers])}
        self.cycles = 0
        self.reserved = {}
        self.stand = "running"

    def cycle(self):
        """Runs one cycle. Gives the address that each hart ran."""
        ran = {}
        for number, hart in enumerate(self.harts):
            if hart.ended:
                continue
            ran[number] = hart.pc
            try:
                self.turn(number, hart)
            except Trap:
                self.stand = "trap"
                break
            except Fault:
                self.stand = "fault"
                break
        self.cycles += 1
        if self.stand == "running" and all(hart.ended for hart in self.harts):
            self.stand = "finished"
        return ran

    def table(self, hart, address):
        """The memory in which a word is."""
        word = address & ~3
        if DATA <= word < DATA + (4 << 20) or CONTROL <= word < CONTROL + (4 << 20) + 256:
            return self.memory
        if LOCAL <= word < LOCAL + (4 << 15):
            return hart.local
        return None

    def load(self, number, hart, address, size):
        if address % size:
            raise Trap
        table = self.table(hart, address)
        if table is not None:
            return table.get(address & ~3, 0) >> 8 * (address % 4) & (1 << 8 * size) - 1
        told = {16: self.cycles, 20: number, 24: len(self.harts), 28: self.count}
        if size != 4 or address - DEVICES not in told:
            raise Trap
        return told[address - DEVICES]

    def store(self, number, hart, address, size, value):
        if address % size:
            raise Trap
        table = self.table(hart, address)
        word = address & ~3
        if table is not None:
            shift, bits = 8 * (address % 4), (1 << 8 * size) - 1
            table[word] = table.get(word, 0) & ~(bits << shift) & MASK | (value & bits) << shift
            own = table is hart.local
            self.reserved = {h: a for h, a in self.reserved.items() if a != word or own and h != number}
        elif size != 4 or address - DEVICES not in (0, 4, 8, 12):
            raise Trap
        elif address - DEVICES == 8:
            raise Fault
        elif address - DEVICES == 12:
            hart.ended = True

    def turn(self, number, hart):
        if hart.pc // 4 >= len(self.image.code):
            raise Trap
        step(self, number, hart, self.image.code[hart.pc // 4])


def divided(kind, a, b):
    """div, divu, rem and remu, of words."""
    x, y = (signed(a), signed(b)) if kind in (4, 6) else (a, b)
    if y == 0:
        return MASK if kind in (4, 5) else a
    quotient = abs(x) // abs(y) * (1 if (x < 0) == (y < 0) else -1)
    return quotient & MASK if kind in (4, 5) else (x - quotient * y) & MASK


def multiplied(kind, a, b):
    if kind == 0:
        return a * b & MASK
    x = a if kind == 3 else signed(a)
    y = signed(b) if kind == 1 else b
    return x * y >> 32 & MASK


def calculated(kind, extra, a, b):
    """The operators of opcodes 0010011 and 0110011."""
    shift = b & 31
    return (
        (a - b if extra else a + b) & MASK,
        a << shift & MASK,
        int(signed(a) < signed(b)),
        int(a < b),
        a ^ b,
        signed(a) >> shift & MASK if extra else a >> shift,
        a | b,
        a & b,
    )[kind]


def combined(what, old, value):
    return {
        0: (old + value) & MASK,
        1: value,
        4: old ^ value,
        8: old | value,
        12: old & value,
        16: old if signed(old) < signed(value) else value,
        20: old if signed(old) > signed(value) else value,
        24: min(old, value),
        28: max(old, value),
    }[what]


def atomic(machine, number, hart, address, what, value):
    if address % 4 or machine.table(hart, address) is None:
        raise Trap
    old = machine.load(number, hart, address, 4)
    if what == 2:
        machine.reserved[number] = address
    elif what == 3:
        holds = machine.reserved.pop(number, None) == address
        if holds:
            machine.store(number, hart, address, 4, value)
        return 0 if holds else 1
    else:
        machine.store(number, hart, address, 4, combined(what, old, value))
    return old


def branches(kind, a, b):
    return {
        0: a == b, 1: a != b, 4: signed(a) < signed(b), 5: signed(a) >= signed(b), 6: a < b, 7: a >= b,
    }[kind]


def step(machine, number, hart, word):
    """One instruction."""
    code, rd, kind = word & 127, word >> 7 & 31, word >> 12 & 7
    a, b = hart.registers[word >> 15 & 31], hart.registers[word >> 20 & 31]
    offset, extra = extended(word >> 20, 12), word >> 30 & 1
    next_pc, result = (hart.pc + 4) & MASK, None
    if code == 0x37:
        result = word & 0xFFFFF000
    elif code == 0x17:
        result = hart.pc + (word & 0xFFFFF000) & MASK
    elif code == 0x6F:
        jump = word >> 31 << 20 | (word >> 12 & 255) << 12 | (word >> 20 & 1) << 11 | (word >> 21 & 1023) << 1
        result, next_pc = next_pc, hart.pc + extended(jump, 21) & MASK
    elif code == 0x67:
        result, next_pc = next_pc, a + offset & MASK & ~1
    elif code == 0x63:
        far = word >> 31 << 12 | (word >> 7 & 1) << 11 | (word >> 25 & 63) << 5 | (word >> 8 & 15) << 1
        if branches(kind, a, b):
            next_pc = hart.pc + extended(far, 13) & MASK
    elif code == 0x03:
        size = 1 << (kind & 3)
        value = machine.load(number, hart, a + offset & MASK, size)
        result = value if kind & 4 else extended(value, 8 * size)
    elif code == 0x23:
        place = extended(word >> 25 << 5 | rd, 12)
        machine.store(number, hart, a + place & MASK, 1 << kind, b)
    elif code == 0x13:
        result = calculated(kind, extra if kind == 5 else 0, a, offset)
    elif code == 0x33 and word >> 25 == 1:
        result = multiplied(kind, a, b) if kind < 4 else divided(kind, a, b)
    elif code == 0x33:
        result = calculated(kind, extra, a, b)
    elif code == 0x2F:
        result = atomic(machine, number, hart, a, word >> 27, b)
    elif code != 0x0F:
        raise Trap
    if next_pc % 4:
        raise Trap
    if result is not None and rd and code not in (0x63, 0x23):
        hart.registers[rd] = result
    hart.pc = next_pc


def ranges(values):
    """The longest ranges of harts with one value, of a table from hart to value."""
    found = []
    for hart in sorted(values):
        if found and found[-1][1] == hart - 1 and found[-1][2] == values[hart]:
            found[-1][1] = hart
        else:
            found.append([hart, hart, values[hart]])
    return found


def trace(image, harts, bound, numbers=()):
    """The lines of the trace of an image, and the machine at the end."""
    machine = Machine(image, harts, numbers)
    lines = ["fork95 trace 1", f"harts {harts}"]
    while machine.stand == "running" and machine.cycles < bound:
        ran = machine.cycle()
        commits = {hart: image.commits[pc] for hart, pc in ran.items() if pc in image.commits}
        if not commits:
            continue
        parts = ranges({hart: count for hart, (count, _) in commits.items()})
        counts = "".join(f" {first}-{last}*{count}" for first, last, count in parts)
        lines.append(f"c {machine.cycles}{counts}")
        for event, name in enumerate(NAMES, 1):
            there = ranges({hart: name for hart, (_, e) in commits.items() if e == event})
            if there:
                spans = "".join(f" {first}-{last}" for first, last, _ in there)
                lines.append(f"g {machine.cycles} {name}{spans}")
    lines.append(f"end {machine.cycles}")
    return "\n".join(lines) + "\n", machine


def call(program, *words, given=""):
    return subprocess.run(
        [program, *words], input=given.encode(), capture_output=True, timeout=SECONDS, check=False
    )


def traced(program, source, harts, bound, given=""):
    """The trace of a file by the program."""
    size = ("--harts", str(harts), "--cycles", str(bound))
    return call(program, "trace", str(source), *size, given=given).stdout.decode("ascii", "replace")


def agrees(program, source, image, harts, bound, given=""):
    """Whether the trace of a file is that of its image by the machine of this file."""
    call(program, "build", str(source), "-o", str(image))
    numbers = [int(word) for word in given.split()]
    expected, _ = trace(Image(image.read_bytes()), harts, bound, numbers)
    return traced(program, source, harts, bound, given) == expected


def events_of(text, harts):
    """The events of each hart of a trace, in their order."""
    events = [[] for _ in range(harts)]
    for line in text.splitlines():
        words = line.split()
        for span in words[3:] if words[0] == "g" else ():
            first, last = map(int, span.split("-"))
            for hart in range(first, last + 1):
                events[hart].append(words[2])
    return [" ".join(names) for names in events]


def compare(program):
    """Traces each run twice, and reads events. Counts what is as expected and what isn't."""
    failed, seen = [], set()
    with tempfile.TemporaryDirectory() as folder:
        source, image = Path(folder) / "text.f95", Path(folder) / "text.image"
        for text, harts, bound in RUNS:
            source.write_text(text, encoding="ascii")
            if not agrees(program, source, image, harts, bound):
                failed.append(text)
        for name, harts, given in EXAMPLES:
            example = TOP / "examples" / f"{name}.f95"
            if not agrees(program, example, image, harts, MOST_CYCLES, given):
                failed.append(name)
        for text, expected in EVENTS:
            source.write_text(text, encoding="ascii")
            told = events_of(traced(program, source, len(expected), 9999), len(expected))
            seen.update(" ".join(told).split())
            if told != expected:
                failed.append(f"{text}: {told}")
    failed += [f"no {name} was seen" for name in NAMES if name not in seen]
    count = len(RUNS) + len(EXAMPLES) + len(EVENTS) + len(NAMES)
    return tell(count, [f"failed: {text}" for text in failed])


def main():
    parser = argparse.ArgumentParser(description="Compares traces with a second reading.")
    parser.add_argument("program", nargs="?", default=str(TOP / "fork95"))
    parser.add_argument("--image")
    parser.add_argument("--harts", type=int, default=1)
    parser.add_argument("--cycles", type=int, default=1_000_000)
    words = parser.parse_args()
    if words.image is None:
        return compare(words.program)
    text, machine = trace(Image(Path(words.image).read_bytes()), words.harts, words.cycles)
    sys.stdout.write(text)
    print(f"{machine.stand} after {machine.cycles} cycles", file=sys.stderr)
    return 0


if __name__ == "__main__":
    sys.exit(main())
