#!/usr/bin/env python3
"""Makes the table of crates/fk_isa/proofs/Assembled.antt: words that the GNU assembler gives, with their instructions.

It wants riscv64-unknown-elf-as and riscv64-unknown-elf-objcopy (Debian: binutils-riscv64-unknown-elf).
"""
import struct
import subprocess
import tempfile
from pathlib import Path

OUT = Path(__file__).resolve().parent.parent / "crates/fk_isa/proofs/Assembled.antt"
# three registers of each line: the least, the greatest, and three that differ
REGISTERS = [(0, 0, 0), (31, 31, 31), (10, 21, 6)]
SHORT = [-2048, 2047, -1365]
OFFSETS = [-4096, 4094, 2730]
FAR_OFFSETS = [-1048576, 1048574, 699050]
UPPER = [0, 0xFFFFF, 0xABCDE]
DISTANCES = [0, 31, 21]
BRANCHES = ["beq", "bne", "blt", "bge", "bltu", "bgeu"]
LOADS = ["lb", "lh", "lw", "lbu", "lhu"]
STORES = ["sb", "sh", "sw"]
IMMEDIATES = ["addi", "slti", "sltiu", "xori", "ori", "andi"]
SHIFTS = ["slli", "srli", "srai"]
OPERATIONS = (
    "add sub sll slt sltu xor srl sra or and mul mulh mulhsu mulhu div divu rem remu".split()
)
ATOMICS = ["sc", "amoswap", "amoadd", "amoxor", "amoand", "amoor", "amomin", "amomax", "amominu", "amomaxu"]
ORDERS = [("", "false false"), (".aq", "true false"), (".rl", "false true")]


def variant(name):
    if name in ("lr", "sc"):
        return name.capitalize() + "W"
    if name.startswith("amo"):
        return "Amo" + name[3:].capitalize() + "W"
    return name.capitalize()


def word(number):
    return f"{number & 0xFFFFFFFF:#010x}"


def rows():
    """Pairs of a line for the assembler and the instruction as the table writes it."""
    for (d, a, b), short, offset, far, upper, distance, (order, bits) in zip(
        REGISTERS, SHORT, OFFSETS, FAR_OFFSETS, UPPER, DISTANCES, ORDERS
    ):
        for name in ("lui", "auipc"):
            yield f"{name} x{d}, {upper:#x}", f"{variant(name)} {d} {upper:#x}"
        yield f"jal x{d}, .{far:+d}", f"Jal {d} {word(far)}"
        yield f"jalr x{d}, {short}(x{a})", f"Jalr {d} {a} {word(short)}"
        for name in BRANCHES:
            yield f"{name} x{a}, x{b}, .{offset:+d}", f"{variant(name)} {a} {b} {word(offset)}"
        for name in LOADS:
            yield f"{name} x{d}, {short}(x{a})", f"{variant(name)} {d} {a} {word(short)}"
        for name in STORES:
            yield f"{name} x{b}, {short}(x{a})", f"{variant(name)} {a} {b} {word(short)}"
        for name in IMMEDIATES:
            yield f"{name} x{d}, x{a}, {short}", f"{variant(name)} {d} {a} {word(short)}"
        for name in SHIFTS:
            yield f"{name} x{d}, x{a}, {distance}", f"{variant(name)} {d} {a} {distance}"
        for name in OPERATIONS:
            yield f"{name} x{d}, x{a}, x{b}", f"{variant(name)} {d} {a} {b}"
        yield f"lr.w{order} x{d}, (x{a})", f"LrW {d} {a} {bits}"
        for name in ATOMICS:
            yield f"{name}.w{order} x{d}, x{b}, (x{a})", f"{variant(name)} {d} {a} {b} {bits}"
    yield "ecall", "Ecall"
    yield "ebreak", "Ebreak"
    yield "fence rw, w", "Fence 0x620 0"
    yield "fence.tso", "Fence 0x10660 0"


def assembled(lines):
    with tempfile.TemporaryDirectory() as folder:
        source, made, code = (Path(folder) / name for name in ("a.s", "a.o", "a.bin"))
        source.write_text("".join(line + "\n" for line in lines))
        subprocess.run(
            ["riscv64-unknown-elf-as", "-march=rv32ima", "-mabi=ilp32", "-mno-relax", "-o", made, source], check=True
        )
        subprocess.run(["riscv64-unknown-elf-objcopy", "-O", "binary", "-j", ".text", made, code], check=True)
        data = code.read_bytes()
        return struct.unpack(f"<{len(data) // 4}I", data)


def main():
    lines, instructions = zip(*rows())
    words = assembled(lines)
    assert len(words) == len(lines)
    table = "".join(f"    ({word(w)}, {i}) ∷\n" for w, i in zip(words, instructions))
    text = OUT.read_text()
    start, end = "assembled =\n", "    []\n"
    before, rest = text.split(start, 1)
    OUT.write_text(before + start + table + end + rest.split(end, 1)[1])


main()
