#!/usr/bin/env python3
"""Makes crates/fk_machine_tests/src/listing/texts.rt: words with the texts that GNU objdump gives for them.

The words are those that the GNU assembler gave for tools/riscv_vectors.py with three different registers, and those of EXTRA.
Lay the file out by `rt fmt` afterwards. It wants riscv64-unknown-elf-objdump (Debian: binutils-riscv64-unknown-elf).
"""
import re
import struct
import subprocess
import tempfile
from pathlib import Path

TOP = Path(__file__).resolve().parent.parent
ASSEMBLED = TOP / "crates/fk_isa/proofs/Assembled.antt"
OUT = TOP / "crates/fk_machine_tests/src/listing/texts.rt"
# from the third set of registers on
FIRST_VECTOR = 112
EXTRA = (
    # add of the registers 0 1 2, 3 4 5 and so on
    [0x33 | d << 7 | (d + 1) % 32 << 15 | (d + 2) % 32 << 20 for d in range(0, 32, 3)]
    + [0x00000037, 0x00001017, 0xFFFFF097]  # lui and auipc with 0, 1 and 0xfffff
    + [0x7FF00013, 0x80000013, 0x01F01013, 0x41F05013]  # the bounds of immediates and distances
    + [0x80000063, 0x7E000FE3, 0x8000006F, 0x7FFFF06F]  # and of offsets
    + [0x1600202F, 0x1C00202F, 0x0400202F, 0xE200202F, 0xE600202F]  # .aqrl, .aq, .aq, .rl, .aqrl
)


def words():
    found = re.findall(r"^    \((0x[0-9a-f]{8}), ", ASSEMBLED.read_text(encoding="utf-8"), re.MULTILINE)
    return [int(word, 16) for word in found][FIRST_VECTOR:] + EXTRA


def disassembled(file, first, last):
    """The texts of objdump, of the words of a file from one offset to another, whatever else the file has."""
    command = ["riscv64-unknown-elf-objdump", "-D", "-z", "-b", "binary", "-m", "riscv:rv32", "-M", "no-aliases"]
    command += [f"--start-address={first}", f"--stop-address={last}", file]
    printed = subprocess.run(command, check=True, capture_output=True, text=True).stdout
    # behind a # it may tell an address that the instruction uses
    lines = re.findall(r"^ *([0-9a-f]+):\t[0-9a-f]{8} *\t(.*?)(?: # .*)?$", printed, re.MULTILINE)
    assert [int(address, 16) for address, _ in lines] == list(range(first, last, 4))
    return [text for _, text in lines]


def translated(address, text):
    """The text as a listing has it. These are all the differences."""
    name, _, operands = text.strip().partition("\t")
    if name.startswith("fence"):
        return "fence"
    operands = operands.split(",") if operands else []
    # objdump gives the address that a jump or branch leads to: here it is an offset
    if name == "jal" or re.fullmatch(r"b(eq|ne|lt|ge)u?", name):
        offset = int(operands[-1], 16) - address & 0xFFFFFFFF
        operands[-1] = str(offset - 2**32 if offset >= 2**31 else offset)
    # objdump gives distances in hexadecimal
    if re.fullmatch(r"s(ll|rl|ra)i", name):
        operands[-1] = str(int(operands[-1], 16))
    return " ".join([name, ", ".join(operands)]).rstrip()


def main():
    numbers = words()
    with tempfile.TemporaryDirectory() as folder:
        code = Path(folder) / "code"
        code.write_bytes(struct.pack(f"<{len(numbers)}I", *numbers))
        lines = disassembled(code, 0, 4 * len(numbers))
    texts = [translated(4 * i, text) for i, text in enumerate(lines)]
    rows = "".join(f'    (0x{n:08x}, b"{t}"),\n' for n, t in zip(numbers, texts))
    rows = re.sub(r"0x([0-9a-f]{4})([0-9a-f]{4}),", r"0x\1_\2,", rows)
    OUT.write_text(
        "//! Words with the texts that GNU objdump gives for them, made by tools/riscv_texts.py.\n\n"
        f"pub static TEXTS: [(u32, &[u8]); {len(numbers)}] = [\n{rows}];\n"
    )


if __name__ == "__main__":
    main()
