#!/usr/bin/env python3
"""Makes the ELF file of each example's image, and the image of that file, and compares.

    tools/elf_files.py [PROGRAM]

PROGRAM is ./fork95 where it isn't given. The image must come back unchanged. Where GNU readelf is there, it must find the
three program headers. Where GNU's tools for RISC-V are there (Debian: binutils-riscv64-unknown-elf), objdump must read the
code as `list` does. Files that a GNU linker made must be refused at the first byte that differs. The last line counts what
passed and failed.
"""
import re
import shutil
import struct
import subprocess
import sys
import tempfile
from pathlib import Path

sys.dont_write_bytecode = True
from commands import elf_header
from riscv_texts import disassembled, translated
from tally import tell

TOP = Path(__file__).resolve().parent.parent
SECONDS = 120
HEADERS = 148
# offset, two addresses, two sizes and flags of a program header, as readelf prints them
HEADER = re.compile(r"^  \S+ +" + " +".join([r"0x([0-9a-f]+)"] * 5) + r" +([RWE ]+?) +0x4$", re.M)


def run(*words):
    return subprocess.run([str(word) for word in words], stdin=subprocess.DEVNULL, capture_output=True, timeout=SECONDS, text=True)


def headers_of(file):
    """The program headers that readelf finds."""
    rows = HEADER.findall(run("readelf", "-h", "-l", file).stdout)
    return [(*(int(number, 16) for number in numbers), flags.replace(" ", "")) for *numbers, flags in rows]


def wanted_headers(image):
    """The program headers that an image should have."""
    code, of_globals, sites, commits = struct.unpack_from("<4I", image, 8)
    first, second, third = 4 * code, 4 * of_globals, 8 + 12 * sites + 8 * commits
    return [
        (HEADERS, 0, 0, first, first, "RE"),
        (HEADERS + first, 0x10000000, 0x10000000, second, 4194304, "RW"),
        (HEADERS + first + second, 0, 0, third, 0, "R"),
    ]


def listed(file):
    """The texts of the code of a file, as objdump reads them. The size of the code stands at byte 68."""
    size = struct.unpack_from("<I", file.read_bytes(), 68)[0]
    return [translated(HEADERS + 4 * place, text) for place, text in enumerate(disassembled(file, HEADERS, HEADERS + size))]


def fault_of(program, source, folder):
    """What is wrong with the file of a source's image, if anything."""
    image, file, back = (Path(folder, name) for name in ("image", "file", "back"))
    for words in (("build", source, "-o", image), ("elf", image, "-o", file), ("unelf", file, "-o", back)):
        ended = run(program, *words)
        if ended.returncode:
            return f"{words[0]}: status {ended.returncode}: {ended.stderr.strip()}"
    if back.read_bytes() != image.read_bytes():
        return "the image that comes back is another"
    if shutil.which("readelf") and headers_of(file) != wanted_headers(image.read_bytes()):
        return f"readelf finds {headers_of(file)}"
    if shutil.which("riscv64-unknown-elf-objdump"):
        lines = [line[20:] for line in run(program, "list", image).stdout.splitlines()]
        if listed(file) != lines:
            return "objdump reads the code otherwise than `list`"
    return None


def linked(folder):
    """Files that a GNU linker made: this interpreter and, where the tools for RISC-V are there, one of 32 bits."""
    yield Path(sys.executable).resolve()
    if shutil.which("riscv64-unknown-elf-ld"):
        source, made, file = (Path(folder, name) for name in ("source.s", "made.o", "linked"))
        source.write_text(".globl _start\n_start: lui t0, 0x30000\nsw zero, 12(t0)\n", encoding="utf-8")
        subprocess.run(["riscv64-unknown-elf-as", "-march=rv32ima", "-mabi=ilp32", "-o", made, source], check=True)
        subprocess.run(["riscv64-unknown-elf-ld", "-m", "elf32lriscv", "-o", file, made], check=True)
        yield file


def fault_of_linked(program, file, folder):
    """What is wrong with the refusal of a file of a linker, if anything."""
    content = file.read_bytes()
    sizes = [struct.unpack_from("<I", content, offset)[0] for offset in (68, 100, 132)]
    first = next(offset for offset, byte in enumerate(elf_header(*sizes)) if content[offset] != byte)
    ended = run(program, "unelf", file, "-o", Path(folder, "none"))
    wanted = (12, f"refused 27 ElfHeader {first}")
    return None if (ended.returncode, ended.stderr.strip()) == wanted else f"{ended.returncode}, {ended.stderr.strip()}"


def main():
    program = str(Path(sys.argv[1]).resolve()) if len(sys.argv) > 1 else str(TOP / "fork95")
    with tempfile.TemporaryDirectory() as folder:
        rows = {it.stem: fault_of(program, it, folder) for it in sorted((TOP / "examples").glob("*.f95"))}
        rows |= {f"a linker's {it.name}": fault_of_linked(program, it, folder) for it in linked(folder)}
    return tell(len(rows), [f"{row}: {fault}" for row, fault in rows.items() if fault])


if __name__ == "__main__":
    sys.exit(main())
