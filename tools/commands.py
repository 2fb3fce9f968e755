#!/usr/bin/env python3
"""Runs whole commands over real files, and compares what they print and their status with a table.

    tools/commands.py [PROGRAM]

PROGRAM is ./fork95 where it isn't given. The last line counts the rows that passed and failed.
"""
import os
import re
import resource
import signal
import struct
import subprocess
import sys
import tempfile
from dataclasses import dataclass, field
from pathlib import Path

sys.dont_write_bytecode = True
import forks
import frames
import groups
import splits
from programs import FAULTS_OF_RUNS, PROGRAMS
from runs import runs
from tally import tell
from texts import FAULTS, NO_TOKENS, OPENERS, TEXTS

TOP = Path(__file__).resolve().parent.parent
SECONDS = 120

SUMS = b"sh int x; void main(void) { x = 2 + 3; putint(x); }\n"
WRAPS = b"void main(void) { putint(4294967295); putint(4294967295 + 1); }\n"
# lui t0, 0x30000, and stores of zero to FAULT, HALT and to an address that is no device's
DEVICES, FAULT, HALT, NOWHERE = 0x300002B7, 0x0002A423, 0x0002A623, 0x0202A023
AMOADD = 0x00B6252F
JUMP_TO_ITSELF = 0x0000006F


def image(code, sites=(), commits=(), version=1):
    """The bytes of an image without globals."""
    words = [version, len(code), 0, len(sites), len(commits), *code]
    words += [word for row in (*sites, *commits) for word in row]
    return b"FK95" + struct.pack("<%dI" % len(words), *words)


LOCK = b"""struct FairLock { unsigned next; unsigned now; };
void fair_take(struct FairLock *l) { pr unsigned t = mpadd(&l->next, 1); while (l->now != t) ; }
void fair_give(struct FairLock *l) { mpadd(&l->now, 1); }
"""
ATOMIC = image([AMOADD])
BAD_ADDRESS = image([DEVICES, FAULT], sites=[(12, 7, 9)])
FILES = {
    "sums.f95": SUMS,
    "wraps.f95": WRAPS,
    "five.f95": b"void main(void) { putint(5); }",
    "empty.f95": b"void main(void) { }\n",
    "open.f95": b"void main(void) { start {\n",
    "semicolon.f95": b"void main(void) { putint(1) }\n",
    "refused.f95": b"?",
    "byte.f95": b"?#",
    "comment.f95": b"/*",
    "text.f95": b'"a',
    "wide.f95": b"4294967296",
    "deep.f95": b"sh int x; void main(void) { x = " + b"(" * 126,
    "undeclared.f95": b"void main(void) { putint(y); }",
    "long.f95": b" " * 1048577,
    "a name with blanks.f95": SUMS,
    "-o.f95": SUMS,
    "counted.f95": LOCK + b"""sh struct FairLock k; sh int n;
void main(void) { start farm { pr int i; for (i = 0; i < 10; i++) { fair_take(&k); n = n + 1; fair_give(&k); } } }
""",
    "two_locks.f95": LOCK + b"""sh struct FairLock k[2]; sh int n[2];
void main(void) { start farm {
  pr int i, j = __PROC_NR__ % 2;
  for (i = 0; i < 10; i++) { fair_take(&k[j]); n[j] = n[j] + 1; fair_give(&k[j]); }
} }
""",
    "atomic.image": ATOMIC,
    "fault.image": BAD_ADDRESS,
    "no_site.image": image([DEVICES, FAULT]),
    "halt.image": image([DEVICES, HALT], commits=[(4, 1)]),
    "no_device.image": image([DEVICES, NOWHERE]),
    "endless.image": image([JUMP_TO_ITSELF]),
    "unknown.image": image([0]),
    "nothing.image": b"",
    "magic.image": b"G" + ATOMIC[1:],
    "version.image": image([AMOADD], version=3),
    "short.image": ATOMIC[:-1],
    "tail.image": ATOMIC + b"\0",
    "no_code.image": image([]),
    "commit.image": image([DEVICES, HALT], commits=[(4, 0)]),
}

# for each rule a text that breaks it first: its number, where the piece stands, and the piece, with a mark before the
# token at whose place the rule is broken
MARK = "»"
DECLARED = "struct In { int x; };\nstruct S { int a; struct In in; int v[3]; };\nsh struct S st; sh int x0, ar[4]; int f0;\n"
ALONE = "%s\n"
BESIDE = DECLARED + "%s\nvoid main(void) { }\n"
IN_MAIN = DECLARED + "void main(void) {\n%s\nstart ; }\n"
IN_START = DECLARED + "void main(void) { start {\n%s\n} }\n"
RULES = [
    (1, IN_MAIN, "x0 = »undeclared + 1;"),
    (2, BESIDE, "struct R { int a, »a; };"),
    (3, BESIDE, "void two(void) { } void »two(void) { }"),
    (4, ALONE, "sync void »main(void) { }"),
    (5, IN_MAIN, "x0 = »main() + 1;"),
    (6, BESIDE, "struct »Own { struct Own o; };"),
    (7, BESIDE, "void fs(struct S »a) { }"),
    (8, BESIDE, "struct L { int »a[0]; };"),
    (9, BESIDE, "sh int iv = »f0 + 1;"),
    (10, IN_MAIN, "x0 = 1 »+ &x0;"),
    (11, IN_MAIN, "x0 + 1 »= 2;"),
    (12, BESIDE, "int *n4(void) { »return 1; }"),
    (13, IN_MAIN, "putint»(1, 2);"),
    (14, IN_MAIN, "x0»(1);"),
    (15, IN_MAIN, "st».nope;"),
    (16, IN_MAIN, "x0»[1];"),
    (17, IN_MAIN, "if (»st) ;"),
    (18, BESIDE, "int n3(void) { »return; }"),
    (19, IN_MAIN, "putint(»st);"),
    (20, IN_MAIN, "ar »= 0;"),
    (21, IN_MAIN, "if (1) »start ;"),
    (22, IN_MAIN, "»farm ;"),
    (23, IN_MAIN, "»seq ;"),
    (24, IN_MAIN, "»fork (1; @=0) ;"),
    (25, IN_START, "»barrier;"),
    (26, BESIDE, "void y3(void) { »yy(); } sync void yy(void) { }"),
    (27, BESIDE, "sync void y2(void) { »aa(); } void aa(void) { }"),
    (28, BESIDE, "straight int s4(void) { return 1 »&& 2; }"),
    (29, IN_MAIN, "»shalloc(4);"),
    (30, IN_MAIN, "»break;"),
    (31, IN_START, "farm { »return; }"),
    (32, IN_START, "while (1) { farm { »break; } }"),
    (33, BESIDE, "sync void y4(void) { if ($) »return; }"),
    (34, IN_START, "while ($) »break;"),
    (35, IN_START, "while (1) { if ($) »continue; }"),
    (36, IN_MAIN, "»&f0;"),
    (37, BESIDE, "int »ib[2];"),
    (38, BESIDE, "struct S »ic;"),
    (39, IN_MAIN, "sh int »sa;"),
    (40, BESIDE, "void sp(sh int »a) { }"),
    (4, ALONE, "int f0;»"),
    # the rules about names and types come first, and those about regions before those about what is shared
    (1, ALONE, "int ib[2]; void main(void) { farm ; »y = 1; }"),
    (22, ALONE, "int ib[2]; void main(void) { »farm ; }"),
    (33, ALONE, "sync void f(void) { if ($) »return; } void main(void) { start f(); }"),
    (26, ALONE, "sync void f(void) { } void main(void) { start farm »f(); }"),
    # a struct as an initial value of file scope, and a member of `void`, which takes no words
    (19, BESIDE, "sh int v = -»st;"),
    (19, BESIDE, "sh int v = »st;"),
    (19, BESIDE, "sh int v = 1 + »st;"),
    (17, BESIDE, "sh int v = »st ? 1 : 2;"),
    (6, BESIDE, "sh int v = sizeof(struct »U) && st;"),
    (8, BESIDE, "struct »T { void v; int a[524289]; };"),
]


def is_image(there):
    return (there or b"").startswith(b"FK95")


def has_sites(wanted):
    """Whether an image has these sites: of each its kind alone, or also its line and column."""

    def has(there):
        code, of_globals, sites = struct.unpack_from("<3I", there, 8)
        found = [struct.unpack_from("<3I", there, 24 + 4 * (code + of_globals) + 12 * row) for row in range(sites)]
        return wanted in (found, [kind for kind, *_ in found])

    return has


@dataclass
class Row:
    """Words, and what they must come to: the status, standard output, and standard error as a pattern."""

    words: list
    status: int
    # standard output, or a pattern of it
    out: bytes | re.Pattern = b""
    report: str = ""
    # files that must be there afterwards with these bytes (or of which a function holds), or not at all
    files: dict = field(default_factory=dict)
    # where standard output and error go, if not to us, the most memory, and the most of a file, in bytes
    out_to: str = ""
    report_to: str = ""
    memory: int = 0
    file_bytes: int = 0
    # standard input, or the folder that stands in its place, of which each reading fails
    given: bytes = b""
    given_from: str = ""


def run(name, harts=1, cycles=1000000):
    return ["run", name, "--harts", str(harts), "--cycles", str(cycles)]


def execute(name, harts=1, cycles=1000000):
    return ["exec", name, "--harts", str(harts), "--cycles", str(cycles)]


def audit(name, harts=1, cycles=1000000):
    return ["audit", name, "--harts", str(harts), "--cycles", str(cycles)]


def trace(name, harts=1, cycles=1000000):
    return ["trace", name, "--harts", str(harts), "--cycles", str(cycles)]


def replay(name, trace):
    return ["replay", name, trace]


def build(name, to):
    return ["build", name, "-o", to]


def elf(name, to):
    return ["elf", name, "-o", to]


def unelf(name, to):
    return ["unelf", name, "-o", to]


def elf_header(*sizes):
    """The headers of an ELF file whose code, globals and entries have these sizes in bytes. They have 148 bytes."""
    header = b"\x7fELF\1\1\1" + bytes(9) + struct.pack("<2H5I6H", 2, 243, 1, 0, 52, 0, 0, 52, 32, 3, 0, 0, 0)
    parts = [(1, 0, sizes[0], 5), (1, 0x10000000, 4194304, 6), (0x60000095, 0, 0, 4)]
    offset = 148
    for (kind, address, memory, flags), size in zip(parts, sizes):
        header += struct.pack("<8I", kind, offset % 2**32, address, address, size, memory, flags, 4)
        offset += size
    return header


def elf_file(code, of_globals=(), sites=(), commits=()):
    """The ELF file of an image."""
    entries = [len(sites), len(commits)] + [word for row in (*sites, *commits) for word in row]
    words = [*code, *of_globals, *entries]
    return elf_header(4 * len(code), 4 * len(of_globals), 4 * len(entries)) + struct.pack("<%dI" % len(words), *words)


def replaced(there, at, byte):
    """Bytes of which one is another."""
    return there[:at] + bytes([byte]) + there[at + 1 :]


LISTED = b"00000000: 300002b7  lui t0, 0x30000\n00000004: 0002a623  sw zero, 12(t0)\n"
FINISHED = r"finished after \d+ cycles\n"
NO_COMMAND = [
    [],
    ["help"],
    ["--help"],
    ["run"],
    ["run", "sums.f95"],
    ["build", "sums.f95"],
    ["list"],
    ["list", "atomic.image", "more"],
    ["locks", "sums.f95"],
    ["locks", "--", "sums.f95"],
    ["locks", "--harts", "1"],
    ["locks", "-o", "lock.f95"],
    ["selftest"],
    ["selftest", "0"],
    ["selftest", "501"],
    ["selftest", "+1"],
    ["selftest", "-1"],
    ["selftest", ""],
    ["selftest", "6", "6"],
    ["selftest", "6", "--harts", "64"],
    ["replay", "sums.f95"],
    ["replay", "sums.f95", "sums.f95", "sums.f95"],
    ["replay", "sums.f95", "sums.f95", "--harts", "1"],
    ["replay", "sums.f95", "-o", "sums.f95"],
    ["elf", "halt.image"],
    ["unelf", "halt.elf", "more", "-o", "none.image"],
    ["elf", "halt.image", "--harts", "1", "-o", "none.elf"],
    run("sums.f95", harts=0),
    run("sums.f95", harts=1025),
    run("sums.f95", harts="+1"),
    run("sums.f95", harts=""),
    run("sums.f95", cycles=4294967296),
    run("sums.f95", cycles="-1"),
    run("sums.f95") + ["--harts", "1"],
    run("sums.f95") + ["--show"],
    run("sums.f95") + ["--show", "-x"],
    execute("halt.image") + ["--show", "x"],
    build("sums.f95", "-x"),
    [b"list", b"\xff.image"],
]
ROWS = [
    Row(run("sums.f95"), 0, b"5\n", FINISHED),
    Row(run("sums.f95", harts=2), 0, b"5\n5\n", FINISHED),
    Row(run("sums.f95", harts=1024), 0, b"5\n" * 1024, FINISHED),
    Row(run("sums.f95", harts="0001", cycles="0004294967295"), 0, b"5\n", FINISHED),
    Row(run("wraps.f95"), 0, b"-1\n0\n", FINISHED),
    Row(run("empty.f95"), 0, b"", FINISHED),
    Row(run("a name with blanks.f95"), 0, b"5\n", FINISHED),
    Row(["run", "--cycles=9999", "--harts=1", "sums.f95"], 0, b"5\n", FINISHED),
    Row(["run", "--harts", "1", "--cycles=9999", "--", "-o.f95"], 0, b"5\n", FINISHED),
    Row(run("sums.f95") + ["--show", "x"], 0, b"5\nx = 5\n", FINISHED),
    Row(run("sums.f95", cycles=0) + ["--show=x"], 7, b"x = 0\n", r"stopped after 0 cycles\n"),
    Row(run("sums.f95") + ["--show", "y"], 1, b"", r"refused 23 NoGlobal y\n"),
    Row(run("sums.f95") + ["--show="], 1, b"", r"refused 23 NoGlobal \n"),
    Row(run("sums.f95", harts=2), 0, b"5\n5\n", FINISHED, given=b"1 -2\t3\r\n4294967295\n"),
    Row(run("empty.f95"), 10, b"", r"refused 19 NotANumber 2\n", given=b"12 x"),
    Row(run("empty.f95"), 10, b"", r"refused 20 OutOfRange 1\n", given=b"4294967296"),
    Row(run("empty.f95"), 0, b"", FINISHED, given=b"0 " * 65536),
    Row(run("empty.f95"), 10, b"", r"refused 21 TooMany 65537\n", given=b"0 " * 65537),
    Row(run("empty.f95"), 10, b"", r"refused 21 TooMany 0\n", given=b" " * 1048577),
    Row(run("sums.f95") + ["--show", "y"], 1, b"", r"refused 23 NoGlobal y\n", given=b"x"),
    Row(execute("halt.image"), 10, b"", r"refused 19 NotANumber 1\n", given=b"+1"),
    Row(["list", "halt.image"], 0, LISTED, r"listed 2 words\n", given=b"x"),
    Row(run("sums.f95", cycles=0), 7, b"", r"stopped after 0 cycles\n"),
    Row(run("sums.f95", cycles=3), 7, b"", r"stopped after 3 cycles\n"),
    Row(run("open.f95"), 1, b"", r"refused 6 EndOfText\n"),
    Row(run("semicolon.f95"), 1, b"", r"refused 5 Unexpected at 1:29\n"),
    Row(run("byte.f95"), 1, b"", r"refused 1 BadByte at 1:2\n"),
    Row(run("comment.f95"), 1, b"", r"refused 2 OpenComment at 1:1\n"),
    Row(run("text.f95"), 1, b"", r"refused 3 OpenString at 1:1\n"),
    Row(run("wide.f95"), 1, b"", r"refused 4 WideNumber at 1:1\n"),
    Row(run("deep.f95"), 1, b"", r"refused 7 Nesting at 1:158\n"),
    Row(run("undeclared.f95"), 1, b"", r"refused 8 Rule 1 at 1:26\n"),
    Row(run("long.f95"), 1, b"", r"refused 12 SourceTooLong 1048577\n"),
    *[Row(words, 2, b"", r"refused command line\n") for words in NO_COMMAND],
    Row(run("absent.f95"), 3, b"", r"read fault\n"),
    Row(run("."), 3, b"", r"read fault\n"),
    Row(["list", "absent.image"], 3, b"", r"read fault\n"),
    Row(run("sums.f95"), 4, b"", "", out_to="/dev/full"),
    Row(["list", "atomic.image"], 4, b"", "", out_to="/dev/full"),
    Row(run("sums.f95"), 4, b"5\n", "", report_to="/dev/full"),
    Row(["nonsense"], 4, b"", "", report_to="/dev/full"),
    # in mid-stream
    Row(run("five.f95", harts=2), 4, b"", "", out_to="cut.out", file_bytes=3, files={"cut.out": b"5\n5"}),
    Row(build("sums.f95", "absent/x.image"), 4, b"", "", files={"absent": None}),
    # an input that can't be read counts before the text, and is nothing to a command that takes none
    Row(run("refused.f95", harts=2), 3, b"", r"read fault\n", given_from="."),
    Row(execute("halt.image"), 3, b"", r"read fault\n", given_from="."),
    Row(build("empty.f95", "unread.image"), 0, b"", r"built 342 words\n", files={"unread.image": is_image}, given_from="."),
    # a machine of 1,024 harts takes 136 MiB, one of a single hart 8
    Row(run("sums.f95", harts=1024), 5, b"", "", memory=100 << 20),
    Row(run("sums.f95"), 0, b"5\n", FINISHED, memory=100 << 20),
    Row(execute("fault.image"), 6, b"", r"fault BadAddress at 7:9 by processor 0 after 2 cycles\n"),
    Row(execute("fault.image", harts=64), 6, b"", r"fault BadAddress at 7:9 by processor 0 after 2 cycles\n"),
    Row(execute("no_site.image"), 6, b"", r"fault Fault at 0:0 by processor 0 after 2 cycles\n"),
    Row(execute("endless.image", harts=3, cycles=1000), 7, b"", r"stopped after 1000 cycles\n"),
    Row(execute("halt.image"), 0, b"", r"finished after 2 cycles\n"),
    Row(execute("halt.image", cycles=1), 7, b"", r"stopped after 1 cycles\n"),
    Row(execute("atomic.image"), 8, b"", r"trap Access at 0x00000000 by hart 0 after 1 cycles\n"),
    Row(execute("unknown.image"), 8, b"", r"trap Unknown at 0x00000000 by hart 0 after 1 cycles\n"),
    Row(execute("no_device.image"), 8, b"", r"trap Access at 0x00000004 by hart 0 after 2 cycles\n"),
    Row(execute("nothing.image"), 9, b"", r"refused 15 Short 0 24\n"),
    Row(execute("magic.image"), 9, b"", r"refused 13 Magic\n"),
    Row(execute("version.image"), 9, b"", r"refused 14 Version 3\n"),
    Row(execute("short.image"), 9, b"", r"refused 15 Short 27 28\n"),
    Row(["list", "tail.image"], 9, b"", r"refused 16 LongTail 28\n"),
    Row(["list", "no_code.image"], 9, b"", r"refused 18 BadWord 2\n"),
    Row(execute("commit.image"), 9, b"", r"refused 17 BadTable 0\n"),
    Row(execute("sums.f95"), 9, b"", r"refused 13 Magic\n"),
    Row(["list", "atomic.image"], 0, b"00000000: 00b6252f  amoadd.w a0, a1, (a2)\n", r"listed 1 words\n"),
    Row(
        ["list", "halt.image"],
        0,
        LISTED,
        r"listed 2 words\n",
    ),
    # a refused text puts nothing, and leaves what was there
    Row(build("undeclared.f95", "refused.image"), 1, b"", r"refused 8 Rule 1 at 1:26\n", files={"refused.image": None}),
    Row(build("open.f95", "atomic.image"), 1, b"", r"refused 6 EndOfText\n", files={"atomic.image": ATOMIC}),
    # what is built replaces a file, and runs as the text does
    Row(build("sums.f95", "tail.image"), 0, b"", r"built \d+ words\n"),
    Row(execute("tail.image", harts=3), 0, b"5\n5\n5\n", FINISHED),
    Row(build("wraps.f95", "new.image"), 0, b"", r"built \d+ words\n"),
    Row(execute("new.image"), 0, b"-1\n0\n", FINISHED),
]


# The words of lines with blanks between them. F, -F, -- and - are one text, and I and é one image.
FILES.update({name: SUMS for name in ("F", "-F", "--", "-")})
FILES.update({name: FILES["halt.image"] for name in ("I", "é")})
NO_COMMAND_LINES = [
    "",
    "-h",
    "run --help",
    "help run",
    "-- list I",
    "trace F --harts 1 --cycles 9 --show x",
    "Run F --harts 1 --cycles 9",
    "run F --harts 1 --harts 1 --cycles 9",
    "run F --harts 1 --cycles 9 --cycles=9",
    "run F --harts 1",
    "run F --harts --cycles 9",
    "run F --harts 1 --cycles",
    "run F --harts -1 --cycles 9",
    "run F --harts 4294967297 --cycles 9",
    "run F --harts  --cycles 9",
    "run F --harts= --cycles 9",
    "run F --hart 1 --cycles 9",
    "run F --harts 1 --cycles 9 -o I",
    "run F G --harts 1 --cycles 9",
    "run F --harts 1 --cycles 9 --show -- x",
    "run F -- --harts 1 --cycles 9",
    "build F -o",
    "build F -o I -oJ",
    "build F --output I",
    "list -I",
    "list -é",
    "list --",
]
ROWS += [Row(line.split(" "), 2, b"", r"refused command line\n") for line in NO_COMMAND_LINES]
AT_ONCE = r"stopped after 0 cycles\n"
LINES = [
    ("run F --harts 4 --cycles 9999", 0, b"5\n" * 4, FINISHED),
    ("run F --cycles=3 --harts 1", 7, b"", r"stopped after 3 cycles\n"),
    ("run --harts=1024 F --cycles=4294967295", 0, b"5\n" * 1024, FINISHED),
    ("run --harts=1 F --cycles 9999", 0, b"5\n", FINISHED),
    ("run --cycles 9999 --harts 1 -- F", 0, b"5\n", FINISHED),
    ("run --show x --harts 0001 --cycles 0 F", 7, b"x = 0\n", AT_ONCE),
    ("run F --show= --harts 1 --cycles 0", 1, b"", r"refused 23 NoGlobal \n"),
    ("run F --show=-x --harts 1 --cycles 0", 1, b"", r"refused 23 NoGlobal -x\n"),
    ("run F --show - --harts 1 --cycles 0", 1, b"", r"refused 23 NoGlobal -\n"),
    ("run --harts 1 --cycles 0 -- -F", 7, b"", AT_ONCE),
    ("trace F --harts 2 --cycles 0", 7, b"fork95 trace 1\nharts 2\nend 0\n", AT_ONCE),
    ("run --harts 1 --cycles 0 -- --", 7, b"", AT_ONCE),
    ("run - --harts 1 --cycles 0", 7, b"", AT_ONCE),
    ("exec I --harts 2 --cycles 7", 0, b"", r"finished after 2 cycles\n"),
    ("list I", 0, LISTED, r"listed 2 words\n"),
    ("list -- I", 0, LISTED, r"listed 2 words\n"),
    ("list I --", 0, LISTED, r"listed 2 words\n"),
    ("list é", 0, LISTED, r"listed 2 words\n"),
    ("build -o= F", 4, b"", ""),
]
ROWS += [Row(line.split(" "), status, out, report) for line, status, out, report in LINES]
BUILDS = {
    "build F -o J": "J",
    "build -oK F": "K",
    "build -o=L F": "L",
    "build -o==I F": "=I",
    "build -o-I F": "-I",
    "build -oo F": "o",
}
ROWS += [Row(line.split(" "), 0, b"", r"built \d+ words\n", files={to: is_image}) for line, to in BUILDS.items()]

# What texts and images are, and in which order they and the input are read.
LONG = 60000
NUMBERS = {
    b"0": 0,
    b"010": 8,
    b"10": 10,
    b"0xFfu": 255,
    b"0X1a": 26,
    b"1U": 1,
    b"2147483647": 2147483647,
    b"2147483648": -2147483648,
    b"4294967295": -1,
    b"' '": 32,
    b"'\\n'": 10,
    b"'\\t'": 9,
    b"'\\0'": 0,
    b"'\\\\'": 92,
    b"'\\''": 39,
}
FILES.update(
    {
        "numbers.f95": b"void main(void) { %s }" % b" ".join(b"putint(%s);" % spelled for spelled in NUMBERS),
        "spellings.f95": b"#include <fork.h>\n// hex, octal\nvoid main(void) { putint(0x10 + 010 /* and */ + 'a' + 1u); }",
        "second.f95": b"sh int y; sh int x; void main(void) { x = 4294967295; }",
        "first.f95": b"sh int x; sh int y; void main(void) { y = 1; }",
        "fork.f95": b"void main(void) { start fork (1; @=0) ; }",
        "far.f95": b"/*" + b" " * 300000 + b"*/ " + SUMS,
        "globals.f95": b"".join(b"sh int v%d;" % number for number in range(LONG)) + b"void main(void) { putint(1); }",
        "long.image": image([0] * LONG),
    }
)
UNKNOWN_WORDS = b"".join(b"%08x: 00000000  .word 0x00000000\n" % (4 * number) for number in range(LONG))
ROWS += [
    Row(run("spellings.f95"), 0, b"122\n", FINISHED),
    Row(run("numbers.f95"), 0, b"".join(b"%d\n" % number for number in NUMBERS.values()), FINISHED),
    # all that no statements come to is `halt`
    Row(build("empty.f95", "empty.image"), 0, b"", r"built \d+ words\n", files={"empty.image": has_sites([34])}),
    # by hand: const, const, const, binary, write, drop, const, read, outint, halt
    Row(
        build("sums.f95", "kinds.image"),
        0,
        b"",
        r"built \d+ words\n",
        files={"kinds.image": has_sites([1, 1, 1, 7, 14, 4, 1, 13, 19, 34])},
    ),
    Row(execute("absent.image"), 3, b"", r"read fault\n"),
    Row(build("absent.f95", "none.image"), 3, b"", r"read fault\n", files={"none.image": None}),
    Row(run("second.f95") + ["--show", "x"], 0, b"x = -1\n", FINISHED, given=b"7"),
    Row(run("second.f95", cycles=0) + ["--show", "x"], 7, b"x = 0\n", AT_ONCE, given=b"7"),
    Row(run("second.f95") + ["--show", "y"], 0, b"y = 0\n", FINISHED),
    Row(run("first.f95") + ["--show", "x"], 0, b"x = 0\n", FINISHED),
    Row(run("first.f95") + ["--show", "y"], 0, b"y = 1\n", FINISHED),
    Row(run("empty.f95") + ["--show", "main"], 1, b"", r"refused 23 NoGlobal main\n", given=b"x"),
    Row(run("fork.f95") + ["--show", "y"], 1, b"", r"refused 23 NoGlobal y\n", given=b"x"),
    Row(execute("halt.image"), 0, b"", r"finished after 2 cycles\n", given=b"1 -2 3"),
    # more bytes than are moved at once
    Row(run("far.f95"), 0, b"5\n", FINISHED),
    Row(build("globals.f95", "globals.image"), 0, b"", r"built \d+ words\n"),
    Row(execute("globals.image"), 0, b"1\n", FINISHED),
    Row(["list", "long.image"], 0, UNKNOWN_WORDS, r"listed 60000 words\n"),
]

# ELF files of images, and bytes that are none
HALT_ELF = elf_file([DEVICES, HALT], commits=[(4, 1)])
NO_ELF = {
    "no bytes": (b"", r"28 ElfShort 0 148"),
    "a short header": (HALT_ELF[:147], r"28 ElfShort 147 148"),
    "a byte too few": (HALT_ELF[:-1], r"28 ElfShort 171 172"),
    "a byte too many": (HALT_ELF + b"\0", r"29 ElfTail 172"),
    "another machine": (replaced(HALT_ELF, 18, 0xF4), r"27 ElfHeader 18"),
    "a size that isn't whole words": (replaced(HALT_ELF, 68, 9), r"27 ElfHeader 68"),
    "a site too many": (replaced(HALT_ELF, 156, 1), r"30 ElfSizes"),
    "a commit without a count": (replaced(HALT_ELF, 168, 0), r"31 ElfTable 0"),
    "an image": (FILES["halt.image"] + bytes(148), r"27 ElfHeader 0"),
}
assert len(HALT_ELF) == 172 and HALT_ELF[:20].hex() == "7f454c460101010000000000000000000200f300"
FILES["halt.elf"] = HALT_ELF
FILES.update({f"{title}.elf": content for title, (content, _) in NO_ELF.items()})
ROWS += [
    Row(elf("halt.image", "made.elf"), 0, b"", r"wrote 172 bytes\n", files={"made.elf": HALT_ELF}, given=b"x"),
    Row(unelf("made.elf", "made.image"), 0, b"", r"wrote 40 bytes\n", files={"made.image": FILES["halt.image"]}),
    Row(elf("fault.image", "made.elf"), 0, b"", r"wrote 176 bytes\n", files={"made.elf": elf_file([DEVICES, FAULT], sites=[(12, 7, 9)])}),
    Row(unelf("made.elf", "made.image"), 0, b"", r"wrote 44 bytes\n", files={"made.image": BAD_ADDRESS}),
    # the globals too
    Row(build("second.f95", "globals.image"), 0, b"", r"built \d+ words\n"),
    Row(elf("globals.image", "globals.elf"), 0, b"", r"wrote \d+ bytes\n"),
    Row(unelf("globals.elf", "back.image"), 0, b"", r"wrote \d+ bytes\n"),
    Row(execute("back.image"), 0, b"", FINISHED),
    *[Row(unelf(f"{title}.elf", "none.image"), 12, b"", rf"refused {report}\n", files={"none.image": None}) for title, (_, report) in NO_ELF.items()],
    Row(elf("halt.elf", "none.elf"), 9, b"", r"refused 13 Magic\n", files={"none.elf": None}),
    Row(elf("short.image", "none.elf"), 9, b"", r"refused 15 Short 27 28\n", files={"none.elf": None}),
    Row(unelf("absent.elf", "none.image"), 3, b"", r"read fault\n", files={"none.image": None}),
    Row(elf("halt.image", "absent/x.elf"), 4, b"", "", files={"absent": None}),
]


# programs of the asynchronous language, and those that fault
for title, (harts, given, text, out) in PROGRAMS.items():
    FILES[f"{title}.f95"] = text
    ROWS.append(Row(run(f"{title}.f95", harts=harts), 0, out, FINISHED, given=given))
for title, (harts, text, out, kind, place, processor) in FAULTS_OF_RUNS.items():
    FILES[f"fault {title}.f95"] = text
    report = rf"fault {kind} at {place} by processor {processor} after \d+ cycles\n"
    ROWS.append(Row(run(f"fault {title}.f95", harts=harts), 6, out, report))

# programs with groups, those that fault, and those that never end
PROGRAMS_OF = {"group": groups.PROGRAMS | frames.PROGRAMS | splits.PROGRAMS, "fork": forks.PROGRAMS}
FAULTS_OF = {"group": groups.FAULTS | frames.FAULTS | splits.FAULTS, "fork": forks.FAULTS}
ENDLESS_OF = {"group": groups.ENDLESS | splits.ENDLESS, "fork": forks.ENDLESS}


def rows_of(kind):
    """The rows of such programs, of those that fault, and of those that never end."""
    for title, (harts, given, text, show, out) in PROGRAMS_OF[kind].items():
        FILES[f"{kind} {title}.f95"] = text
        words = run(f"{kind} {title}.f95", harts=harts, cycles=10000000) + (["--show", show] if show else [])
        yield Row(words, 0, out, FINISHED, given=given)
    for title, (harts, text, out, fault, place, processor) in FAULTS_OF[kind].items():
        FILES[f"{kind} fault {title}.f95"] = text
        report = rf"fault {fault} at {place} by processor {processor} after \d+ cycles\n"
        yield Row(run(f"{kind} fault {title}.f95", harts=harts), 6, out, report)
    for title, (harts, text, show, out) in ENDLESS_OF[kind].items():
        FILES[f"{kind} endless {title}.f95"] = text
        words = run(f"{kind} endless {title}.f95", harts=harts, cycles=100000) + (["--show", show] if show else [])
        yield Row(words, 7, out, r"stopped after 100000 cycles\n")


ROWS += [*rows_of("group"), *rows_of("fork")]
for kind in ["framed", "split", "fork"]:
    for one in runs(TOP / "tools" / f"{kind}_runs.txt"):
        name = f"{kind} {one.number}.f95"
        FILES[name] = one.text
        words = run(name, harts=one.harts, cycles=10000000) + ["--show", one.shown]
        ROWS.append(Row(words, 6 if one.report.startswith("fault") else 0, one.out, re.escape(one.report) + r".*\n", given=one.given))
ROWS += [
    Row(run("group start.f95", harts=4, cycles=0) + ["--show", "x"], 7, b"x = 0\n", AT_ONCE),
    # a group, its code and its end: get for who is in it, begin, what it does, end, resume, halt
    Row(
        build("group start.f95", "kinds.image"),
        0,
        b"",
        r"built \d+ words\n",
        files={"kinds.image": has_sites([2, 23, 1, 2, 14, 4, 29, 30, 34])},
    ),
]


def refused(text, report):
    """A row of a text of its own that is refused."""
    name = f"text {len(FILES)}.f95"
    FILES[name] = text
    return Row(build(name, "none.image"), 1, b"", report)


def built(text, sites):
    """A row of a text of its own that is built, with these sites."""
    name = f"text {len(FILES)}.f95"
    FILES[name] = text
    return Row(build(name, "kinds.image"), 0, b"", r"built \d+ words\n", files={"kinds.image": has_sites(sites)})


def broken(marked):
    """A text that breaks at its mark."""
    text, column = marked.replace(b"`", b""), marked.index(b"`") + 1
    return refused(text, r"refused 6 EndOfText\n" if column > len(text) else rf"refused 5 Unexpected at 1:{column}\n")


ROWS += [refused(text, rf"refused {report} at {line}:{column}\n") for text, report, line, column in NO_TOKENS]
# they have no fault of tokens or syntax
ROWS += [refused(text, r"refused (?![1-7] ).*\n") for text in TEXTS]
ROWS += [broken(marked) for marked in FAULTS]
for unit, tail, most, column in OPENERS:
    ROWS += [
        refused(b"void f() {" + unit * most + tail, r"refused 6 EndOfText\n"),
        refused(b"void f() {" + unit * (most + 1) + tail, rf"refused 7 Nesting at 1:{column}\n"),
    ]


def breaking(number, around, piece):
    """The text of a row of RULES, and the line that it is refused by."""
    text = around % piece
    lines = text[: text.index(MARK)].split("\n")
    place = f"{len(lines)}:{len(lines[-1]) + 1}"
    return text.replace(MARK, "").encode(), rf"refused 8 Rule {number} at {place}\n"


for index, rule in enumerate(RULES):
    name = f"rule{index}.f95"
    FILES[name], line = breaking(*rule)
    ROWS.append(Row(run(name), 1, b"", line))
# texts with group frames, `shalloc`, `shmalloc`, splits or a `fork`, and the kinds of their sites by hand
BUILT = {
    b"void main(void) { shmalloc(4); }": [1, 21, 4, 34],
    b"sync void f(void) { sh int a; } void main(void) { }": [2, 1, 14, 4, 11, 34],
    b"sync void f(sh int a) { } void main(void) { }": [11, 34],
    b"void main(void) { start { sh int a; } }": [2, 23, 25, 2, 1, 14, 4, 29, 30, 34],
    b"sync int *f(void) { return shalloc(4); } void main(void) { start f(); }": [1, 24, 26, 11, 1, 11, 2, 23, 22, 4, 29, 30, 34],
    # const, agree, enter, frame, the address and the value of the parameter, write, drop
    b"sync void f(sh int a) { } void main(void) { start f(5); }": [11, 2, 23, 1, 24, 22, 25, 2, 2, 14, 4, 29, 30, 34],
    # the condition, split, the end of each part, resume
    b"void main(void) { start if ($) ; else ; }": [2, 23, 2, 27, 29, 29, 30, 29, 30, 34],
    # the left side, split; in the part the right side, which becomes 0 or 1
    b"void main(void) { int x; start x = $ && 1; }": [1, 3, 4, 2, 23, 2, 27, 1, 1, 7, 29, 30, 3, 4, 29, 30, 34],
    b"void main(void) { int x; start x = $ || 1; }": [1, 3, 4, 2, 23, 2, 27, 1, 1, 7, 29, 30, 3, 4, 29, 30, 34],
    b"void main(void) { int x; start x = $ ? 1 : 2; }": [1, 3, 4, 2, 23, 2, 27, 1, 29, 1, 29, 30, 3, 4, 29, 30, 34],
    # split; in each turn the condition and shrink
    b"void main(void) { start while ($) ; }": [2, 23, 27, 2, 28, 30, 29, 30, 34],
    b"void main(void) { start do ; while ($); }": [2, 23, 27, 2, 28, 30, 29, 30, 34],
    b"sync void f(void) { if ($) { sh int k; } } void main(void) { }": [2, 27, 25, 2, 1, 14, 4, 29, 30, 11, 34],
    # the count, agree, the part and the rank of each member, split; and in a function that nobody calls
    b"void main(void) { start fork (2; @=$; $=0) ; }": [2, 23, 1, 24, 2, 1, 27, 29, 30, 29, 30, 34],
    b"sync void f(void) { fork (2; @=$) ; } void main(void) { }": [1, 24, 2, 2, 27, 29, 30, 11, 34],
}
# mistakes of several kinds in one text
FILES["all.f95"] = b"int ib[2]; void main(void) { farm ; y = ? }"
ROWS += [refused(text, rf"refused {report}\n") for text, report in forks.REFUSED.values()]
# the text around a piece in the table of texts
LAID = "struct In { int x; };\nstruct S { int a; struct In in; int v[3]; struct S *next; };\nsh struct S st; sh struct S so[2]; sh int x0, ar[4]; sh unsigned x1; int f0;\n"
AROUND = {
    "item": LAID + "%s\nvoid main(void) { }\n",
    "asynchronous": LAID + "int af(int a) { return a; }\nvoid main(void) {\n%s\n}\n",
    "synchronous": LAID + "sync int sf(sh int a, int b) { return a; }\nvoid main(void) { start {\n%s\n} }\n",
}


def site(written):
    """The kind and the place of a site that is written as 27@6:1, or 4 where it has no place."""
    kind, _, place = written.partition("@")
    return (int(kind), *map(int, (place or "0:0").split(":")))


def built_of_table():
    """The texts of the table of texts whose sites it tells. The image has these sites, with their places."""
    table = TOP / "crates/fk_check_cases"
    asked = [line.split("\t")[1:] for line in (table / "stdin").read_text(encoding="utf-8").split("\n") if re.match("sites\t(?!whole)", line)]
    told = [line for line in (table / "stdout").read_text(encoding="utf-8").split("\n") if line.startswith("sites ")]
    for (place, piece), answer in zip(asked, told):
        sites = answer.removeprefix("sites ").partition(" frames ")[0]
        yield built((AROUND[place] % piece).encode(), [*map(site, sites.split(" "))])


ROWS += [
    *[built(text, kinds) for text, kinds in BUILT.items()],
    *built_of_table(),
    Row(run("undeclared.f95") + ["--show", "y"], 1, b"", r"refused 8 Rule 1 at 1:26\n", given=b"x"),
    Row(run("all.f95"), 1, b"", r"refused 5 Unexpected at 1:41\n"),
]


def prints(count):
    """Statements of two operations each; with the one that halts `main` has one more."""
    return b"putint(1);" * count


def privates(count):
    """Private variables of three operations and a word each; a frame has 8 words beside them, and one for the value."""
    return b"".join(b"int v%d;" % number for number in range(count))


def of_file(count):
    """Private variables of file scope, which stand in the frame of `main`."""
    return b"int " + b", ".join(b"w%d" % number for number in range(count)) + b";"


def main_of(body):
    return b"void main(void) {" + body + b"}"


# more than an image can name, than a private frame may have, and than an image has for variables; and which is told
LARGE, LARGEST = b"sh int a[524288]; sh int b;", b"sh int a[524288];"
FILES["sites.f95"] = main_of(prints(8000))
FILES["frame.f95"] = main_of(privates(64))
FILES["shared.f95"] = LARGE + main_of(b"")
FILES["full.f95"] = main_of(prints(7999))
FILES["most.f95"] = main_of(privates(55))
FILES["largest.f95"] = LARGEST + main_of(b"")
ROWS += [
    Row(run("sites.f95"), 1, b"", r"refused 9 TooManySites 16001\n"),
    Row(run("sites.f95") + ["--show", "y"], 1, b"", r"refused 9 TooManySites 16001\n", given=b"x"),
    Row(build("full.f95", "full.image"), 0, b"", r"built \d+ words\n", files={"full.image": is_image}),
    Row(run("frame.f95"), 1, b"", r"refused 10 FrameTooLarge main 73\n"),
    Row(run("shared.f95"), 1, b"", r"refused 11 GlobalsTooLarge 524289\n"),
    Row(build("most.f95", "most.image"), 0, b"", r"built \d+ words\n", files={"most.image": is_image}),
    Row(build("largest.f95", "largest.image"), 0, b"", r"built \d+ words\n", files={"largest.image": is_image}),
    refused(main_of(privates(47) + b"start fork (1; @=0) ;"), r"refused 10 FrameTooLarge main 66\n"),
    refused(main_of(privates(52) + b"start ;"), r"refused 10 FrameTooLarge main 65\n"),
    refused(LARGE + main_of(b"start ;"), r"refused 11 GlobalsTooLarge 524289\n"),
    refused(LARGE + main_of(privates(64)), r"refused 10 FrameTooLarge main 73\n"),
    refused(main_of(privates(64) + prints(8000)), r"refused 9 TooManySites 16193\n"),
    refused(b"void first(void) {" + privates(65) + b"}" + main_of(privates(64)), r"refused 10 FrameTooLarge first 74\n"),
    refused(b"void none(void) { }" + main_of(privates(64)), r"refused 10 FrameTooLarge main 73\n"),
    refused(of_file(56) + b"int one(void) { return 1; }" + main_of(b"one();"), r"refused 10 FrameTooLarge main 65\n"),
    refused(of_file(57) + main_of(b""), r"refused 10 FrameTooLarge main 65\n"),
    refused(main_of(prints(8000) + b"x = 1;"), r"refused 8 Rule 1 at 1:80018\n"),
]


# Which PRAM a run needed.
EREW = b"verdict EREW\nread none\nwrite none\n"


def crew(address):
    return re.compile(rb"verdict CREW\nread [1-9]\d* 0x%08x\nwrite none\n" % address)


def crcw(address):
    return re.compile(rb"verdict CRCW\nread none\nwrite [1-9]\d* 0x%08x\n" % address)


SHARED_DATA = 0x10000000
SOME_NUMBERS = b"7 3 9 1 5"
FILES.update({path.name: path.read_bytes() for path in (TOP / "examples").glob("greatest_*.f95")})
FILES.update(
    {
        "one_sum.f95": b"sh int x; void main(void) { x = 1 + 2 + 3; }",
        "ranks.f95": b"sh int x; void main(void) { start { x = $; } }",
        "own.f95": b"sh int y; sh int x[64]; void main(void) { start { x[$] = $; } }",
        "prints.f95": b"sh int x; void main(void) { putint(x); }",
        "faults.f95": b"sh int x; void main(void) { int *p = &x; if (__PROC_NR__ == 1) p = 0; x = *p; }",
    }
)
ROWS += [
    Row(audit("one_sum.f95"), 0, EREW, FINISHED),
    Row(audit("ranks.f95", harts=4), 0, crcw(SHARED_DATA), FINISHED),
    Row(audit("ranks.f95", harts=1024), 0, crcw(SHARED_DATA), FINISHED),
    Row(audit("ranks.f95"), 0, EREW, FINISHED),
    Row(audit("own.f95", harts=64), 0, EREW, FINISHED),
    # the program's own output isn't written
    Row(audit("prints.f95", harts=3), 0, crew(SHARED_DATA), FINISHED),
    Row(audit("prints.f95", harts=3, cycles=0), 7, EREW, AT_ONCE),
    Row(audit("greatest_erew.f95", harts=8), 0, EREW, FINISHED, given=SOME_NUMBERS),
    Row(audit("greatest_crew.f95", harts=8), 0, crew(SHARED_DATA + 4), FINISHED, given=SOME_NUMBERS),
    Row(audit("greatest_crcw.f95", harts=8), 0, crcw(SHARED_DATA), FINISHED, given=SOME_NUMBERS),
    Row(audit("faults.f95", harts=2), 6, EREW, r"fault BadAddress at 1:75 by processor 1 after \d+ cycles\n"),
    # what is refused, and in which order
    Row(audit("undeclared.f95"), 1, b"", r"refused 8 Rule 1 at 1:26\n", given=b"x"),
    Row(audit("empty.f95"), 10, b"", r"refused 19 NotANumber 2\n", given=b"12 x"),
    Row(audit("absent.f95"), 3, b"", r"read fault\n"),
    Row(audit("refused.f95"), 3, b"", r"read fault\n", given_from="."),
    Row(audit("one_sum.f95"), 4, b"", "", out_to="/dev/full"),
    Row(audit("one_sum.f95", harts=1025), 2, b"", r"refused command line\n"),
    Row(audit("one_sum.f95") + ["--show", "x"], 2, b"", r"refused command line\n"),
]

# What the processors commit in each cycle.
RANGES = rb"( \d+-\d+\*[1-9]\d*)+\n"
EVENTS = rb"(g \d+ (split|shrink|end|resume|meet|agree)( \d+-\d+)+\n)*"


def traced(harts):
    """A trace of this many processors in which some commit."""
    return re.compile(rb"fork95 trace 1\nharts %d\n(c [1-9]\d*%s%s)+end \d+\n" % (harts, RANGES, EVENTS))


FILES["nothing.f95"] = b"void main(void) { }"
ROWS += [
    Row(trace("nothing.f95"), 0, re.compile(rb"fork95 trace 1\nharts 1\nc (\d+) 0-0\*1\nend \1\n"), FINISHED),
    Row(trace("nothing.f95", harts=1024), 0, traced(1024), FINISHED),
    Row(trace("nothing.f95", cycles=0), 7, b"fork95 trace 1\nharts 1\nend 0\n", AT_ONCE),
    Row(trace("ranks.f95", harts=4), 0, traced(4), FINISHED),
    # the program's own output isn't written
    Row(trace("prints.f95", harts=3), 0, traced(3), FINISHED),
    Row(trace("greatest_crew.f95", harts=8), 0, traced(8), FINISHED, given=SOME_NUMBERS),
    Row(trace("faults.f95", harts=2), 6, traced(2), r"fault BadAddress at 1:75 by processor 1 after \d+ cycles\n"),
    # what is refused, and in which order
    Row(trace("undeclared.f95"), 1, b"", r"refused 8 Rule 1 at 1:26\n", given=b"x"),
    Row(trace("empty.f95"), 10, b"", r"refused 19 NotANumber 2\n", given=b"12 x"),
    Row(trace("absent.f95"), 3, b"", r"read fault\n"),
    Row(trace("nothing.f95"), 4, b"", "", out_to="/dev/full"),
    Row(trace("nothing.f95", harts=1025), 2, b"", r"refused command line\n"),
]


# A text's program under a schedule that is told.
FILES["branches.f95"] = b"sh int x; void main(void) { start { if ($ < 2) x = 1; else x = 2; } }"


def told(harts, *lines, last=b"\n"):
    """The name of a file with a trace of these lines behind the first two."""
    name = f"told {len(FILES)}.trace"
    FILES[name] = "\n".join(["fork95 trace 1", f"harts {harts}", *lines]).encode() + last
    return name


def replays(name, harts, lines, status, report, out=b"", given=b""):
    """A row of a replay of lines that are written in one word, as `c 1 0-0*1, end 1`."""
    return Row(replay(name, told(harts, *lines.split(", "))), status, out, report, given=given)


def bad_line(number):
    return rf"refused 24 BadTrace {number}\n"


def not_possible(number):
    return rf"refused 25 NotPossible {number}\n"


def passed_over(number, processor):
    return rf"refused 26 Pace {number} {processor}\n"


def finished(cycles):
    return rf"finished after {cycles} cycles\n"


def stopped(cycles):
    return rf"stopped after {cycles} cycles\n"


# const, const, const, binary, write; drop, const, read; outint; halt
ONE_SUM = "c 1 0-0*5, c 2 0-0*3, c 3 0-0*1, c 4 0-0*1"
# get; begin; const, get, write; drop, end; resume; halt
RANKS = "c 1 0-3*1, c 2 0-3*1, c 3 0-3*3, c 4 0-3*2, c 5 0-3*1, c 6 0-3*1"
# get; begin; get, const, binary, split; in each part const, const, write; drop, end; resume; end; resume; halt
BRANCHES = "c 1 0-3*1, c 2 0-3*1, c 3 0-3*4, c 4 0-1*3, c 5 2-3*3, c 6 0-3*2, c 7 0-3*1, c 8 0-3*1, c 9 0-3*1, c 10 0-3*1"
ROWS += [
    replays("nothing.f95", 1, "c 1 0-0*1, end 1", 0, finished(1)),
    replays("nothing.f95", 1, "c 1 0-0*2, end 1", 11, not_possible(1)),
    replays("nothing.f95", 1, "end 0", 7, stopped(0)),
    # a processor that could act before each of 256 rounds
    replays("nothing.f95", 1, "end 255", 7, stopped(255)),
    replays("nothing.f95", 1, "end 256", 11, passed_over(256, 0)),
    replays("nothing.f95", 1, "end 257", 11, passed_over(256, 0)),
    replays("nothing.f95", 1, "end 300", 11, passed_over(256, 0)),
    replays("nothing.f95", 1, "c 255 0-0*1, end 300", 0, finished(300)),
    replays("nothing.f95", 1, "c 256 0-0*1, end 256", 0, finished(256)),
    replays("nothing.f95", 1, "c 257 0-0*1, end 257", 11, passed_over(256, 0)),
    replays("nothing.f95", 3, "c 1 0-0*1 2-2*1, end 255", 7, stopped(255)),
    replays("nothing.f95", 3, "c 1 0-0*1 2-2*1, end 256", 11, passed_over(256, 1)),
    replays("nothing.f95", 3, "c 9 1-1*1, c 257 0-0*1 2-2*1, end 257", 11, passed_over(256, 0)),
    # in one round that isn't possible and is late the former counts, and else the earlier round
    replays("nothing.f95", 2, "c 256 0-0*2, end 256", 11, not_possible(256)),
    replays("nothing.f95", 2, "c 257 0-0*2, end 257", 11, passed_over(256, 0)),
    # who waits for others is not passed over
    replays("ranks.f95", 4, "c 1 0-2*1, c 255 3-3*1, c 510 0-3*1, end 510", 7, stopped(510)),
    replays("ranks.f95", 4, "c 1 0-2*1, c 255 3-3*1, end 511", 11, passed_over(511, 0)),
    # the whole program, and all but its last operation
    replays("sums.f95", 1, ONE_SUM + ", end 4", 0, finished(4), b"5\n"),
    replays("sums.f95", 1, ONE_SUM + ", end 200", 0, finished(200), b"5\n"),
    replays("sums.f95", 1, ", ".join(f"c {9 * cycle} 0-0*1" for cycle in range(1, 11)) + ", end 99", 0, finished(99), b"5\n"),
    replays("sums.f95", 1, ONE_SUM.replace(", c 4 0-0*1", ", end 4"), 7, stopped(4), b"5\n"),
    replays("sums.f95", 1, ONE_SUM + ", c 5 0-0*1, end 5", 11, not_possible(5)),
    # an operation too many, which isn't local, in a round
    replays("sums.f95", 1, ONE_SUM.replace("0-0*5", "0-0*6") + ", end 4", 11, not_possible(1)),
    replays("sums.f95", 1, ONE_SUM.replace("0-0*3", "0-0*4") + ", end 4", 11, not_possible(2)),
    replays("sums.f95", 1, ONE_SUM.replace("0-0*3", "0-0*2") + ", end 4", 7, stopped(4), b"5\n"),
    # a group acts whole: one of its members is dropped, or does another count
    replays("ranks.f95", 4, RANKS + ", end 6", 0, finished(6)),
    replays("ranks.f95", 4, RANKS.replace("c 3 0-3*3", "c 3 0-2*3") + ", end 6", 11, not_possible(3)),
    replays("ranks.f95", 4, RANKS.replace("c 3 0-3*3", "c 3 0-1*3 2-2*2 3-3*3") + ", end 6", 11, not_possible(3)),
    replays("ranks.f95", 4, RANKS.replace("c 3 0-3*3", "c 3 0-3*2") + ", end 6", 11, not_possible(4)),
    replays("ranks.f95", 4, RANKS.replace("c 4 0-3*2", "c 4 0-3*3") + ", end 6", 11, not_possible(4)),
    replays("ranks.f95", 4, RANKS.replace("c 4 0-3*2", "c 4 1-3*2") + ", end 6", 11, not_possible(4)),
    # all who wait begin and resume in one round, each with count 1
    replays("ranks.f95", 4, RANKS.replace("c 2 0-3*1", "c 2 0-2*1") + ", end 6", 11, not_possible(2)),
    replays("ranks.f95", 4, RANKS.replace("c 1 0-3*1, c 2 0-3*1", "c 2 0-3*2") + ", end 6", 11, not_possible(2)),
    replays("ranks.f95", 4, RANKS.replace("c 1 0-3*1", "c 1 0-2*1") + ", end 6", 11, not_possible(2)),
    replays("ranks.f95", 4, RANKS.replace("c 5 0-3*1", "c 5 0-2*1") + ", end 6", 11, not_possible(5)),
    replays("ranks.f95", 4, RANKS.replace("c 5 0-3*1", "c 5 0-3*2") + ", end 6", 11, not_possible(5)),
    replays("ranks.f95", 4, RANKS.replace("c 6 0-3*1", "c 6 0-2*1") + ", end 6", 7, stopped(6)),
    # two groups side by side
    replays("branches.f95", 4, BRANCHES + ", end 10", 0, finished(10)),
    replays("branches.f95", 4, BRANCHES.replace("c 4 0-1*3, c 5 2-3*3", "c 4 2-3*3, c 5 0-1*3") + ", end 10", 0, finished(10)),
    replays("branches.f95", 4, BRANCHES.replace("c 4 0-1*3, c 5 2-3*3", "c 5 0-3*3") + ", end 10", 0, finished(10)),
    replays("branches.f95", 4, BRANCHES.replace("c 4 0-1*3", "c 4 0-2*3") + ", end 10", 11, not_possible(4)),
    replays("branches.f95", 4, BRANCHES.replace("c 4 0-1*3", "c 4 0-0*3 2-2*3") + ", end 10", 11, not_possible(4)),
    replays("branches.f95", 4, BRANCHES.replace("c 5 2-3*3", "c 5 1-1*1 3-3*3") + ", end 10", 11, not_possible(5)),
    replays("branches.f95", 4, BRANCHES.replace("c 7 0-3*1", "c 7 0-1*1") + ", end 10", 11, not_possible(7)),
    # what is refused, and in which order
    Row(replay("nothing.f95", told(1, "c 1 0-0*1", "end 1", last=b"")), 11, b"", bad_line(4)),
    Row(replay("nothing.f95", told(1, "end 1", last=b"")), 11, b"", bad_line(3)),
    Row(replay("nothing.f95", told(1, "end 0", last=b"\nx")), 11, b"", bad_line(4)),
    Row(replay("nothing.f95", "nothing.f95"), 11, b"", bad_line(1)),
    replays("nothing.f95", 0, "end 1", 11, bad_line(2)),
    replays("nothing.f95", 1025, "end 1", 11, bad_line(2)),
    replays("nothing.f95", 1, "c 1 1-1*1, end 1", 11, bad_line(3)),
    replays("nothing.f95", 1, "c 1 0-0*256, end 1", 11, bad_line(3)),
    replays("nothing.f95", 1, "c 2 0-0*1, end 1", 11, bad_line(4)),
    replays("nothing.f95", 1, "c 1 0-0*1, g 1 meet 0-0, g 1 split 0-0, end 1", 11, bad_line(5)),
    replays("undeclared.f95", 0, "end 1", 1, r"refused 8 Rule 1 at 1:26\n", given=b"x"),
    replays("nothing.f95", 0, "end 1", 11, bad_line(2), given=b"x"),
    replays("nothing.f95", 1, "c 1 0-0*2, end 1", 10, r"refused 19 NotANumber 1\n", given=b"x"),
    Row(replay("nothing.f95", "absent.trace"), 3, b"", r"read fault\n"),
    Row(replay("absent.f95", "nothing.f95"), 3, b"", r"read fault\n"),
    Row(replay("nothing.f95", told(1, "c 1 0-0*1", "end 1")), 3, b"", r"read fault\n", given_from="."),
    Row(replay("sums.f95", told(1, *ONE_SUM.split(", "), "end 4")), 4, b"", "", out_to="/dev/full"),
    Row(["replay", "--", "nothing.f95", told(1, "end 0")], 7, b"", stopped(0)),
    Row(["replay", "nothing.f95", "--", told(1, "end 0")], 7, b"", stopped(0)),
    Row(["replay", "nothing.f95", told(1, "end 0"), "--"], 7, b"", stopped(0)),
]


# texts whose images run as the texts do, cycle by cycle: (the name, the harts, the input)
OWN_IMAGES = [
    ("empty.f95", 1, b""),
    ("group fault one that went by itself.f95", 8, b""),
    ("group prefix sums of an input.f95", 64, b" ".join(b"%d" % number for number in splits.NUMBERS)),
    ("fork every form of statement.f95", 8, b""),
    ("fork all 1,024 alone.f95", 1024, b""),
    ("fork fault a fault in a part while another runs.f95", 6, b""),
]


def fault_of_image(program, folder, name, harts, given):
    """What of the run of a text's image isn't as in the run of the text, if anything."""
    subprocess.run([program, *build(name, "own.image")], cwd=folder, capture_output=True, timeout=SECONDS)
    ended = [
        subprocess.run([program, *words], cwd=folder, input=given, capture_output=True, timeout=SECONDS)
        for words in (run(name, harts=harts), execute("own.image", harts=harts))
    ]
    of_text, of_image = [(one.returncode, one.stdout, one.stderr) for one in ended]
    return None if of_text == of_image else f"its image gives {of_image!r:.200}, not {of_text!r:.200}"


def added(number):
    """What the statement of this number in a self-test adds to its word of `c`, for 64 processors."""
    ranks, parts = range(64), number % 5 + 1
    return [
        64 * (number % 9 + 1),
        sum(1 + rank % 2 for rank in ranks),
        sum(rank % (number % 7 + 1) for rank in ranks),
        sum(len(ranks[part::parts]) ** 2 for part in range(parts)),
        64 * (number % 9 + 1),
        number % 9 + 1,
    ][number % 6]


def selftest_line(statements):
    """The line of a self-test."""
    words = [sum(added(number) for number in range(1, statements + 1) if number % 8 == word) for word in range(8)]
    return ("c = " + " ".join(map(str, words)) + "\n").encode()


ROWS += [
    *[Row(["selftest", str(statements)], 0, selftest_line(statements), FINISHED) for statements in (1, 6, 50, 500)],
    Row(["selftest", "6"], 0, b"c = 0 96 63 1024 320 6 448 0\n", FINISHED),
    Row(["selftest", "--", "006"], 0, selftest_line(6), FINISHED),
    # it takes no input, also where there is one that can't be read
    Row(["selftest", "6"], 0, selftest_line(6), FINISHED, given=b"x"),
    Row(["selftest", "6"], 0, selftest_line(6), FINISHED, given_from="."),
    Row(["selftest", "6"], 4, b"", "", out_to="/dev/full"),
]
ROWS += [
    Row(["locks"], 0, LOCK, "wrote 205 bytes\n"),
    Row(["locks", "--"], 0, LOCK, "wrote 205 bytes\n"),
    Row(["locks"], 0, LOCK, "wrote 205 bytes\n", given_from="."),
    Row(["locks"], 4, b"", "", out_to="/dev/full"),
    Row(run("counted.f95", harts=32) + ["--show", "n"], 0, b"n = 320\n", FINISHED),
    Row(run("two_locks.f95", harts=32) + ["--show", "n"], 0, b"n = 160 160\n", FINISHED),
]


def limited(row):
    """What sets the limits of a row, if it has any, where its command begins."""

    def limit():
        if row.memory:
            resource.setrlimit(resource.RLIMIT_AS, (row.memory, row.memory))
        if row.file_bytes:
            # a write past the end is refused, and no signal comes
            signal.signal(signal.SIGXFSZ, signal.SIG_IGN)
            resource.setrlimit(resource.RLIMIT_FSIZE, (row.file_bytes, row.file_bytes))

    return limit if row.memory or row.file_bytes else None


def is_output(out, wanted):
    return bool(wanted.fullmatch(out)) if isinstance(wanted, re.Pattern) else out == wanted


def faults(program, row, folder):
    """What of a row isn't as it must be."""
    outs = [Path(folder, to).open("wb") if to else subprocess.PIPE for to in (row.out_to, row.report_to)]
    source = os.open(Path(folder, row.given_from), os.O_RDONLY) if row.given_from else None
    ended = subprocess.run(
        [program, *row.words],
        cwd=folder,
        stdout=outs[0],
        stderr=outs[1],
        timeout=SECONDS,
        preexec_fn=limited(row),
        **({"stdin": source} if row.given_from else {"input": row.given}),
    )
    if row.given_from:
        os.close(source)
    out, report = ended.stdout or b"", (ended.stderr or b"").decode(errors="replace")
    if ended.returncode != row.status:
        yield f"status {ended.returncode}, not {row.status}"
    if not is_output(out, row.out):
        yield f"standard output {out[:100]!r}, not {row.out!r:.100}"
    if not re.fullmatch(row.report, report):
        yield f"standard error {report[:200]!r}, not {row.report!r}"
    for name, wanted in row.files.items():
        path = Path(folder, name)
        there = path.read_bytes() if path.exists() else None
        if not (wanted(there) if callable(wanted) else there == wanted):
            yield f"the file {name} isn't as it must be"


def main():
    program = str(Path(sys.argv[1]).resolve()) if len(sys.argv) > 1 else str(TOP / "fork95")
    failed = []
    with tempfile.TemporaryDirectory() as folder:
        for name, content in FILES.items():
            Path(folder, name).write_bytes(content)
        for row in ROWS:
            found = list(faults(program, row, folder))
            failed += [f"fork95 {' '.join(map(str, row.words))} : {'; '.join(found)}"] if found else []
        for name, harts, given in OWN_IMAGES:
            fault = fault_of_image(program, folder, name, harts, given)
            failed += [f"{name} : {fault}"] if fault else []
    return tell(len(ROWS) + len(OWN_IMAGES), failed)


if __name__ == "__main__":
    sys.exit(main())
