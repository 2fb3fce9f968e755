#!/usr/bin/env python3
"""Measures the machine and the compiler, and prints ratios.

    bench/bench.py [RUNS]

Hart-instructions per second, for 1, 64 and 1,024 harts: the least time of RUNS whole runs of one
text, less the least time of as many that stop before the first cycle, so that reading, compiling
and taking memory don't count. The same of one image, for the proved machine and for machine.c,
built by gcc -O2, with the ratio of the two. Bytes compiled per second, for texts of 1 KiB to 1 MiB:
the time of runs that stop before the first cycle, less that of an empty `main`. And where tcc is
there (Debian: tcc), the time and memory of `fork95 build` over those of `tcc -c`, for a text of
1 MiB of declarations and for one of sums, each with the same text in C. And where the program of
the table of texts is built (`rt ci` builds it), the time in which all rules of the language are
checked in a text of 1 MB with 60,000 names in nested scopes. And the cycles of empty statements of
groups, with 2, 64 and 1,024 harts. And programs that a user would write (bench/programs), some of
them with a group, with 1, 64 and 1,024 harts: cycles, cycles for each operation of each hart, and
million operations a second, beside the seconds of the same program in C on one core.
"""
import itertools
import os
import shutil
import string
import struct
import subprocess
import sys
import tempfile
import time

BENCH = os.path.dirname(os.path.abspath(__file__))
TOP = os.path.dirname(BENCH)
FORK95 = os.path.join(TOP, "fork95")
PROGRAM = os.path.join(TOP, "crates", "fork95", "out", "fork95")
RULES = os.path.join(TOP, "crates", "fk_check_cases", "out", "fk_check_cases")
HARTS = (1, 64, 1024)
# harts of a group, and its statements, each with the expressions that it has
GROUPS = (2, 64, 1024)
STATEMENTS = {
    "farm ;": [],
    "seq ;": [],
    "if (i) ;": ["i"],
    "if (i) ; else ;": ["i"],
    "fork (2; @=i; $=i) ;": ["2", "i", "i"],
    "fork (2; @=7; $=i) ;": ["2", "7", "i"],
    "fork (1000; @=i; $=i) ;": ["1000", "i", "i"],
    "fork (0; @=i; $=i) ;": ["0", "i", "i"],
}
COPIES = 32
# how many hart-instructions a run of the image has
LOOPED = 2**26
HEADER_WORDS = 6
# sw zero, 12(s10), with the address of the devices in s10: the hart ends
HALT = 0x000D2623


def least_times(commands, runs):
    """For each command, run in turns, the least seconds of a run and the report of the last one."""
    best, reports = [float("inf")] * len(commands), [""] * len(commands)
    for _ in range(runs):
        for number, words in enumerate(commands):
            start = time.perf_counter()
            ended = subprocess.run(
                words, stdin=subprocess.DEVNULL, stdout=subprocess.DEVNULL, stderr=subprocess.PIPE, text=True
            )
            best[number] = min(best[number], time.perf_counter() - start)
            reports[number] = ended.stderr.strip()
    return list(zip(best, reports))


def bounds(harts, cycles):
    return ["--harts", str(harts), "--cycles", str(cycles)]


def rates(machines, harts, cycles, runs):
    """For each machine, which gives the command for harts and cycles: million hart-instructions per
    second, and the milliseconds of a run that stops before the first cycle."""
    timed = least_times([machine(harts, bound) for machine in machines for bound in (cycles, 0)], runs)
    return [
        (int(report.split()[2]) * harts / max(whole - start, 1e-6) / 1e6, start * 1e3)
        for (whole, report), (start, _) in zip(timed[::2], timed[1::2])
    ]


def write(folder, name, text):
    path = os.path.join(folder, name)
    with open(path, "w", encoding="ascii") as file:
        file.write(text)
    return path


def sums(statements):
    """A text of about seven operations a statement, none of which prints."""
    return "sh int x;\nvoid main(void) {\n" + "  x = x + 1;\n" * statements + "}\n"


def padded(size):
    """A text of so many bytes: declarations of distinct names, as many as fit."""
    tail = "void main(void) { }\n"
    lines, left, number = [], size - len(tail), 0
    while left >= 16:
        line = "sh int v%06d;\n" % number
        lines.append(line)
        left -= len(line)
        number += 1
    return "".join(lines) + " " * left + tail


def name_of(number):
    """A name of three characters, the first of them a capital."""
    capitals, others = string.ascii_uppercase, string.ascii_letters + string.digits
    rest, last = divmod(number, len(others))
    first, middle = divmod(rest, len(others))
    return capitals[first] + others[middle] + others[last]


def nested_scopes(blocks, levels):
    """Blocks of so many levels, side by side, in each of which a variable is declared and set."""
    names = iter(map(name_of, range(blocks * levels)))
    opened = ("".join("{int %s;%s=1;" % (name, name) for name in itertools.islice(names, levels)) for _ in range(blocks))
    return "".join(block + "}" * levels for block in opened)


def build_image(folder, name, text):
    source, image = write(folder, name + ".f95", text), os.path.join(folder, name)
    subprocess.run([PROGRAM, "build", source, "-o", image], check=True, stderr=subprocess.DEVNULL)
    return image


def make_endless(path):
    """Makes the last word of code, which ends a hart, a jump to the first, so that it runs as long as asked."""
    with open(path, "r+b") as file:
        code_words = struct.unpack("<%dI" % HEADER_WORDS, file.read(4 * HEADER_WORDS))[2]
        last = 4 * (HEADER_WORDS + code_words - 1)
        file.seek(last)
        assert struct.unpack("<I", file.read(4))[0] == HALT, "the code doesn't end as it did"
        file.seek(last)
        file.write(struct.pack("<I", jump(-4 * (code_words - 1))))


def jump(offset):
    """The word of `jal zero, offset`."""
    assert -(2**20) <= offset < 0
    bits = offset & (2**21 - 1)
    return (bits >> 20) << 31 | (bits >> 1 & 0x3FF) << 21 | (bits >> 11 & 1) << 20 | (bits >> 12 & 0xFF) << 12 | 0x6F


def build_c(folder, name, source, *flags):
    program = os.path.join(folder, name)
    subprocess.run(["gcc", "-O2", *flags, "-o", program, source], check=True)
    return program


def build_baseline(folder):
    return build_c(folder, "machine", os.path.join(BENCH, "machine.c"))


def require_same_runs(folder, baseline):
    """The two machines print and report the same of each example."""
    examples = os.path.join(TOP, "examples")
    for name in sorted(os.listdir(examples)):
        with open(os.path.join(examples, name), encoding="ascii") as file:
            image = build_image(folder, os.path.splitext(name)[0], file.read())
        commands = [PROGRAM, "exec", image] + bounds(64, 10**6), [baseline, image, "64", str(10**6)]
        ours, theirs = (subprocess.run(c, stdin=subprocess.DEVNULL, capture_output=True) for c in commands)
        assert (ours.stdout, ours.returncode) == (theirs.stdout, theirs.returncode), name
        # the machine in C names a fault by its site alone
        assert ours.stderr == theirs.stderr or ours.returncode == 6, name


def print_rates(folder, runs):
    text = write(folder, "sums.f95", sums(2280))
    base = None
    print("harts  million hart-instructions/s  ratio to 1 hart")
    for harts in HARTS:
        [(rate, _)] = rates([lambda h, c: [PROGRAM, "run", text] + bounds(h, c)], harts, 10**7, runs)
        base = base or rate
        print("%5d  %27.1f  %15.2f" % (harts, rate, rate / base))


def print_ratios_to_c(folder, runs):
    baseline = build_baseline(folder)
    require_same_runs(folder, baseline)
    image = build_image(folder, "endless", sums(100))
    make_endless(image)
    machines = [
        lambda h, c: [PROGRAM, "exec", image] + bounds(h, c),
        lambda h, c: [baseline, image, str(h), str(c)],
    ]
    print("harts  million hart-instructions/s  machine.c  ratio to machine.c  ms to start")
    for harts in HARTS:
        (ours, start), (theirs, _) = rates(machines, harts, LOOPED // harts, runs)
        print("%5d  %27.1f  %9.1f  %18.3f  %11.1f" % (harts, ours, theirs, ours / theirs, start))


def cycles_of(folder, statement, harts):
    """The cycles of a statement of a group, from runs with so many copies of it and with twice as many."""
    cycles = []
    for copies in (COPIES, 2 * COPIES):
        path = write(folder, "statements.f95", "void main(void) { int i; start { i = $; %s } }\n" % (statement * copies))
        ended = subprocess.run([PROGRAM, "run", path] + bounds(harts, 2**32 - 1), stdin=subprocess.DEVNULL, capture_output=True, text=True)
        assert ended.returncode == 0, ended.stderr
        cycles.append(int(ended.stderr.split()[2]))
    return (cycles[1] - cycles[0]) / COPIES


def print_statements(folder):
    print("statement                   harts  cycles  over its expressions")
    for statement, expressions in STATEMENTS.items():
        for harts in GROUPS:
            whole = cycles_of(folder, statement, harts)
            parts = sum(cycles_of(folder, e + ";", harts) for e in expressions)
            print("%-26s  %5d  %6.1f  %20.1f" % (statement, harts, whole, whole - parts))


def print_programs(folder, runs):
    counting = build_c(folder, "counting", os.path.join(BENCH, "machine.c"), "-DCOUNT_OPERATIONS")
    print("program     harts      cycles  operations  cycles/operation  million operations/s  ms  ms of C")
    programs = os.path.join(BENCH, "programs")
    for name in sorted(name[:-4] for name in os.listdir(programs) if name.endswith(".f95")):
        with open(os.path.join(programs, name + ".f95"), encoding="ascii") as file:
            image = build_image(folder, name, file.read())
        [(seconds_of_c, _)] = least_times([[build_c(folder, name + "_c", os.path.join(programs, name + ".c"))]], runs)
        for harts in HARTS:
            counted = subprocess.run([counting, image, str(harts), str(2**32 - 1)], stdin=subprocess.DEVNULL, capture_output=True, text=True)
            cycles, operations = int(counted.stderr.split()[2]), int(counted.stderr.split()[4])
            assert counted.returncode == 0, counted.stderr
            ours = [[PROGRAM, "exec", image] + bounds(harts, bound) for bound in (2**32 - 1, 0)]
            (whole, _), (start, _) = least_times(ours, min(runs, 5))
            busy = max(whole - start, 1e-6)
            row = (name, harts, cycles, operations, cycles * harts / operations, operations / busy / 1e6, busy * 1e3, seconds_of_c * 1e3)
            print("%-10s  %5d  %10d  %10d  %16.2f  %20.1f  %.0f  %.1f" % row)


def print_compiling(folder, runs):
    empty = write(folder, "empty.f95", "void main(void) { }\n")
    [(nothing, _)] = least_times([[PROGRAM, "run", empty] + bounds(1, 0)], runs)
    base = None
    print("KiB    million bytes compiled/s       ratio to 1 KiB")
    for kib in (1, 16, 128, 1024):
        path = write(folder, "text.f95", padded(kib * 1024))
        [(seconds, report)] = least_times([[PROGRAM, "run", path] + bounds(1, 0)], runs)
        rate = kib * 1024 / max(seconds - nothing, 1e-6) / 1e6
        base = base or rate
        print("%5d  %27.1f  %15.2f   %s" % (kib, rate, rate / base, report))


def peak_memory(command):
    """The most memory that a run of it takes, in MiB."""
    child = subprocess.Popen(command, stdin=subprocess.DEVNULL, stdout=subprocess.DEVNULL, stderr=subprocess.DEVNULL)
    _, _, usage = os.wait4(child.pid, 0)
    return usage.ru_maxrss / 1024


def print_ratios_to_tcc(folder, runs):
    if not shutil.which("tcc"):
        print("tcc isn't there, so nothing is compared with it")
        return
    print("text          KiB  ms to build  ms of tcc  ratio to tcc  MiB  MiB of tcc")
    for name, text in (("declarations", padded(2**20)), ("sums", sums(2280))):
        ours = [PROGRAM, "build", write(folder, name + ".f95", text), "-o", os.path.join(folder, name + ".image")]
        theirs = ["tcc", "-c", write(folder, name + ".c", text.replace("sh int", "int")), "-o", os.path.join(folder, name + ".o")]
        (seconds, _), (seconds_of_tcc, _) = least_times([ours, theirs], runs)
        ratio = seconds_of_tcc / seconds
        row = (name, len(text) / 1024, seconds * 1e3, seconds_of_tcc * 1e3, ratio, peak_memory(ours), peak_memory(theirs))
        print("%-12s %4d  %11.1f  %9.1f  %12.2f  %3d  %10d" % row)


def print_checking(folder, runs):
    if not os.path.exists(RULES):
        print("the program of the table of texts isn't built, so its check isn't timed")
        return
    seconds = []
    for piece in (nested_scopes(600, 100), ";"):
        lines = write(folder, "piece", "rules\tasynchronous\t" + piece + "\n")
        best = float("inf")
        for _ in range(runs):
            with open(lines, "rb") as given:
                start = time.perf_counter()
                ended = subprocess.run([RULES], stdin=given, capture_output=True, text=True)
            best = min(best, time.perf_counter() - start)
        assert ended.stdout == "keeps them\n", ended.stdout
        seconds.append(best)
    print("60,000 names in nested scopes, %d bytes: %.0f ms" % (len(nested_scopes(600, 100)), (seconds[0] - seconds[1]) * 1e3))


def main():
    runs = int(sys.argv[1]) if len(sys.argv) > 1 else 40
    subprocess.run([FORK95], stdout=subprocess.DEVNULL, stderr=subprocess.DEVNULL)
    with tempfile.TemporaryDirectory() as folder:
        print_rates(folder, runs)
        print_ratios_to_c(folder, runs)
        print_compiling(folder, runs)
        print_ratios_to_tcc(folder, runs)
        print_checking(folder, runs)
        print_statements(folder)
        print_programs(folder, runs)


if __name__ == "__main__":
    main()
