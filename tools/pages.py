#!/usr/bin/env python3
"""Runs the commands that the examples and pages show, and compares what they print.

    tools/pages.py [PROGRAM]

PROGRAM is ./fork95 where it isn't given. Of each example the first command in its comment is run, and its output is
compared with the table below. Of README.md and docs/TUTORIAL.md each command that runs or audits an example is run. The
last line counts those that passed and failed.
"""
import re
import subprocess
import sys
from pathlib import Path

sys.dont_write_bytecode = True
from tally import tell

TOP = Path(__file__).resolve().parent.parent
SECONDS = 120
FAULTED = 6


def lines(*items):
    """One item a line."""
    return "".join(f"{item}\n" for item in items)


def levels(numbers):
    """How deep quicksort goes whose pivot is the last number."""
    if not numbers:
        return 0
    pivot = numbers[-1]
    return 1 + max(levels([it for it in numbers if it < pivot]), levels([it for it in numbers if it > pivot]))


def rises(numbers):
    """How often a row of squares' last two digits rises, where each is added up with its two neighbours, in a ring."""
    last = len(numbers) - 1
    digits = [number * number % 100 for number in numbers]
    smooth = [digits[at - 1] + digits[at] + digits[at + 1 if at < last else 0] for at in range(len(digits))]
    return sum(smooth[at] > smooth[at - 1] for at in range(len(smooth)))


UNSORTED = [42, 7, 91, 15, 7, 63, 28, 80, 3, 56, 34, 77, 19, 42, 88, 50]
FIELD = "........\n"
OUTPUTS = {
    "bad_pointer": lines(10, 20, 30, 40),
    "bank": lines(80, 80, "deposits without a lock were lost"),
    "breadth_first": lines(1, 3, 9, 17, 24, 10),
    "exclusive": lines(sum(1 for number in range(1, 47, 3) if number % 2 == 0)),
    "farm": lines(29, 1008),
    "few_of_many": lines("......", "......", "1.....", "55555.", "666666"),
    "greatest_crcw": lines(max(range(3, 79, 5))),
    "greatest_crew": lines(max(range(3, 79, 5))),
    "greatest_erew": lines(max(range(3, 79, 5))),
    "group_library": lines(3, 4, 8, 9, 14, 23, 25, 31, 9, 1, 4, 5, 9, 6),
    "if_in_lockstep": lines("gggggggg", ".o.o.o.o", "ttteeeee", "...eeeee", "...lllll", ".....lll", ".......l", "gggggggg"),
    "hello": lines(0, 1, 2, 3, "that were all"),
    "histogram": lines(*[10] * 10),
    "life": ".#......\n..#.....\n###.....\n" + FIELD * 5 + "\n" + FIELD + "..#.....\n...#....\n.###....\n" + FIELD * 4 + "\n",
    "list": lines(100, sum(number * number for number in range(100))),
    "list_ranking": lines(6, 15, 4, 5, 2, 11, 0, 1, 14, 7, 12, 13, 10, 3, 8, 9),
    "lost_updates": lines(*[3] * 1024),
    "matrix": lines(*[2 * (row + column) for row in range(8) for column in range(8)]),
    "maximum": lines(35),
    "odd_even_sort": lines(4, 5, 8, 9, 15, 26, 31, 35),
    "parts": lines("012.012.", "000.111.", "222.222.", "000.111.", "01234567"),
    "pipeline": lines("a...", "ba..", "cba.", "dcba", "edcb", "fedc", ".fed", "..fe", "...f", *[rises(range(first, first + 8)) for first in range(1, 48, 8)]),
    "prefix_sums": lines(*[number * (number + 1) // 2 for number in range(1, 17)]),
    "quicksort": lines(*sorted(UNSORTED), f"levels: {levels(UNSORTED)}"),
    "queue": lines(111, 118, 261, 0, 1, 7, 2, 5, 8, 16, "tasks of each processor:", 1, 1, 1, 7),
    "race": lines(100, 6400),
    "recursion": lines(0, 1, 1, 2, 3, 5, 8, 13, 21, 34, 55, 89, 144, 233, 377, 610),
    "reduction": lines(max(range(3, 1781, 7)), sum(range(3, 1781, 7))),
    "sums": lines(5, -1, 0, -2147483648),
    "sync_recursion": lines(*[number**10 for number in range(8)]),
    "unfair": lines(2),
    "who_is_where": lines("wwwwwwwr", "sgggggww", "bbfbffww", "bbbbfbww", "efeeeeww", "ggggggww", "rrrrrrrr"),
    "writes": lines(7, 42, *[number * number for number in range(8)]),
}


def run(command, program):
    """Runs a line of the shell at the top of the repository, with the program for ./fork95."""
    line = command.replace("./fork95", program)
    return subprocess.run(["bash", "-c", line], cwd=TOP, stdin=subprocess.DEVNULL, capture_output=True, timeout=SECONDS, text=True)


def command_of(example):
    """The first command in the comment of an example."""
    text = (TOP / "examples" / f"{example}.f95").read_text(encoding="utf-8")
    return re.search(r"^ {7}(.*\./fork95 run .*)$", text, re.M)[1]


def fault_of_example(example, program):
    """What is wrong with an example's run, if anything."""
    ended = run(command_of(example), program)
    wanted = FAULTED if example == "bad_pointer" else 0
    if ended.returncode != wanted:
        return f"status {ended.returncode}, not {wanted}: {ended.stderr.strip()}"
    if ended.stdout != OUTPUTS[example]:
        return f"standard output {ended.stdout[:80]!r}, not {OUTPUTS[example][:80]!r}"
    return None


def commands_of(page):
    """The commands of a page that run or audit an example."""
    text = (TOP / page).read_text(encoding="utf-8")
    return re.findall(r"^ {4}(?:\$ )?(.*\./fork95 (?:run|audit) examples/.*)$", text, re.M)


def fault_of_command(command, program):
    """What is wrong with the run of a page's command, if anything."""
    ended = run(command, program)
    wanted = FAULTED if "bad_pointer" in command else 0
    return None if ended.returncode == wanted else f"status {ended.returncode}, not {wanted}: {ended.stderr.strip()}"


def main():
    program = str(Path(sys.argv[1]).resolve()) if len(sys.argv) > 1 else str(TOP / "fork95")
    examples = sorted(it.stem for it in (TOP / "examples").glob("*.f95"))
    rows = {f"examples/{it}.f95": fault_of_example(it, program) for it in examples}
    for page in ("README.md", "docs/TUTORIAL.md"):
        for command in commands_of(page):
            rows[f"{page}: {command}"] = fault_of_command(command, program)
    return tell(len(rows), [f"{row}: {fault}" for row, fault in rows.items() if fault])


if __name__ == "__main__":
    sys.exit(main())
