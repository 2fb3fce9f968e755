#!/usr/bin/env python3
"""Replays the traces of runs, and compares what that gives with the runs.

    python3 tools/replays.py [PROGRAM]

PROGRAM is ./fork95 where it isn't given. Each text that runs in the table of whole commands, and each
example, is run, traced, and replayed under its trace, on 1, 7, 64 and 1,024 harts. A replay must have
the output, the status and the report of the run. The traces of 7 harts are then changed, in ways of
which the report is known. The last line counts what passed.
"""

import os
import subprocess
import sys
import tempfile
from concurrent.futures import ThreadPoolExecutor
from pathlib import Path

sys.dont_write_bytecode = True
import commands

TOP = Path(__file__).resolve().parent.parent
SECONDS = 300
# the harts, and the most cycles of a run by so many
HARTS = {1: 40000, 7: 20000, 64: 6000, 1024: 1500}
# of which traces are changed
CHANGED = 7
# an input for the examples that need numbers
NUMBERS = b"5 2 9 1 4 4 12 7"


def texts():
    """The name of each text that is run, and the input that it gets."""
    for row in commands.ROWS:
        if row.words[:1] == ["run"] and row.status in (0, 6, 7) and not row.given_from and row.words[1] in commands.FILES:
            yield row.words[1], row.given
    for path in sorted((TOP / "examples").glob("*.f95")):
        yield f"example {path.name}", NUMBERS


class Runs:
    """The runs of one text, on so many harts."""

    def __init__(self, program, folder, name, harts, given):
        self.program, self.folder, self.name, self.given = program, folder, name, given
        self.harts = harts
        self.limits = ["--harts", str(harts), "--cycles", str(HARTS[harts])]

    def ended(self, *words):
        it = subprocess.run([self.program, *words], cwd=self.folder, input=self.given, capture_output=True, timeout=SECONDS)
        return it.returncode, it.stdout, it.stderr

    def replayed(self, trace):
        with tempfile.NamedTemporaryFile(dir=self.folder) as file:
            file.write(trace)
            file.flush()
            return self.ended("replay", self.name, file.name)

    def fault(self):
        """What isn't as it must be, if anything."""
        run, traced = self.ended("run", self.name, *self.limits), self.ended("trace", self.name, *self.limits)
        if traced[0] not in (0, 6, 7):
            return f"it isn't traced: {traced[2]!r}"
        replayed = self.replayed(traced[1])
        if replayed != run:
            return f"the replay gives {replayed!r:.200}, not {run!r:.200}"
        return self.fault_of_changes(traced) if self.harts == CHANGED else None

    def fault_of_changes(self, traced):
        """The same of changed traces."""
        for changed, report in changes(traced[1].decode().splitlines(), traced[0]):
            status, out, said = self.replayed(("\n".join(changed) + "\n").encode())
            if (status, out, said.decode()) != (11, b"", report + "\n"):
                return f"a changed trace gives {status} {out[:50]!r} {said!r}, not {report!r}"
        return None


def acts_of(line):
    """The ranges of a line of counts: first and last hart, and count."""
    for field in line.split(" ")[2:]:
        harts, count = field.split("*")
        first, last = harts.split("-")
        yield int(first), int(last), int(count)


def changes(lines, status):
    """Changed traces, each with its report."""
    counts = [place for place, line in enumerate(lines) if line.startswith("c ")]
    cycles = int(lines[-1].split(" ")[1])
    if not counts:
        return
    # a fault stops the last round alone
    if status == 6:
        yield [*lines[:-1], f"end {cycles + 1}"], f"refused 25 NotPossible {cycles}"
    # who has ended acts once more
    if status == 0:
        first = next(acts_of(lines[counts[-1]]))[0]
        yield [*lines[:-1], f"c {cycles + 1} {first}-{first}*1", f"end {cycles + 1}"], f"refused 25 NotPossible {cycles + 1}"
    # a line is doubled, or its ranges are in the other order, or a hart is one too many
    place = counts[len(counts) // 2]
    yield [*lines[: place + 1], *lines[place:]], f"refused 24 BadTrace {place + 2}"
    yield [*lines[:place], lines[place] + " 1024-1024*1", *lines[place + 1 :]], f"refused 24 BadTrace {place + 1}"
    yield [*lines[:place], lines[place].replace("*", "*0"), *lines[place + 1 :]], f"refused 24 BadTrace {place + 1}"
    yield lines[:-1], f"refused 24 BadTrace {len(lines)}"


def main():
    program = str(Path(sys.argv[1]).resolve()) if len(sys.argv) > 1 else str(TOP / "fork95")
    with tempfile.TemporaryDirectory() as folder, ThreadPoolExecutor(os.cpu_count()) as pool:
        for name, content in commands.FILES.items():
            Path(folder, name).write_bytes(content)
        for path in (TOP / "examples").glob("*.f95"):
            Path(folder, f"example {path.name}").write_bytes(path.read_bytes())
        asked = [(name, harts, given) for name, given in dict(texts()).items() for harts in HARTS]
        faults = list(pool.map(lambda it: Runs(program, folder, *it).fault(), asked))
    for (name, harts, _), fault in zip(asked, faults):
        if fault:
            print(f"{name} on {harts} harts: {fault}")
    failed = sum(map(bool, faults))
    print(f"{len(asked) - failed} passed, {failed} failed")
    return 1 if failed else 0


if __name__ == "__main__":
    sys.exit(main())
