#!/usr/bin/env python3
"""Measures how fast traces are replayed.

    bench/replay.py [RUNS] [PROGRAM]

Each program in bench/programs is traced on 1, 64 and 1,024 harts, for a bounded number of cycles,
and the trace is replayed. An act is one hart in one cycle in which it commits. For each trace: its
acts and bytes, million acts and million bytes a second, and the most memory of the replay for each
byte of the trace. The time is the least of RUNS replays (5 where it isn't given), less the least of
as many of a trace of the same harts without a cycle, so that reading the text and taking memory
don't count. A process counts with the memory of this script when it starts, so less than some 10 MB
isn't told.
"""
import os
import subprocess
import sys
import tempfile
import time
from pathlib import Path

TOP = Path(__file__).resolve().parent.parent
# the harts, and the most cycles that are traced
CYCLES = {1: 2_000_000, 64: 100_000, 1024: 10_000}


def acts_of(trace):
    """How many acts a trace tells."""
    acts = 0
    with trace.open(encoding="ascii") as lines:
        for line in lines:
            if line.startswith("c "):
                for field in line.split(" ")[2:]:
                    first, last = field.split("*")[0].split("-")
                    acts += int(last) - int(first) + 1
    return acts


def replayed(program, source, trace, runs):
    """The least seconds of a replay, and the most memory of one in bytes."""
    best, memory = float("inf"), 0
    for _ in range(runs):
        start = time.perf_counter()
        child = subprocess.Popen(
            [program, "replay", source, trace], stdin=subprocess.DEVNULL, stdout=subprocess.DEVNULL, stderr=subprocess.DEVNULL
        )
        _, status, used = os.wait4(child.pid, 0)
        best = min(best, time.perf_counter() - start)
        assert os.waitstatus_to_exitcode(status) in (0, 6, 7), f"{source} isn't replayed"
        memory = max(memory, used.ru_maxrss * 1024)
    return best, memory


def row(program, source, harts, runs, folder):
    """The line of a program on so many harts."""
    trace, none = Path(folder, "whole"), Path(folder, "none")
    words = [program, "trace", source, "--harts", str(harts), "--cycles"]
    for path, cycles in ((trace, CYCLES[harts]), (none, 0)):
        with path.open("wb") as out:
            subprocess.run([*words, str(cycles)], stdin=subprocess.DEVNULL, stdout=out, stderr=subprocess.DEVNULL)
    acts, size = acts_of(trace), trace.stat().st_size
    (whole, memory), (start, least) = (replayed(program, source, path, runs) for path in (trace, none))
    seconds = max(whole - start, 1e-6)
    return (
        f"{source.stem:18} {harts:5} {acts:10} acts {size:10} bytes {acts / seconds / 1e6:7.1f} Macts/s"
        f" {size / seconds / 1e6:7.1f} MB/s {(memory - least) / size:5.1f} bytes a byte"
    )


def main():
    runs = int(sys.argv[1]) if len(sys.argv) > 1 else 5
    program = sys.argv[2] if len(sys.argv) > 2 else str(TOP / "crates/fork95/out/fork95")
    with tempfile.TemporaryDirectory() as folder:
        for source in sorted((TOP / "bench/programs").glob("*.f95")):
            for harts in CYCLES:
                print(row(program, source, harts, runs, folder), flush=True)


if __name__ == "__main__":
    main()
