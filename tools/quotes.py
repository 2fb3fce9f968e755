#!/usr/bin/env python3
"""Sees that each line that docs/PROOF.md quotes stands in a definition or a contract.

    tools/quotes.py

The last line counts the quoted lines that were found and those that weren't.
"""
import re
import sys
from pathlib import Path

sys.dont_write_bytecode = True
from tally import tell

TOP = Path(__file__).resolve().parent.parent
LEFT_OUT = "[..]"


def quoted_lines():
    """The lines in fences of the page, but for the first, which is a diagram."""
    page = (TOP / "docs/PROOF.md").read_text(encoding="utf-8")
    fences = re.findall(r"^```\n(.*?)^```$", page, re.M | re.S)[1:]
    return [line for fence in fences for line in fence.split("\n") if line.strip() not in ("", LEFT_OUT)]


def main():
    files = [*TOP.glob("crates/*/specs/*.antt"), *TOP.glob("crates/*/src/*.rt")]
    there = {line.rstrip() for file in files for line in file.read_text(encoding="utf-8").split("\n")}
    lines = quoted_lines()
    missing = [line for line in lines if line.rstrip() not in there]
    return tell(len(lines), [f"docs/PROOF.md quotes what stands nowhere: {line}" for line in missing])


if __name__ == "__main__":
    sys.exit(main())
