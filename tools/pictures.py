#!/usr/bin/env python3
"""Tests tools/picture.py on stored traces and on a long one. The last line counts what passed.

    python3 tools/pictures.py
"""

import sys
import tempfile
import time
from pathlib import Path

TOP = Path(__file__).resolve().parent
sys.path.insert(0, str(TOP))
import picture  # noqa: E402
from tally import tell  # noqa: E402

PARTS = TOP / "traces" / "parts.trace"
# For some cycles of parts.trace what each of the six harts shows: a depth, or w where it waits.
SHOWN = {
    2: "000000",
    26: "www000",
    60: "1111ww",
    100: "2222ww",
    118: "2w2www",
    130: "3wwwww",
    150: "wwwwww",
    175: "2w2www",
    210: "1111ww",
    250: "wwwwww",
    268: "ww1www",
    300: "1111ww",
    341: "000000",
}
LONG_CYCLES = 10_000_000
FAULTY = {
    "fork95 trace 2\n": "line 1",
    "fork95 trace 1\nharts x\n": "line 2",
    "fork95 trace 1\nharts 2\nc 1 0-2*1\nend 1\n": "line 3",
    "fork95 trace 1\nharts 2\nc 1 0-1*1\ng 1 leave 0-1\nend 1\n": "line 4",
}


def shown(path, cycle):
    """What the harts of a trace show in a cycle."""
    last = picture.last_cycle(path)
    rows, reader = picture.read(path, cycle, min(last, cycle))
    line = picture.colours(rows, reader)[0]
    letters = {None: ".", picture.WAIT_COLOUR: "w"}
    letters.update((colour, str(depth)) for depth, colour in enumerate(picture.DEPTH_COLOURS))
    return "".join(letters[colour] for colour in line)


def long_trace(path):
    """A long trace: 64 harts that split again and again, the lower half with less to do."""
    with open(path, "w", encoding="ascii") as file:
        file.write("fork95 trace 1\nharts 64\nc 50 0-63*1\ng 50 split 0-63\n")
        for cycle in range(1000, LONG_CYCLES - 1000, 1000):
            file.write(f"c {cycle} 0-63*1\ng {cycle} split 0-63\n")
            file.write(f"c {cycle + 100} 0-31*1\ng {cycle + 100} end 0-31\n")
            file.write(f"c {cycle + 850} 32-63*1\ng {cycle + 850} end 32-63\n")
            file.write(f"c {cycle + 900} 0-63*1\ng {cycle + 900} resume 0-63\n")
        file.write(f"end {LONG_CYCLES}\n")


def outcomes(folder):
    """The name of each test, and whether it passed."""
    for cycle, expected in SHOWN.items():
        yield f"cycle {cycle}", shown(PARTS, cycle) == expected
    text = picture.picture(PARTS, 1, None)
    yield "title", "<title>parts: 6 harts, 341 cycles</title>" in text
    yield "events", all(colour in text for colour in picture.MARK_COLOURS.values())
    yield "part", "those from 60 to 90" in picture.picture(PARTS, 60, 90)
    path = folder / "long.trace"
    long_trace(path)
    before = time.monotonic()
    text = picture.picture(path, 1, None)
    yield "size", len(text) < 100_000
    yield "time", time.monotonic() - before < 30
    yield "half of a row", shown(path, 5_000_500) == "w" * 32 + "2" * 32
    for text, place in FAULTY.items():
        path.write_text(text, encoding="ascii")
        try:
            picture.picture(path, 1, None)
            yield f"fault in {place}", False
        except picture.BadTrace as fault:
            yield f"fault in {place}", str(fault).startswith(place)


def main():
    with tempfile.TemporaryDirectory() as folder:
        found = list(outcomes(Path(folder)))
    return tell(len(found), [f"failed: {name}" for name, holds in found if not holds])


if __name__ == "__main__":
    sys.exit(main())
