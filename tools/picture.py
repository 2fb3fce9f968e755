#!/usr/bin/env python3
"""Draws a trace as a picture: who does what when.

    python3 tools/picture.py TRACE [--from C] [--to C] > picture.svg

TRACE is a file that `./fork95 trace` wrote. Each hart has a column, and time runs downwards. A
colour tells how deep a hart is in the tree of groups, grey that it waits for others, and white that
it commits nothing any more. Marks tell where groups begin, split, shrink, end, resume, meet and
agree. Where there are more cycles than rows, each row stands for equally many of them, so the
picture of a long run is as small as that of a short one. `--from` and `--to` show the cycles
between.

The names of events and the form of the lines are those of docs/MACHINE.md, "Traces".
"""

import argparse
import os
import sys
from xml.sax.saxutils import escape

MOST_ROWS = 400
PICTURE_HEIGHT = 800
PICTURE_WIDTH = 960
LEFT, TOP = 70, 64
DEPTH_COLOURS = (
    "#e3ecf7", "#a9cbe8", "#66a5d6", "#2f78b3", "#f3b94d", "#e07b39", "#b5442e", "#6d1f2b",
)
WAIT_COLOUR = "#c8c8c8"
EVENTS = ("begin", "split", "shrink", "end", "resume", "meet", "agree")
MARK_COLOURS = {
    "begin": "#000000",
    "split": "#7a0fb5",
    "shrink": "#c2185b",
    "end": "#00695c",
    "resume": "#2e7d32",
    "meet": "#d50000",
    "agree": "#5d4037",
}
# The most ranges of a row whose marks are drawn one by one, the most marks with their signs, and the
# most rows with marks of an event. An event of more rows isn't marked: its lines would hide the rest.
MOST_RANGES = 24
MOST_SIGNS = 300
MOST_MARKED = 100


class BadTrace(Exception):
    """The file is no trace; the message says where."""


class Ranges:
    """The ranges of a line, each as its first hart and the one after its last."""

    def __init__(self, text, harts, line):
        self.spans = []
        self.mask = 0
        for word in text.split():
            first, _, rest = word.partition("-")
            last = rest.partition("*")[0]
            if not (first.isdigit() and last.isdigit() and int(first) <= int(last) < harts):
                raise BadTrace(f"line {line}: {word} is no range of harts")
            self.spans.append((int(first), int(last) + 1))
            self.mask |= (1 << (int(last) + 1)) - (1 << int(first))


class Rows:
    """What is drawn: for each row and hart how long it waited and how deep it is at the end."""

    def __init__(self, first, last, harts):
        self.first, self.last, self.harts = first, last, harts
        cycles = max(1, last - first + 1)
        self.step = -(-cycles // MOST_ROWS)
        self.count = -(-cycles // self.step)
        self.waits = [[0] * harts for _ in range(self.count)]
        self.depths = [None] * self.count
        self.marks = [dict() for _ in range(self.count)]
        self.done = 0

    def row_of(self, cycle):
        return (cycle - self.first) // self.step

    def start_of(self, row):
        return self.first + row * self.step

    def cycles_of(self, row):
        """The number of cycles of a row; the last row may have fewer."""
        return min(self.last + 1, self.start_of(row + 1)) - self.start_of(row)

    def pass_to(self, cycle, depths):
        """Notes the depths in all rows that are over before a cycle."""
        while self.done < self.count and self.start_of(self.done + 1) <= cycle:
            self.depths[self.done] = list(depths)
            self.done += 1

    def wait(self, hart, start, end):
        """A hart waited in the cycles from start to end."""
        start, end = max(start, self.first), min(end, self.last)
        while start <= end:
            row = self.row_of(start)
            until = min(end, self.start_of(row + 1) - 1)
            self.waits[row][hart] += until - start + 1
            start = until + 1

    def mark(self, cycle, event, mask):
        if self.first <= cycle <= self.last:
            marks = self.marks[self.row_of(cycle)]
            marks[event] = marks.get(event, 0) | mask


class Reader:
    """Follows the harts through a trace."""

    def __init__(self, rows, harts):
        self.rows, self.harts = rows, harts
        self.depths = [0] * harts
        # Whether the last step of a hart in the tree was the end of its part.
        self.has_ended = [False] * harts
        self.last_commit = [0] * harts
        self.pending = (0, None)
        self.known = {}

    def ranges(self, text, line):
        found = self.known.get(text)
        if found is None:
            if len(self.known) > 100_000:
                self.known.clear()
            found = self.known[text] = Ranges(text, self.harts, line)
        return found

    def settle(self):
        """Enters the commits of the cycle before, once its events were read."""
        cycle, ranges = self.pending
        if ranges is not None:
            for first, end in ranges.spans:
                self.last_commit[first:end] = [cycle] * (end - first)

    def commits(self, cycle, ranges):
        self.settle()
        self.pending = (cycle, ranges)
        self.rows.pass_to(cycle, self.depths)

    def event(self, cycle, name, ranges):
        if name == "split":
            self.split(cycle, ranges)
            return
        self.rows.mark(cycle, name, ranges.mask)
        for first, end in ranges.spans:
            if name in ("resume", "meet"):
                self.waited(cycle, first, end)
            if name == "resume":
                self.resume(first, end)
            elif name == "end":
                self.depths[first:end] = [max(0, depth - 1) for depth in self.depths[first:end]]
                self.has_ended[first:end] = [True] * (end - first)
            elif name == "shrink":
                self.has_ended[first:end] = [False] * (end - first)

    def split(self, cycle, ranges):
        """A split at depth 0 is the beginning of a `start`, at which all have met."""
        for first, end in ranges.spans:
            begins = self.depths[first] == 0
            mask = (1 << end) - (1 << first)
            self.rows.mark(cycle, "begin" if begins else "split", mask)
            if begins:
                self.waited(cycle, first, end)
            self.depths[first:end] = [depth + 1 for depth in self.depths[first:end]]
            self.has_ended[first:end] = [False] * (end - first)

    def resume(self, first, end):
        """Who has come to an end is already out of its part. The others leave it now."""
        for hart in range(first, end):
            if not self.has_ended[hart]:
                self.depths[hart] = max(0, self.depths[hart] - 1)
            self.has_ended[hart] = False

    def waited(self, cycle, first, end):
        for hart in range(first, end):
            self.rows.wait(hart, self.last_commit[hart] + 1, cycle - 1)


def last_cycle(path):
    """The number in the last line. A run that was cut off has no `end` line."""
    with open(path, "rb") as file:
        file.seek(0, os.SEEK_END)
        file.seek(max(0, file.tell() - 65536))
        tail = file.read().decode("ascii", "replace").split("\n")
    for line in reversed(tail[:-1]):
        words = line.split(" ")
        if words[0] in ("end", "c", "g") and len(words) > 1 and words[1].isdigit():
            return int(words[1])
    return 0


def read(path, first, last):
    """The rows of the cycles from first to last of a trace."""
    with open(path, encoding="ascii") as file:
        if file.readline() != "fork95 trace 1\n":
            raise BadTrace("line 1: no trace")
        head = file.readline().split()
        if len(head) != 2 or head[0] != "harts" or not head[1].isdigit():
            raise BadTrace("line 2: no number of harts")
        harts = int(head[1])
        rows = Rows(first, last, harts)
        reader = Reader(rows, harts)
        read_lines(file, reader)
    reader.settle()
    rows.pass_to(rows.last + rows.step + 1, reader.depths)
    return rows, reader


def read_lines(file, reader):
    for number, line in enumerate(file, 3):
        kind, _, rest = line.partition(" ")
        if kind == "end":
            return
        cycle, _, rest = rest.partition(" ")
        if not cycle.isdigit() or kind not in ("c", "g"):
            raise BadTrace(f"line {number}: neither c, g nor end")
        if kind == "c":
            reader.commits(int(cycle), reader.ranges(rest, number))
        else:
            name, _, rest = rest.partition(" ")
            if name not in EVENTS[1:]:
                raise BadTrace(f"line {number}: {name} is no event")
            reader.event(int(cycle), name, reader.ranges(rest, number))


def spans_of(mask):
    """The ranges of a mask, each as its first hart and the one after its last."""
    spans, hart = [], 0
    while mask:
        skip = (mask & -mask).bit_length() - 1
        mask >>= skip
        count = (~mask & (mask + 1)).bit_length() - 1
        spans.append((hart + skip, hart + skip + count))
        hart += skip + count
        mask >>= count
    return spans


def drawn(mask):
    """The ranges of a mask that are drawn: one across all of them where there are many."""
    spans = spans_of(mask)
    return spans if len(spans) <= MOST_RANGES else [(spans[0][0], spans[-1][1])]


def colours(rows, reader):
    """The colour of each hart in each row; None where it commits nothing any more."""
    table = []
    for row in range(rows.count):
        start = rows.start_of(row)
        length = rows.cycles_of(row)
        line = []
        for hart in range(rows.harts):
            if 2 * rows.waits[row][hart] >= length:
                line.append(WAIT_COLOUR)
            elif start > reader.last_commit[hart]:
                line.append(None)
            else:
                line.append(DEPTH_COLOURS[min(rows.depths[row][hart], len(DEPTH_COLOURS) - 1)])
        table.append(line)
    return table


def rectangles(table):
    """Equal cells that lie together, as (colour, left, right, top, bottom)."""
    found, still_open = [], {}
    for row, line in enumerate(table + [[]]):
        runs, left = {}, 0
        for hart in range(1, len(line) + 1):
            if hart == len(line) or line[hart] != line[left]:
                if line[left] is not None:
                    runs[(left, hart, line[left])] = row
                left = hart
        for run, top in still_open.items():
            if run in runs:
                runs[run] = top
            else:
                found.append((run[2], run[0], run[1], top, row))
        still_open = runs
    return found


class Drawing:
    """The SVG text of a picture."""

    def __init__(self, rows, reader, title):
        self.rows = rows
        self.cell = max(1, min(28, PICTURE_WIDTH // rows.harts))
        self.height = max(2, min(14, PICTURE_HEIGHT // rows.count))
        self.width = max(620, LEFT + self.cell * rows.harts + 20)
        self.bottom = TOP + self.height * rows.count
        self.parts = []
        self.title(title)
        self.cells(reader)
        self.marks()
        self.axes()
        self.legend()

    def add(self, text):
        self.parts.append(text)

    def text(self, x, y, words, anchor="start", size=11):
        style = f'font-size="{size}" text-anchor="{anchor}"'
        self.add(f'<text x="{x}" y="{y}" {style}>{escape(words)}</text>')

    def x(self, hart):
        return LEFT + self.cell * hart

    def y(self, row):
        return TOP + self.height * row

    def title(self, title):
        self.add(f"<title>{escape(title)}</title>")
        self.text(LEFT, 20, title, size=15)

    def cells(self, reader):
        paths = {}
        for colour, left, right, top, bottom in rectangles(colours(self.rows, reader)):
            wide, high = self.cell * (right - left), self.height * (bottom - top)
            cell = f"M{self.x(left)} {self.y(top)}h{wide}v{high}h-{wide}z"
            paths.setdefault(colour, []).append(cell)
        for colour, path in paths.items():
            self.add(f'<path fill="{colour}" d="{"".join(path)}"/>')
        self.add(
            f'<rect x="{LEFT}" y="{TOP}" width="{self.cell * self.rows.harts}" '
            f'height="{self.height * self.rows.count}" fill="none" stroke="#888"/>'
        )

    def marks(self):
        """Lines across the harts of each event, each with the event's sign where there are few."""
        rows = self.rows.marks
        spans = {event: [drawn(marks.get(event, 0)) for marks in rows] for event in EVENTS}
        self.unmarked = [event for event in EVENTS if sum(map(bool, spans[event])) > MOST_MARKED]
        for event in self.unmarked:
            spans[event] = []
        total = sum(len(found) for lines in spans.values() for found in lines)
        has_signs = total <= MOST_SIGNS and self.cell >= 6
        for place, event in enumerate(EVENTS):
            path = []
            for row, found in enumerate(spans[event]):
                y = self.y(row) + self.height * (place + 1) / (len(EVENTS) + 1)
                path += [self.mark(event, first, end, y, has_signs) for first, end in found]
            if path:
                style = f'fill="none" stroke="{MARK_COLOURS[event]}" stroke-width="1.2"'
                self.add(f'<path {style} d="{"".join(path)}"/>')

    def mark(self, event, first, end, y, has_sign):
        line = f"M{self.x(first)} {y:.1f}H{self.x(end)}"
        return line + sign(event, self.x(first) + self.cell / 2, y) if has_sign else line

    def axes(self):
        rows = self.rows
        self.text(LEFT - 8, TOP - 6, "cycle", "end")
        self.text(LEFT, TOP - 20, "hart")
        every = max(1, -(-40 // self.cell))
        for hart in range(0, rows.harts, every):
            self.text(self.x(hart) + self.cell / 2, TOP - 6, str(hart), "middle", 10)
        apart = max(1, 40 // self.height)
        for row in range(0, rows.count, apart):
            y = self.y(row)
            self.text(LEFT - 8, y + 4, str(rows.start_of(row)), "end", 10)
            self.add(f'<path stroke="#888" d="M{LEFT - 5} {y}h5"/>')

    def legend(self):
        y = self.colours_told(self.bottom + 22)
        y = self.signs_told(y + 22)
        self.step_told(y + 20)
        self.foot = y + 20

    def colours_told(self, y):
        """Tells the colours from this line on, in as many lines as they take, and returns the last."""
        deepest = max((max(line) for line in self.rows.depths if line), default=0)
        told = [(DEPTH_COLOURS[0], "in the root")]
        told += [(colour, f"depth {depth}") for depth, colour in enumerate(DEPTH_COLOURS)][1 : deepest + 1]
        told += [(WAIT_COLOUR, "waits"), ("#ffffff", "has ended")]
        x = LEFT
        for colour, words in told:
            if x > LEFT and x + 19 + 6 * len(words) > self.width:
                x, y = LEFT, y + 18
            x = self.box(x, y, colour, words)
        return y

    def signs_told(self, y):
        x = LEFT
        for event in EVENTS:
            self.add(
                f'<path fill="none" stroke="{MARK_COLOURS[event]}" stroke-width="1.5" '
                f'd="M{x} {y - 4}h20{sign(event, x + 10, y - 4)}"/>'
            )
            self.text(x + 26, y, event)
            x += 76
        return y

    def step_told(self, y):
        step = self.rows.step
        words = "each row is " + ("one cycle" if step == 1 else f"{step} cycles")
        if step > 1:
            words += ", grey where a hart waits in half of them or more"
        if self.unmarked:
            words += "; too many to be marked: " + ", ".join(self.unmarked)
        self.text(LEFT, y, words)

    def box(self, x, y, colour, words):
        style = f'width="14" height="12" fill="{colour}" stroke="#888"'
        self.add(f'<rect x="{x}" y="{y - 10}" {style}/>')
        self.text(x + 19, y, words)
        return x + 32 + 6 * len(words)

    def svg(self):
        height = self.foot + 10
        head = (
            f'<svg xmlns="http://www.w3.org/2000/svg" width="{self.width}" height="{height}" '
            f'viewBox="0 0 {self.width} {height}" font-family="sans-serif">\n'
            f'<rect width="{self.width}" height="{height}" fill="#ffffff"/>\n'
        )
        return head + "\n".join(self.parts) + "\n</svg>\n"


def sign(event, x, y):
    """The sign of an event, as a path around a point."""
    return {
        "begin": f"M{x - 3:.1f} {y - 3:.1f}h6l-3 6z",
        "split": f"M{x - 3:.1f} {y:.1f}l3 -3l3 3l-3 3z",
        "shrink": f"M{x - 3:.1f} {y + 3:.1f}h6l-3 -6z",
        "end": f"M{x - 3:.1f} {y - 3:.1f}h6v6h-6z",
        "resume": f"M{x - 3:.1f} {y - 3:.1f}l6 3l-6 3z",
        "meet": f"M{x - 3:.1f} {y:.1f}a3 3 0 1 0 6 0a3 3 0 1 0 -6 0z",
        "agree": f"M{x - 3:.1f} {y - 3:.1f}l6 6m0 -6l-6 6",
    }[event]


def words_of():
    parser = argparse.ArgumentParser(description="Draws a trace as an SVG picture.")
    parser.add_argument("trace", help="a file that `fork95 trace` wrote")
    parser.add_argument("--from", dest="first", type=int, default=1, help="the first cycle shown")
    parser.add_argument("--to", dest="last", type=int, help="the last cycle shown")
    return parser.parse_args()


def picture(path, first, last):
    """The SVG text of the cycles from first to last of a trace."""
    cycles = last_cycle(path)
    last = cycles if last is None else min(last, cycles)
    first = max(1, first)
    if first > max(1, last):
        raise BadTrace(f"there is no cycle {first}")
    rows, reader = read(path, first, last)
    name = os.path.splitext(os.path.basename(path))[0]
    harts = "1 hart" if rows.harts == 1 else f"{rows.harts} harts"
    title = f"{name}: {harts}, {cycles} cycles"
    if (first, last) != (1, cycles):
        title += f", those from {first} to {last}"
    return Drawing(rows, reader, title).svg()


def main():
    words = words_of()
    try:
        sys.stdout.write(picture(words.trace, words.first, words.last))
    except (BadTrace, OSError, UnicodeDecodeError) as error:
        print(f"picture.py: {error}", file=sys.stderr)
        return 2
    return 0


if __name__ == "__main__":
    sys.exit(main())
