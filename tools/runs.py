"""Programs with their runs, from a file of such."""
import re
from dataclasses import dataclass

HEADING = re.compile(rb"^=== (\d+): harts (\d+), show (\w+), input (.*)\n", re.MULTILINE)
OUTPUT, REPORT = b"--- output\n", b"--- report\n"
ESCAPED = re.compile(rb"\\(?:(0)|(\\)|x([0-9a-f]{2}))")


def byte_of(escaped):
    """The byte that is written in this way."""
    nothing, backslash, digits = escaped.groups()
    return b"\0" if nothing else backslash or bytes.fromhex(digits.decode())


@dataclass
class Run:
    number: int
    harts: int
    shown: str
    given: bytes
    text: bytes
    out: bytes
    # how the report begins
    report: str


def runs(path):
    """The runs of a file, in its order."""
    # what stands before the first heading, and then for each run the parts of its heading and its body
    parts = HEADING.split(path.read_bytes())[1:]
    for number, harts, shown, given, body in zip(*[iter(parts)] * 5):
        text, rest = body.split(OUTPUT)
        out, report = rest.split(REPORT)
        out = ESCAPED.sub(byte_of, out)
        yield Run(int(number), int(harts), shown.decode(), given, text, out, report.strip().decode())
