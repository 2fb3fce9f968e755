#!/usr/bin/env python3
"""Runs ./fork95 on a pseudo-terminal and without one, and looks at what it adds to the program's reports.

    tools/terminal.py

The program is built already, by `rt ci`. The last line counts the rows that passed and failed.
"""
import os
import pty
import re
import subprocess
import sys
import tempfile
from pathlib import Path

sys.dont_write_bytecode = True
from tally import tell

TOP = Path(__file__).resolve().parent.parent
SCRIPT = str(TOP / "fork95")
RUN = ["--harts", "1", "--cycles", "1000"]
FILES = {
    "undeclared.f95": "void main(void) {\n  putint(y);\n}\n",
    "define.f95": "#define N 8\nvoid main(void) { }\n",
    "quoted.f95": '#include "io.h"\nvoid main(void) { }\n',
    "loop.f95": "void main(void) {\n  for (int i = 0; i < 3; i++) ;\n}\n",
    "null.f95": "void main(void) {\n  int *p = 0;\n  putint(*p);\n}\n",
    "wide.f95": "void main(void) {\n  start { sh int a[524281]; a[0] = 1; }\n}\n",
    "endless.f95": "void main(void) { while (1) ; }\n",
    "good.f95": "void main(void) { putint(7); }\n",
    "twice.f95": "void main(void) { putint(2 * __input[0]); }\n",
}
# words, status, and pieces that stand on the terminal
ON_TERMINAL = [
    (["run", "undeclared.f95", *RUN], 1, ["refused 8 Rule 1 at 2:10", "  putint(y);", "         ^", "Rule 1 is broken", "Declare it"]),
    (["run", "define.f95", *RUN], 1, ["refused 1 BadByte at 1:1", "#define N 8", "no preprocessor"]),
    (["run", "quoted.f95", *RUN], 1, ["refused 1 BadByte at 1:1", "#include <io.h>"]),
    (["run", "loop.f95", *RUN], 1, ["refused 5 Unexpected at 2:8", "       ^", "none stands inside for"]),
    (["run", "null.f95", *RUN], 6, ["fault BadAddress at 3:10", "  putint(*p);", "         ^"]),
    (["run", "wide.f95", *RUN], 6, ["fault GroupSpace at 2:3", "  start {", "  ^", "smaller arrays"]),
    (["run", "endless.f95", *RUN], 7, ["stopped after 1000 cycles", "barrier"]),
    (["run", "absent.f95", *RUN], 3, ["read fault", "no file absent.f95"]),
    (["run", "good.f95", "--harts", "1"], 2, ["refused command line", "--cycles", "Usage"]),
    (["audit", "good.f95", "--harts", "1"], 2, ["refused command line", "audit needs --cycles", "Usage"]),
    (["fly"], 2, ["refused command line", "fly is no command", "fork95 explain"]),
    (["selftest", "501"], 2, ["refused command line", "selftest needs a number from 1 to 500", "Usage"]),
    (["unelf", "good.f95"], 2, ["refused command line", "unelf needs -o", "Usage"]),
    (["unelf", "good.f95", "-o", "none.image"], 12, ["refused 28 ElfShort 31 148"]),
    (["run", "good.f95", *RUN], 0, ["7", "finished after"]),
]
# the same, where numbers are typed on the terminal: what is typed comes last
TYPED = [
    (["run", "twice.f95", *RUN], 0, ["Ctrl-D", "42\n", "finished after"], b"21\n\x04"),
]
# words, status, and the whole of both outputs as patterns
PLAIN = [
    (["--help"], 0, r"Usage:\n(.*\n)*", ""),
    (["-h"], 0, r"Usage:\n(.*\n)*", ""),
    ([], 0, r"Usage:\n(.*\n)*", ""),
    (["--version"], 0, r"fork95, proved with rattle-kit-.*\nUsage:\n(.*\n)*", ""),
    (["explain", "33"], 0, r"Rule 33 is broken where: .*\n.*\n", ""),
    (["explain", "BadAddress"], 0, r"BadAddress: .*\n.*\n", ""),
    (["explain", "41"], 2, "", r"fork95: explain .*\n"),
    (["run", "undeclared.f95", *RUN], 1, "", r"refused 8 Rule 1 at 2:10\n"),
    (["run", "good.f95", *RUN], 0, r"7\n", r"finished after \d+ cycles\n"),
    (["selftest", "6"], 0, r"c = 0 96 63 1024 320 6 448 0\n", r"finished after \d+ cycles\n"),
]


def on_terminal(words, folder, typed):
    """Runs the script on a pseudo-terminal, and returns its status and all that it wrote there."""
    child, terminal = pty.fork()
    if child == 0:
        os.chdir(folder)
        if not typed:
            os.dup2(os.open(os.devnull, os.O_RDONLY), 0)
        os.execv(SCRIPT, [SCRIPT, *words])
    if typed:
        os.write(terminal, typed)
    written = b""
    while True:
        try:
            some = os.read(terminal, 65536)
        except OSError:
            break
        if not some:
            break
        written += some
    return os.waitstatus_to_exitcode(os.waitpid(child, 0)[1]), written.decode(errors="replace").replace("\r\n", "\n")


def fault_on_terminal(row, folder):
    words, wanted, pieces, typed = row
    status, written = on_terminal(words, folder, typed)
    missing = [it for it in pieces if it not in written]
    if status == wanted and not missing:
        return None
    return f"{words} on a terminal: status {status}, not {wanted}; missing {missing} in {written!r}"


def fault_in_plain(row, folder):
    words, wanted, out, report = row
    ended = subprocess.run([SCRIPT, *words], cwd=folder, stdin=subprocess.DEVNULL, capture_output=True, text=True)
    if ended.returncode == wanted and re.fullmatch(out, ended.stdout) and re.fullmatch(report, ended.stderr):
        return None
    return f"{words}: status {ended.returncode}, not {wanted}; {ended.stdout!r}, {ended.stderr!r}"


def fault_in_table():
    """Whether the table of explanations says of each rule what docs/RULES.md says."""
    pages = dict(re.findall(r"^\| (\d+) \| ((?:\\\||[^|])*?) \|", (TOP / "docs/RULES.md").read_text(encoding="utf-8"), re.M))
    rows = [line.split("\t") for line in (TOP / "tools/explain.tsv").read_text(encoding="utf-8").splitlines()]
    told = {row[0]: row[1] for row in rows}
    wrong = [rule for rule, text in pages.items() if told.get(rule) != text.replace("\\|", "|")]
    return f"tools/explain.tsv says something else of the rules {wrong}" if wrong or len(pages) != 40 else None


def main():
    with tempfile.TemporaryDirectory() as folder:
        for name, text in FILES.items():
            Path(folder, name).write_text(text, encoding="utf-8")
        faults = [fault_on_terminal((*row, b""), folder) for row in ON_TERMINAL]
        faults += [fault_on_terminal(row, folder) for row in TYPED]
        faults += [fault_in_plain(row, folder) for row in PLAIN]
    faults.append(fault_in_table())
    return tell(len(faults), [fault for fault in faults if fault])


if __name__ == "__main__":
    sys.exit(main())
