#!/usr/bin/env python3
"""Tries the wrong bodies that the gate leaves out to save time: the prover must refuse each of them.

    tools/wrong_bodies.py [--apply | --alone] [--anew] [--jobs N] [CRATE..]

A wrong body is an edit in tools/wrong_bodies/CRATE, in the form of those in crates/CRATE/must-fail, which the gate tries.
The crates must have passed the gate as they stand: they aren't proved here. Each edit is tried in a temporary copy of its
crate, over the libraries of the crates below it, and the prover is asked only of the functions that the edit bears on
(`rt check --only`). It passes only if it is refused at a goal of a contract, and not for a name that a proof misses or
for a limit of the prover.

What is to be proved of a function rests on its own body and on the contracts of what it calls. Edits of a crate that
change the bodies of different functions are therefore tried together, and further edits of a function in further rounds.
What isn't told so is tried alone, as are edits of definitions: the prover is asked of the function whose contract cites the
definition most directly, then of all those whose contracts rest on it, and at last of the whole crate. With --alone all
edits are tried alone.

What was refused stays so while its crate and the specs, signatures and contracts below it stay the same. So it is kept in
tools/out at once, by the checksum of all these and of the edit, but for comments. It isn't tried again, whatever prover
refused it, unless by --anew. The last line counts the edits that passed and failed, those that earlier runs tried, and the
processor minutes of all tries, theirs too. With --apply nothing is proved: each edit is only applied.
"""
import argparse
import hashlib
import os
import re
import shutil
import subprocess
import sys
import tempfile
from concurrent.futures import ThreadPoolExecutor
from dataclasses import dataclass
from functools import cache
from pathlib import Path

from edits import TOP, asked_of, fault_of, files_of, lines_of, pairs_of, stated

KEPT = TOP / "tools" / "wrong_bodies"
EARLIER = TOP / "tools" / "out" / "wrong_bodies"
PARTS = (("src", ".rt"), ("specs", ".antt"), ("proofs", ".antt"))
VERDICT = re.compile(r"fn (\S+?): (proved|not proved|no proof)(.*)")
ERROR = re.compile(r"(?:\./)?(\S+?):\d+:\d+: error: (?:(`[^`]*`): )?(.*)")
PROVED = "it is still proved"
# How many functions the prover was asked of, and how many of them are proved; or its word on a whole crate.
COUNT = re.compile(r"only=(\d+) proved=(\d+)|logic=(proved)?")
# What the prover says of a text that it can't read.
UNREAD = re.compile(r"is not in scope|has no field|is no name|operand is missing|expected the end|cannot continue")
# What a proof file says that misses a name, or cites what wasn't proved.
NAMES = re.compile(r"has no field|is not in scope|has no `|was not admitted|was not checked|were not checked")


@dataclass
class Try:
    """What the tries of an edit came to: why it doesn't pass, or None, and the seconds of a processor that they took."""

    reason: str | None
    seconds: float
    is_earlier: bool = False


def edits_of(crates):
    """The edits of these crates, by crate and file name."""
    return {(crate, edit.name): edit for crate in crates for edit in sorted((KEPT / crate).glob("*.edit"))}


def run(words, folder):
    """Runs a command in this folder, and returns the lines of what it says and the seconds of a processor that it took."""
    how = {"stdin": subprocess.DEVNULL, "stdout": subprocess.PIPE, "stderr": subprocess.STDOUT, "text": True}
    with subprocess.Popen(words, cwd=folder, errors="replace", **how) as started:
        said = started.stdout.read()
        used = os.wait4(started.pid, 0)[2]
    return said.split("\n"), used.ru_utime + used.ru_stime


def needed(crate):
    """The lines of crates.txt of the crate and of those that it stands on, in their order there."""
    lines = [line for line in (TOP / "crates.txt").read_text(encoding="utf-8").split("\n") if ":" in line]
    wanted, found = {crate}, []
    for line in reversed(lines):
        name, _, below = line.partition(":")
        if name in wanted:
            wanted.update(below.split())
            found.insert(0, line)
    return found


def without_comments(lines):
    """The lines of a file that the prover reads."""
    return [line for line in lines if line.strip() and not line.lstrip().startswith(("//", "--"))]


@cache
def told_by(crate):
    """The checksum of all that a crate tells those above it: its specs, and its code without bodies."""
    texts = [(path.name, without_comments(lines_of(path))) for path in files_of(crate, "specs", ".antt")]
    texts += [(path.name, without_comments(stated(crate, path))) for path in files_of(crate, "src", ".rt")]
    return hashlib.sha256(repr(texts).encode()).hexdigest()


@cache
def sum_of(crate):
    """The checksum of all that the prover's word on an edit of the crate rests on, but for the edit."""
    below = [told_by(line.partition(":")[0]) for line in needed(crate)[:-1]]
    paths = [path for part in PARTS for path in files_of(crate, *part)]
    texts = [(str(path.relative_to(TOP)), without_comments(lines_of(path))) for path in paths]
    return hashlib.sha256(repr((needed(crate), below, texts)).encode()).hexdigest()


def sum_with(key, edit):
    return hashlib.sha256(f"{sum_of(key[0])} {edit.read_text(encoding='utf-8')}".encode()).hexdigest()


def earlier_try(key, edit):
    """The try of the edit that an earlier run kept, if nothing has changed since."""
    place = EARLIER / key[0] / key[1]
    words = place.read_text(encoding="utf-8").split() if place.is_file() else []
    return Try(None, float(words[1]), True) if words[:1] == [sum_with(key, edit)] else None


def keep(key, edit, tried):
    """Keeps the try of an edit that passes."""
    if not tried.reason:
        (EARLIER / key[0]).mkdir(parents=True, exist_ok=True)
        (EARLIER / key[0] / key[1]).write_text(f"{sum_with(key, edit)} {tried.seconds:.1f}\n", encoding="utf-8")


def has_libraries(crate):
    """Whether each crate below this one has a library that is newer than its text and what is below it."""
    newest = 0.0
    for name in (line.partition(":")[0] for line in needed(crate)[:-1]):
        paths = [path for part in PARTS for path in files_of(name, *part)]
        newest = max(newest, *(path.stat().st_mtime for path in paths))
        stamp = TOP / "crates" / name / "out" / "rlib" / "stamp"
        if not stamp.is_file() or stamp.stat().st_mtime < newest:
            return False
    return True


def link_or_copy(old, new):
    """Links a file of a library, or what a check kept of a module, which checks replace and don't change; copies all else."""
    try:
        os.link(old, new) if "/out/rlib/" in old or old.endswith(".oantt") else shutil.copy2(old, new)
    except OSError:
        shutil.copy2(old, new)


def copy_checkout(room, crate):
    """Copies the crate, and those below it with their libraries, which are made first where they lack."""
    if not has_libraries(crate):
        run(["rt", "check", "--jobs", "1", "--only", ""], TOP / "crates" / crate)
    lines = needed(crate)
    (room / ".git").mkdir()
    (room / "crates.txt").write_text("\n".join(lines) + "\n", encoding="utf-8")
    shutil.copy(TOP / "HANDLES", room)
    for folder in (Path("crates") / line.partition(":")[0] for line in lines):
        shutil.copytree(TOP / folder, room / folder, ignore=shutil.ignore_patterns("out", "must-fail"))
        library = folder / "out" / "rlib"
        if folder.name != crate and (TOP / library).is_dir():
            shutil.copytree(TOP / library, room / library, copy_function=link_or_copy)


def check_edited(room, crate, edits, functions):
    """Has the prover asked of these functions of the crate with these edits, or of all if there are none.

    Returns what is said, which files the edits change, and the seconds of a processor that this took.
    """
    changed = {}
    for edit in edits:
        for path, old, new in pairs_of(edit, crate):
            text = changed.setdefault(path, (TOP / path).read_text(encoding="utf-8"))
            changed[path] = text.replace(old, new)
    for path, text in changed.items():
        (room / path).write_text(text, encoding="utf-8")
    asked = [word for function in functions for word in ("--only", function)]
    lines, seconds = run(["rt", "check", "--jobs", "1", *asked], room / "crates" / crate)
    for path in changed:
        shutil.copy(TOP / path, room / path)
    return lines, {path.relative_to(Path("crates") / crate).as_posix() for path in changed}, seconds


def rounds_of(asked):
    """Edits with the functions whose bodies they change, in rounds of edits that change different functions."""
    rounds = []
    while asked:
        found, taken = {}, set()
        for key, functions in asked.items():
            if not taken.intersection(functions):
                found[key] = functions
                taken.update(functions)
        rounds.append(found)
        asked = {key: functions for key, functions in asked.items() if key not in found}
    return rounds


def is_refused(lines, crate, function):
    """Whether these lines tell that a goal of this function isn't proved."""
    verdicts = [it for it in map(VERDICT.match, lines) if it and it[1] == f"{crate}::{function}"]
    if len(verdicts) != 1 or verdicts[0][2] == "proved":
        return False
    if "did not prove `" in verdicts[0][3]:
        return True
    module, _, name = function.replace("::", "/").rpartition("/")
    proof = re.compile(rf"\./proofs/{module}/(\S+/)?\+?{name}/\w+\.antt:\d+:\d+: error")
    return any(proof.match(it) and not NAMES.search(it) for it in lines)


def is_unread(error, changed):
    """Whether the prover can't read a text of the crate, where an edit that turns a meaning reads well."""
    path, name, said = error
    is_text = path.startswith(("src/", "specs/")) or path in changed
    return is_text and (not name or bool(UNREAD.search(re.sub(r"`[^`]*`", "", said))))


def reason_of(lines, changed):
    """Why an edit doesn't pass of which these lines were said, or None."""
    counts = [it for it in map(COUNT.match, lines) if it]
    if not counts:
        return f"the prover came to no verdict: {next((it for it in reversed(lines) if it.strip()), '')[:240]}"
    if counts[-1][3] or counts[-1][1] and counts[-1][1] == counts[-1][2]:
        return PROVED
    errors = [it.groups() for it in map(ERROR.match, lines) if it]
    unread = next((error for error in errors if is_unread(error, changed)), None)
    if unread:
        return f"the prover can't read it: {unread[2][:160]}"
    goals = [error for error in errors if not (error[0].startswith("proofs/") and NAMES.search(error[2]))]
    seen = goals or any("did not prove `" in line for line in lines)
    return None if seen else "it is refused only for a name that a proof misses"


def try_round(room, crate, together, edits):
    """Tries these edits of bodies in one check, and returns what is told of which, and what each edit's part took."""
    asked = sorted({it for functions in together.values() for it in functions})
    lines, changed, seconds = check_edited(room, crate, [edits[key] for key in together], asked)
    if len(together) == 1:
        return dict.fromkeys(together, reason_of(lines, changed)), seconds
    refused = [key for key, functions in together.items() if any(is_refused(lines, crate, it) for it in functions)]
    return dict.fromkeys(refused), seconds / len(together)


def try_bodies(room, crate, asked, edits, alone):
    """Tries edits of bodies in rounds, and those that aren't told in further rounds, and at last alone.

    The prover tells nothing of a function that calls one that isn't proved, so an edit may need another round.
    """
    spent, reasons, is_told = dict.fromkeys(asked, 0.0), {}, not alone
    while len(reasons) < len(asked):
        left = {key: functions for key, functions in asked.items() if key not in reasons}
        rounds = rounds_of(left) if is_told else [{key: functions} for key, functions in left.items()]
        for together in rounds:
            told, seconds = try_round(room, crate, together, edits)
            spent.update({key: spent[key] + seconds for key in together})
            for key, reason in told.items():
                reasons[key] = reason
                keep(key, edits[key], Try(reason, spent[key]))
        is_told = is_told and len(reasons) > len(asked) - len(left)
    return {key: Try(reason, spent[key]) for key, reason in reasons.items()}


def try_definition(room, crate, edit, functions):
    """Tries an edit of definitions: asks of the function that cites them most directly, and then of more, as far as needed.

    These are all functions whose contracts rest on them, and at last the whole crate with all its lemmas.
    """
    tried = Try(PROVED, 0.0)
    stages = [stage for stage in (functions[:1], functions[1:]) if stage]
    for asked in [*stages, []]:
        if tried.reason == PROVED:
            lines, changed, seconds = check_edited(room, crate, [edit], asked)
            tried = Try(reason_of(lines, changed), tried.seconds + seconds)
    return tried


def prove_before(room, crate, asked):
    """Proves these functions as they stand, so that tries begin with what is kept of it.

    Returns the folder of what is kept, whether they are proved, and the seconds of a processor that this took.
    """
    lines, _, seconds = check_edited(room, crate, [], sorted({it for functions in asked for it in functions[:1]}))
    kept = room / "kept"
    (room / "crates" / crate / "out").rename(kept)
    return kept, reason_of(lines, set()) == PROVED, seconds


def try_definitions(room, crate, asked, edits):
    """Tries edits of definitions one by one, if there are several each over the proof of what they bear on most."""
    kept, is_proved, seconds = prove_before(room, crate, asked.values()) if len(asked) > 2 else (None, True, 0.0)
    if not is_proved:
        return {key: Try("the function that it bears on isn't proved as it stands", 0.0) for key in asked}
    tries, out = {}, room / "crates" / crate / "out"
    for key, functions in asked.items():
        if kept:
            shutil.rmtree(out, ignore_errors=True)
            shutil.copytree(kept, out, copy_function=link_or_copy)
        tries[key] = try_definition(room, crate, edits[key], functions)
        tries[key].seconds += seconds / len(asked)
        keep(key, edits[key], tries[key])
    return tries


def try_edits(room, crate, edits, alone):
    """Tries these edits of the crate in this copy, and returns what the tries of each came to."""
    found = {key: asked_of(edit, crate) for key, edit in edits.items()}
    of_bodies = {key: functions for key, (functions, is_body) in found.items() if is_body}
    others = {key: functions for key, (functions, is_body) in found.items() if not is_body}
    return try_bodies(room, crate, of_bodies, edits, alone) | try_definitions(room, crate, others, edits)


def try_crate(crate, edits, alone, anew):
    """Tries the edits of a crate, says how it went, and returns what each try came to."""
    tries = {key: None if anew else earlier_try(key, edit) for key, edit in edits.items()}
    tries = {key: tried for key, tried in tries.items() if tried}
    left = {key: edit for key, edit in edits.items() if key not in tries}
    of_earlier = len(tries)
    if left:
        with tempfile.TemporaryDirectory(prefix="wrong-bodies-") as name:
            copy_checkout(Path(name), crate)
            tries.update(try_edits(Path(name), crate, left, alone))
    failed = [f"{crate}/{name}: {it.reason}" for (_, name), it in tries.items() if it.reason]
    counts = f"{len(tries) - len(failed)} passed, {len(failed)} failed, {of_earlier} by earlier runs"
    print("\n".join([*failed, f"{crate}: {counts}; {minutes(tries.values()):.1f} processor minutes"]), flush=True)
    return tries


def minutes(tries):
    return sum(it.seconds for it in tries) / 60


def try_all(edits, told):
    """Tries the edits of all crates, as many crates at once as there are jobs."""
    crates = sorted({crate for crate, _ in edits})
    tries = {}
    with ThreadPoolExecutor(told.jobs) as pool:
        of_crate = [{key: edit for key, edit in edits.items() if key[0] == crate} for crate in crates]
        for found in pool.map(try_crate, crates, of_crate, [told.alone] * len(crates), [told.anew] * len(crates)):
            tries.update(found)
    return tries


def apply_all(edits):
    """Applies each edit, and returns what each came to."""
    return {key: Try(fault_of(edit, key[0]), 0.0) for key, edit in edits.items()}


def words_of(words):
    """Reads the words of the command line."""
    parser = argparse.ArgumentParser(description="Has the prover try the wrong bodies that the gate leaves out.")
    how = parser.add_mutually_exclusive_group()
    how.add_argument("--apply", action="store_true", help="prove nothing: only apply each edit")
    how.add_argument("--alone", action="store_true", help="try each edit by itself, as the gate does it")
    parser.add_argument("--anew", action="store_true", help="try also what an earlier run saw refused")
    parser.add_argument("--jobs", type=int, default=os.cpu_count(), help="how many crates are tried at once")
    parser.add_argument("crates", nargs="*", metavar="CRATE", help="the crates whose edits are tried (all)")
    return parser.parse_args(words)


def main(words):
    told = words_of(words)
    crates = told.crates or sorted(it.name for it in KEPT.iterdir() if it.is_dir())
    edits = edits_of(crates)
    tries = apply_all(edits) if told.apply else try_all(edits, told)
    failed = {key: it.reason for key, it in tries.items() if it.reason}
    for (crate, name), reason in failed.items() if told.apply else ():
        print(f"{crate}/{name}: {reason}")
    of_earlier = sum(1 for it in tries.values() if it.is_earlier)
    took = "" if told.apply else f"; {of_earlier} by earlier runs; all tries took {minutes(tries.values()):.0f} processor minutes"
    print(f"{len(tries) - len(failed)} passed, {len(failed)} failed{took}")
    return 1 if failed else 0


if __name__ == "__main__":
    sys.exit(main(sys.argv[1:]))
