"""Reads edits, and finds the functions of which the prover has to be asked where an edit is tried.

An edit has lines `file:`, `old:` and `new:`. It changes a file of src/ or of specs/ in its crate. This goes by the layout
that `rt fmt` makes.
"""
import re
from dataclasses import dataclass
from functools import cache
from pathlib import Path

TOP = Path(__file__).resolve().parent.parent
FUNCTION = re.compile(r"( *)(?:pub(?:\([^)]*\))? )?(?:const )?fn (\w+)")
IMPL = re.compile(r"impl(?:<.*?>)? (?:(\w+)(?:<([\w:]+).*?>)? for )?(\w+)")
TYPE = re.compile(r"^(?:pub(?:\([^)]*\))? )?(?:struct|enum) (\w+)", re.MULTILINE)
CONSTANT = re.compile(r"(?:pub(?:\([^)]*\))? )?const (\w+):")
DEFINITION = re.compile(r" *(?:private )?(?:(?:abbrev|unfoldable)(?: pub)?|pub (?:record|data)) (?!mutual)(\w+)")
MUTUAL = re.compile(r" +pub (\w+) :")
IMPORT = re.compile(r"\buse Rattle\.(\w+)\.specs\.[\w.]+?(?:\.\{([^}]*)\}| as (\w+))")
CLAUSE = re.compile(r"requires|ensures|ghost")


@dataclass(frozen=True)
class Function:
    """A function of Rattle code, as the prover names it, with the lines where it begins, its body begins, and it ends."""

    path: str
    begins: int
    body: int
    ends: int

    def has(self, at):
        return self.begins <= at <= self.ends


def pairs_of(edit, crate):
    """The changes of an edit: of which file, which text, and what comes in its place."""
    path, old = None, None
    for line in edit.read_text(encoding="utf-8").split("\n"):
        word, _, rest = line.partition(": ")
        if word == "file":
            path = Path("crates") / crate / rest.strip()
        elif word == "old":
            old = rest
        elif line.startswith("new:"):
            yield path, old, line[len("new:") :].removeprefix(" ")


def fault_of(edit, crate):
    """Why the edit can't be applied to the crate, or None if it can."""
    texts = {}
    for path, old, new in pairs_of(edit, crate):
        if not (TOP / path).is_file():
            return f"there is no file {path.name}"
        text = texts.setdefault(path, (TOP / path).read_text(encoding="utf-8"))
        if text.count(old) != 1:
            return f"its text stands {text.count(old)} times in {path.name}"
        texts[path] = text.replace(old, new)
    return None if texts else "it changes nothing"


def lines_of(path):
    return path.read_text(encoding="utf-8").split("\n")


def files_of(crate, part, ending):
    """The files of a part of the crate, as of src/, in their order."""
    return sorted((TOP / "crates" / crate / part).rglob(f"*{ending}"))


def body_of(lines, begins, indent):
    """Where the body of the function begins and ends that begins at this line, or None if it has none."""
    for at in range(begins, len(lines)):
        word = lines[at].strip()
        if word == "{}":
            return at, at
        if word == "{" or word.endswith(" {") and not CLAUSE.match(word):
            return at, lines.index(indent + "}", at)
        if at > begins and (FUNCTION.match(lines[at]) or lines[at] == "}"):
            return None
    return None


def module_of(crate, path):
    return path.relative_to(TOP / "crates" / crate / "src").with_suffix("").as_posix().replace("/", "::")


@cache
def homes_of(crate):
    """Each type of the crate that is declared once, with its module."""
    declared = [(it[1], module_of(crate, path)) for path in files_of(crate, "src", ".rt") for it in TYPE.finditer(path.read_text())]
    names = [name for name, _ in declared]
    return {name: module for name, module in declared if names.count(name) == 1}


def owner_of(crate, path, impl):
    """What the prover calls an impl by: its type in that one's module; or its type, its trait, and the type that this is given."""
    if not impl[1]:
        return f"{homes_of(crate).get(impl[3], module_of(crate, path))}::{impl[3]}::"
    given = "".join(word[0].upper() + word[1:] for word in (impl[2] or "").split("::") if word)
    return f"{module_of(crate, path)}::{impl[3]}{impl[1]}{given}::"


def functions_in(crate, path):
    """The functions that have bodies in this file of src/."""
    lines, found = lines_of(path), []
    module = owner = f"{module_of(crate, path)}::"
    for at, line in enumerate(lines):
        impl, begun = IMPL.match(line), FUNCTION.match(line)
        if impl or line == "}":
            owner = owner_of(crate, path, impl) if impl else module
        elif begun:
            body = body_of(lines, at, begun[1])
            found += [Function(f"{owner}{begun[2]}".removeprefix("lib::"), at, *body)] if body else []
    return found


def stated(crate, path):
    """The lines of a file of src/ without the bodies of functions that have contracts: what other proofs can rest on."""
    lines = lines_of(path)
    for function in reversed(functions_in(crate, path)):
        if lines[function.body].strip() == "{":
            del lines[function.body : function.ends + 1]
    return lines


def words_of(lines):
    return set(re.findall(r"\w+", "\n".join(lines)))


def users_of(crate, constant):
    """The functions of the crate whose texts name this constant."""
    found = []
    for path in files_of(crate, "src", ".rt"):
        lines = lines_of(path)
        found += [it.path for it in functions_in(crate, path) if constant in words_of(lines[it.begins : it.ends + 1])]
    return found


def names_of(lines):
    """The definition that each line of a file of specs/ belongs to, by its name."""
    found, is_mutual = [], False
    for line in lines:
        begun = DEFINITION.match(line) or is_mutual and MUTUAL.match(line)
        is_mutual = line.endswith(" mutual") or is_mutual and not DEFINITION.match(line)
        found.append(begun[1] if begun else found[-1] if found else None)
    return found


def known_in(crate, lines):
    """The definitions of the crate's specs that a file of it can name, by what it calls them."""
    text = "\n".join(lines)
    imports = [it for it in IMPORT.findall(text) if it[0] == crate]
    named = [pair for _, names, _ in imports for pair in re.findall(r"(\w+)(?: as (\w+))?", names)]
    qualified = [pair for pair in re.findall(r"(\w+)\.(\w+)", text) if pair[0] in {it[2] for it in imports}]
    return {other or name: name for name, other in named} | {name: name for _, name in qualified}


def definitions_of(crate):
    """Each definition of the crate's specs, by its name, with those that its text names."""
    found = {}
    for path in files_of(crate, "specs", ".antt"):
        lines = lines_of(path)
        names = names_of(lines)
        known = {name: name for name in names if name} | known_in(crate, lines)
        for name, line in zip(names, lines):
            if name and not line.lstrip().startswith("--"):
                found.setdefault(name, set()).update(known[word] for word in words_of([line]) if word in known)
    return found


def contracts_of(crate):
    """Each function of the crate, by its path, with the definitions that its contract names."""
    found = {}
    for path in files_of(crate, "src", ".rt"):
        lines = lines_of(path)
        known = known_in(crate, lines)
        for function in functions_in(crate, path):
            words = words_of(lines[function.begins : function.body])
            found[function.path] = {known[word] for word in words if word in known}
    return found


def laws_about(crate, name):
    """The functions whose contracts rest on this definition of the crate's specs, the one that cites it most directly first."""
    definitions, contracts = definitions_of(crate), contracts_of(crate)
    near, met, found = {name}, {name}, []
    while near:
        found += [law for law, named in contracts.items() if named & near and law not in found]
        near = {it for it, named in definitions.items() if named & near} - met
        met |= near
    return found


def asked_of_pair(crate, path, old):
    """The functions that a change of this text of a file bears on, and whether only their bodies change."""
    lines = lines_of(TOP / path)
    at = next((it for it, line in enumerate(lines) if old in line), None)
    if at is None:
        return [], True
    if path.suffix != ".rt":
        name = names_of(lines)[at]
        return laws_about(crate, name) if name else [], False
    inside = next((it for it in functions_in(crate, TOP / path) if it.has(at)), None)
    if inside:
        return [inside.path], at >= inside.body
    constant = CONSTANT.match(lines[at])
    return (users_of(crate, constant[1]), True) if constant else ([], False)


def asked_of(edit, crate):
    """The functions of which the prover has to be asked where the edit is tried, and whether only their bodies change."""
    asked = [asked_of_pair(crate, path, old) for path, old, _ in pairs_of(edit, crate)]
    functions = list(dict.fromkeys(it for found, _ in asked for it in found))
    return functions, bool(functions) and all(is_body for _, is_body in asked)
