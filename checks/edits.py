#!/usr/bin/env python3
"""Says which wrong bodies (crates/NAME/must-fail, wrong-bodies/NAME) no longer apply to their crate. No prover is asked.

    checks/edits.py [--kit FOLDER]

An edit applies if each of its `old:` lines is in the file that it names exactly once, after the edits of the lines before it. It doesn't
apply if its new text calls a function or method that is defined neither in its crate, nor below it, nor in the toolchain (a method has to
take `self`), or if it returns a record that the type of its function doesn't name. Only names are looked up, so an edit that passes may
still not compile. Without the toolchain's sources (`--kit`) no call is looked up, and it says so. A line is printed for each edit that
doesn't apply, then the count; the exit status is 0 only if all apply. CONTRIBUTING.md (Wrong bodies) says how an edit is
written.
"""

import functools
import pathlib
import re
import sys
from collections.abc import Iterator
from typing import NamedTuple

from crates import asked_of, below, lists

TOP = pathlib.Path(__file__).resolve().parent.parent
KIT = pathlib.Path("/opt/rattle/rattle")
NAME = re.compile(r"[A-Za-z0-9_-][A-Za-z0-9_.-]*\.edit")
PARTS = ("src/", "specs/", "proofs/")
# The crates of which `std` is made.
STD = ("core", "std", "std_alloc", "std_collections", "std_heap", "std_io")

TEXTS = re.compile(r'b?"(?:[^"\\]|\\.)*"|//[^\n]*|#\[[^\]]*\]')
DEFINED = re.compile(r"\bfn\s+(\w+)([^{;]*)")
TAKES_SELF = re.compile(r"[(,]\s*(?:mut\s+)?(?:&\s*(?:'\w+\s+)?(?:mut\s+)?)?self\s*[,):]")
CALLED = re.compile(r"(\.|::)?\b([a-z_]\w*)(?:::<[^()]*>)?\(")
BOUND = re.compile(r"\b(?:let|Some\(|Ok\()\s*(?:mut\s+)?([a-z_]\w*)|\b([a-z_]\w*)\s*:(?!:)")
RETURNED = re.compile(r"\breturn Ok\(([A-Z]\w*) \{")
# Methods of numbers that no source defines.
BUILT_IN = {"wrapping_add", "wrapping_sub", "wrapping_mul"}
# Words before a parenthesis that call nothing.
WORDS = {"if", "in", "match", "while", "return", "for", "fn", "pub", "let", "else", "move", "mut", "ref"}


class Fault(Exception):
    """Why an edit does not apply."""


class Pair(NamedTuple):
    """A file of an edit, a text in it, and the one that the edit puts there."""

    path: str
    old: str
    new: str


class Defined(NamedTuple):
    """The names of methods, and of other functions."""

    methods: set[str]
    functions: set[str]


def pairs_of(edit: pathlib.Path) -> Iterator[Pair]:
    """Yields the pairs of an edit's lines, in order; lines that begin otherwise are not read."""
    path: str | None = None
    old: str | None = None
    for line in edit.read_text(encoding="utf-8").split("\n"):
        if line.startswith("file: "):
            path = line[len("file: ") :].strip()
        elif line.startswith("old: "):
            if old is not None:
                raise Fault("an 'old:' line has no 'new:' line")
            old = line[len("old: ") :]
        elif line.startswith("new:"):
            if not path or not old:
                raise Fault("a 'new:' line has no 'file:' or 'old:' line before it")
            yield Pair(path, old, re.sub("^ ", "", line[len("new:") :]))
            old = None
    if old is not None:
        raise Fault("an 'old:' line has no 'new:' line")


def read(crate: pathlib.Path, path: str) -> str:
    """Returns the text of a file of the crate."""
    parts = pathlib.PurePosixPath(path).parts
    if not path.startswith(PARTS) or ".." in parts:
        raise Fault(f"{path} is not below src/, specs/ or proofs/")
    file = crate / path
    if not file.is_file():
        raise Fault(f"there is no file {path}")
    return file.read_text(encoding="utf-8")


def apply(edit: pathlib.Path, crate: pathlib.Path) -> dict[str, str]:
    """Returns the texts that an edit's pairs make of its files, each pair applied to what those before it left; raises Fault if one does not apply."""
    texts: dict[str, str] = {}
    changed = False
    for path, old, new in pairs_of(edit):
        if path not in texts:
            texts[path] = read(crate, path)
        found = texts[path].count(old)
        if found != 1:
            raise Fault(f"'{old.strip()}' stands {found} times in {path}, and not once")
        texts[path] = texts[path].replace(old, new)
        changed = changed or old != new
    if not texts:
        raise Fault("it has no pair of 'old:' and 'new:' lines")
    if not changed:
        raise Fault("it changes nothing")
    return texts


def defined(text: str) -> Defined:
    """Returns the names of a text's methods, and of its other functions."""
    names = Defined(set(), set())
    for found in DEFINED.finditer(text):
        (names.methods if TAKES_SELF.search(found[2]) else names.functions).add(found[1])
    return names


@functools.cache
def names_of(folder: pathlib.Path) -> Defined:
    """Returns the names of the methods and of the other functions that a crate's sources define."""
    names = Defined(set(), set())
    for file in sorted((folder / "src").rglob("*.rt")):
        found = defined(file.read_text(encoding="utf-8"))
        names.methods.update(found.methods)
        names.functions.update(found.functions)
    return names


@functools.cache
def known_to(crate: pathlib.Path, kit: pathlib.Path) -> Defined:
    """Returns the names of the methods and of the other functions of a crate and of those that it uses."""
    used = lists()
    own = below([crate.name], used)
    others = {name for mine in own for name in used[mine]} - own
    folders_of = [TOP / "crates" / name for name in own] + [kit / name for name in [*others, *STD]]
    found = [names_of(folder) for folder in folders_of]
    return Defined({name for it in found for name in it.methods}, {name for it in found for name in it.functions})


def look_up(edit: pathlib.Path, texts: dict[str, str], known: Defined) -> None:
    """Raises Fault if an edit's new text calls what none of these names is of; `texts` are the edited files."""
    here = defined("\n".join(texts.values()))
    for path, _, new in pairs_of(edit):
        bound = {name for pair in BOUND.findall(texts[path]) for name in pair}
        for before, name in CALLED.findall(TEXTS.sub(" ", new)):
            if name in WORDS or name in known.methods or name in here.methods:
                continue
            if before == "." and name not in BUILT_IN:
                raise Fault(f"it calls the method {name}, and there is none")
            if before != "." and name not in known.functions and name not in here.functions and name not in bound:
                raise Fault(f"it calls {name}, and there is no such function")


def look_at_returns(edit: pathlib.Path, texts: dict[str, str]) -> None:
    """Raises Fault if an edit's new text returns a record that the type of its function doesn't name."""
    for path, _, new in pairs_of(edit):
        start = texts[path].find(new) if new.strip() else -1
        for found in RETURNED.finditer(new) if start >= 0 else ():
            heads = list(DEFINED.finditer(texts[path], 0, start + found.start()))
            result = heads[-1][2].partition("->")[2] if heads else ""
            if found[1] not in result and "Self" not in result:
                raise Fault(f"it returns Ok({found[1]}) from {heads[-1][1] if heads else 'no function'}, whose type has no {found[1]}")


def folders() -> Iterator[tuple[pathlib.Path, pathlib.Path]]:
    """Yields each folder of edits with the crate that they are of."""
    for crate in sorted((TOP / "crates").iterdir()):
        yield crate / "must-fail", crate
    for folder in sorted((TOP / "wrong-bodies").iterdir()):
        yield folder, TOP / "crates" / folder.name


def main() -> int:
    """Prints each edit that does not apply, and the count."""
    asked = asked_of(__doc__, None)
    asked.add_argument("--kit", type=pathlib.Path, default=KIT, help=f"the sources of the toolchain's crates; {KIT} if none is named")
    kit = asked.parse_args().kit
    if not kit.is_dir():
        print(f"there are no sources of the toolchain in {kit}, so no call was looked up")
    edits = faults = 0
    for folder, crate in folders():
        known = known_to(crate, kit) if folder.is_dir() and kit.is_dir() else None
        for edit in sorted(folder.iterdir()) if folder.is_dir() else []:
            if edit.suffix == ".md":
                continue
            edits += 1
            try:
                if not NAME.fullmatch(edit.name):
                    raise Fault("its name is not of letters, digits, _, - and . with .edit at the end")
                texts = apply(edit, crate)
                if known:
                    look_up(edit, texts, known)
                look_at_returns(edit, texts)
            except (Fault, OSError, UnicodeError) as why:
                faults += 1
                print(f"{edit.relative_to(TOP)}: {why}")
    print(f"{edits} edits, {faults} do not apply")
    return 1 if faults else 0


if __name__ == "__main__":
    sys.exit(main())
