#!/usr/bin/env python3
"""Renames a function or a type of the crates wherever it is named, and the folders of its proofs.

    checks/rename.py OLD NEW [--crate NAME] [--try]

With `--crate`, it renames in the crate and in those above it, else in all: src/, specs/, proofs/, wrong bodies. It reads all pages but the changelog,
and the scripts of checks/ and bench/. It prints each definition, and for each file how many places it changes, or how many words spelled like OLD
it keeps; then it writes, unless there is `--try`. wrong-bodies/results.tsv is a record of runs, and isn't changed.

It infers no types: methods of several types that are called OLD are renamed together, but a path `Type::OLD` only if the type has it. In antt, a
function's name is a call such as `c.OLD`, a part of a goal's name such as `OLD-requires`, or the part of a path before `.Goals`. In comments, pages
and scripts, a name with `_` or a second capital is renamed everywhere, and another one only in backticks or a path. Lines that get too long are
printed, and not wrapped; `rt fmt` in the crate's folder also joins those that got short. `rt check` says what was missed. Status 2 if it refuses.
"""
import re
import sys
from collections.abc import Callable, Iterator
from pathlib import Path
from typing import NamedTuple

from crates import asked_of, below, lists
from edits import KIT, STD, Fault, names_of
from sources import CRATES, TOP, Item, modules

SNAKE, CAMEL = re.compile(r"[a-z][a-z0-9_]*"), re.compile(r"[A-Z][A-Za-z0-9]*")
# What isn't code: strings, letters and comments; in edits also the lines that aren't `old:` or `new:`.
SKIPPED = {
    ".rt": re.compile(r"""b?"(?:[^"\\]|\\.)*"|b?'(?:\\[^']+|[^\\'])'|//[^\n]*"""),
    ".antt": re.compile(r'"[^"\n]*"|--[^\n]*'),
    ".edit": re.compile(r"^(?!old:|new:).+|(?<= )//.*", re.M),
}
QUOTED = re.compile(r"`[^`\n]+`|\]\([^)\n]*\)|\w+::[\w:]+")
USED = re.compile(r"^\s*(?:pub(?:\(\w+\))? )?use (\w+)[^;]*\{[^;]*$", re.M)
# A field of these is no call. After BEFORE_OTHERS, a part of a goal's name is a clause or a variable.
FIELDS_OF = {"args", "ensures", "inside", "invariant", "new", "now", "old", "requires", "result", "self"}
BEFORE_OTHERS = {"clause", "fields", "loop"}
WIDTH = 160
Place = tuple[int, int]


class Names(NamedTuple):
    """What is renamed: `words` has each old word with its new one; `owners` have the function; a plain name may be a word of English."""

    old: str
    is_type: bool
    is_plain: bool
    words: dict[str, str]
    crates: list[str]
    owners: set[str]
    others: set[str]


def words_of(names: Names, text: str, start: int = 0, end: int = sys.maxsize) -> Iterator[Place]:
    """Yields the places of a part of a text where a word is spelled like the name."""
    return (it.span() for it in re.compile(rf"(?<!\w)(?:{'|'.join(names.words)})(?!\w)").finditer(text, start, end))


def has_path(names: Names, before: str) -> bool:
    """Returns whether the path that a text ends with, which may be none, can lead to the name."""
    path = re.findall(r"(\w+)::", before[len(re.sub(r"(?:\w+::)+$", "", before)) :]) or ["Self"]
    foreign = len(path[-1]) > 1 and CAMEL.fullmatch(path[-1]) and path[-1] not in ("Self", *names.owners)
    return not ({path[0]} & names.others or {"proofs", "specs"} & {*path} or (foreign and not names.is_type))


def is_in_text(names: Names, text: str, start: int, end: int) -> bool:
    """Judges a word of a comment, a page or a script."""
    before, after = text[text.rfind("\n", 0, start) + 1 : start], text[end : end + 2]
    if before.endswith("/") or after.startswith("/"):
        return bool(re.search(r"proofs/[\w/+]*$", before))
    is_well = not names.is_plain or (before.endswith(("`", "(", ".", "::")) and (after in ("", "::") or after[0] in "`\"().,"))
    return is_well and has_path(names, before) and not re.match(r"\.(?:rt|antt|py|md|edit)\b", text[end : end + 6])


def is_in_code(names: Names, text: str, start: int, end: int) -> bool:
    """Judges a word of Kiwibismuth's code."""
    before, after = text[max(0, start - 2000) : start], text[end : end + 3]
    if names.is_type:
        return has_path(names, before) and not before.endswith((".specs.", ".proofs."))
    if before.endswith(("::", "fn ")) or after.startswith(("(", "::<")):
        return has_path(names, before)
    if listed := USED.search(before):
        return listed[1] not in names.others
    bound = rf"\blet (?:mut )?\(?[^=;]*\b{names.old}\b|\b{names.old}\s*:(?!:)|\|[^|\n]*\b{names.old}\b[^|\n]*\|"
    known = text.startswith("file:") or re.search(rf"\bfn {names.old}\b|^\s*(?:pub )?use [^;]*\b{names.old}\b", text, re.M)
    return bool(known and not re.search(bound, text) and re.search(r"[(,]\s*$", before) and re.match(r"\s*[,)]", after))


def is_in_proof(names: Names, text: str, start: int, end: int) -> bool:
    """Judges a word of a definition or a proof."""
    line, after = text[text.rfind("\n", 0, start) + 1 : start], text[end : end + 200]
    if names.is_type:
        return not line.endswith((".specs.", ".proofs.", "mod ")) or bool(re.match(r"\.\w+\.(?:Goals|Given)\b", after))
    if re.match(r"\.(?:Goals|Given)\b", after):
        return True
    head = line[len(re.sub(r"[\w-]+$", "", line)) :]
    if head.rstrip("-").rpartition("-")[2] in BEFORE_OTHERS:
        return False
    if of := re.search(r"([\w-]+)\.$", line[: len(line) - len(head)]):
        is_call = len(of[1]) == 1 or "-" in of[1] or of[1] == "goal" or re.match(r"[\w-]*\.(?:ensures|requires|result|new|args)\b", after)
        return bool(is_call and of[1] not in FIELDS_OF and f"({of[1]} : " not in line)
    whole = head + text[start:end] + re.sub(r"[^\w-].*", "", after, flags=re.S)
    own = rf"^(?:pub )?{whole} : goal\.|\.(?:Goals|Given)\.\{{[^}}]*(?<![\w-]){whole}(?![\w-])"
    return "-" in whole and bool(re.search(own, text, re.M))


def places_in(names: Names, file: Path, text: str) -> Iterator[Place]:
    """Yields where a file has the name."""
    def judged(judge: Callable[[Names, str, int, int], bool], start: int, end: int) -> Iterator[Place]:
        spans = [it.span() for it in QUOTED.finditer(text, start, end)] if names.is_plain and judge == is_in_text else [(start, end)]
        return (it for span in spans for it in words_of(names, text, *span) if judge(names, text, *it))

    if file.suffix not in SKIPPED:
        own = rf"\b(?:def|fn|class|struct|enum|import|for|as) {names.old}\b|\b{names.old}(?::[^=\n]*)? = "
        yield from () if file.suffix != ".md" and re.search(own, text) else judged(is_in_text, 0, len(text))
        return
    if names.is_type and names.others & {*re.findall(rf"\buse (?:Rattle\.)?(\w+)[\w.:]*(?:\{{[^}};]*)?(?<!\w){names.old}(?!\w)", text)}:
        return
    judge, at = is_in_proof if file.suffix == ".antt" else is_in_code, 0
    for it in SKIPPED[file.suffix].finditer(text):
        yield from judged(judge, at, it.start())
        yield from () if it[0].startswith(('"', "'", 'b"', "b'")) else judged(is_in_text, *it.span())
        at = it.end()
    yield from judged(judge, at, len(text))


def items(crate: str) -> Iterator[tuple[Path, Item]]:
    """Yields the items of a crate with their files, a trait without its parameters."""
    for module in modules(crate):
        yield from ((module.file, it._replace(trait=re.sub("<.*", "", it.trait).split("::")[-1])) for it in module.items)


def asked_names(old: str, new: str, crate: str | None) -> Names:
    """Returns what is to be renamed, and prints its definitions; raises Fault if it can't be."""
    used = lists()
    if not any(case.fullmatch(old) and case.fullmatch(new) for case in (SNAKE, CAMEL)):
        raise Fault(f"{old} and {new} aren't both in lower snake case, or both in upper camel case")
    crates = [it for it in used if not crate or crate in below([it], used)]
    everything = {name: [*items(name)] for name in used}
    kinds = ("struct", "enum", "trait", "type") if old[0].isupper() else ("fn",)
    found = {name: [(file, it) for file, it in rows if it.name == old and it.kind in kinds] for name, rows in everything.items()}
    if not any(found.get(name) for name in ([crate] if crate else crates)):
        raise Fault(f"there is no function or type {old}" + (f" in {crate}" if crate else ""))
    traits = {it.name for rows in everything.values() for _, it in rows if it.kind == "trait"}
    for file, it in (row for name in crates for row in found[name]):
        print(f"defined: {file.relative_to(TOP)}: {it.owner + '::' if it.owner else ''}{old}")
        if it.kind == "fn" and it.trait and it.trait not in traits:
            raise Fault(f"{it.trait}, a trait of the toolchain, has the method {old}")
    owners = {it.owner for name in crates for _, it in found[name]} - {""}
    impls = [it for rows in everything.values() for _, it in rows if it.kind == "impl" and it.trait]
    joined = {it.name + it.trait: (new if it.name == old else it.name) + (new if it.trait == old else it.trait) for it in impls if old in (it.name, it.trait)}
    others = {*used, *STD, *(it for mine in used.values() for it in mine)} - {*crates}
    for name in sorted(others):
        if any(old in part for part in names_of(KIT / name)) or found.get(name):
            print(f"look again: {name} has a function or type {old} too; where no path tells, its calls are renamed")
    owners |= {it.name for it in impls if it.trait in owners}
    return Names(old, old[0].isupper(), bool(re.fullmatch("[A-Za-z][a-z]*", old)), {old: new} | joined, crates, owners, others)


def files_of(names: Names) -> Iterator[Path]:
    """Yields the files in which the name is looked for, those of the crates first."""
    for crate in names.crates:
        parts = [CRATES / crate / part for part in ("src", "specs", "proofs", "must-fail")] + [TOP / "wrong-bodies" / crate]
        yield from sorted(file for part in parts for file in part.rglob("*") if file.suffix in SKIPPED)
    folders = ("bench", "cases", "checks", "docs", "wrong-bodies")
    others = (it for folder in folders for it in sorted((TOP / folder).rglob("*")) if it.suffix in (".md", ".py", ".rs"))
    yield from (TOP / "README.md", TOP / "CONTRIBUTING.md", *others)


def folders_of(names: Names) -> dict[Path, Path]:
    """Returns the folders of proofs that have the name, each with its new path."""
    found = [it for crate in names.crates for it in sorted((CRATES / crate / "proofs").rglob("*")) if it.is_dir() and it.name.lstrip("+") in names.words]
    kept = [it for it in found if names.is_type != any((it / name).exists() for name in ("Answers.antt", "Invariants.antt"))]
    return {it: it.with_name(it.name.replace(it.name.lstrip("+"), names.words[it.name.lstrip("+")])) for it in kept}


def changes_of(names: Names) -> tuple[dict[Path, str], int]:
    """Returns the new texts of the files that change, and the number of places; prints both for each, and the lines that get too long."""
    new, texts, count = names.words[names.old], dict[Path, str](), 0
    for file in files_of(names):
        text, path = file.read_text(encoding="utf-8"), file.relative_to(TOP)
        if file.suffix in (".rt", ".antt") and re.search(rf"(?<!\w){new}(?!\w)", SKIPPED[file.suffix].sub(" ", text)):
            raise Fault(f"{new} is a word of {path} already")
        places, spelled = {*places_in(names, file, text)}, len([*words_of(names, text)]) if file.suffix in SKIPPED else 0
        lines, count = text.split("\n"), count + len(places)
        for start, end in sorted(places, reverse=True):
            text = text[:start] + names.words[text[start:end]] + text[end:]
        if places or spelled:
            print(f"{path}: {len(places)}" + (f", {spelled - len(places)} kept" if spelled > len(places) else ""))
        texts |= {file: text} if places else {}
        for number, (before, after) in enumerate(zip(lines, text.split("\n")), 1):
            print(f"{path}:{number}: gets too long\n" if len(before) <= WIDTH < len(after) else "", end="")
    return texts, count


def main() -> int:
    """Prints what is renamed, and renames it."""
    asked = asked_of(__doc__, None)
    for name in ("old", "new"):
        asked.add_argument(name, metavar=name.upper())
    asked.add_argument("--crate", metavar="NAME", help="the crate that defines it")
    asked.add_argument("--try", dest="is_trial", action="store_true", help="write nothing")
    given = asked.parse_args()
    try:
        names = asked_names(given.old, given.new, given.crate)
        texts, count = changes_of(names)
    except Fault as why:
        print(f"refused: {why}", file=sys.stderr)
        return 2
    for old, new in (folders := folders_of(names)).items():
        print(f"{old.relative_to(TOP)}: to {new.name}")
    for file, text in () if given.is_trial else texts.items():
        file.write_text(text, encoding="utf-8")
    for old, new in () if given.is_trial else reversed(folders.items()):
        old.rename(new)
    print(f"{count} places in {len(texts)} files, {len(folders)} folders")
    return 0


if __name__ == "__main__":
    sys.exit(main())
