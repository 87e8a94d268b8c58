"""Reads the items of a crate's .rt files: types, traits, functions and their clauses, as `rt fmt` lays them out."""
import re
from collections.abc import Iterator
from pathlib import Path
from typing import NamedTuple

TOP = Path(__file__).resolve().parent.parent
CRATES = TOP / "crates"

HEAD = re.compile(r"( *)(pub(?:\(\w+\))? )?(?:unsafe )?(?:const )?(fn|struct|enum|trait|impl|mod|const|type)\b(.*)")
CLAUSE = re.compile(r"\b(requires|ensures\*?)\s*([\w]*)\s*$")
USE = re.compile(r"^pub use (?:\w+::)*(?:\{([^}]*)\}|(\w+));", re.M)
PAIRS = {"(": ")", "[": "]", "{": "}"}
MARK = re.compile(r"[()\[\]{};]")


class Clause(NamedTuple):
    """One clause of a function; its name may be empty."""

    word: str
    name: str
    text: str


class Item(NamedTuple):
    """A type, a trait, a constant or a function. A function's owner is the type or trait that it is of, or empty."""

    kind: str
    name: str
    owner: str
    trait: str
    visible: str
    doc: str
    marks: tuple[str, ...]
    text: str
    clauses: tuple[Clause, ...]


class Module(NamedTuple):
    """A module with its items, in the order of its file."""

    path: tuple[str, ...]
    file: Path
    public: bool
    doc: str
    items: list[Item]


def one_line(text: str) -> str:
    """Joins the lines of a text by single spaces."""
    return " ".join(text.split())


def head_of(text: str) -> tuple[str, list[Clause], int]:
    """Splits a function's text into its signature, its clauses, and where its body begins."""
    clauses: list[Clause] = []
    open_ones: list[str] = []
    signature, last, start, found = "", 0, 0, None
    for it in MARK.finditer(text):
        mark, at = it[0], it.start()
        if mark in PAIRS:
            if mark == "{" and not open_ones:
                found = CLAUSE.search(text, last, at)
                if not found:
                    return signature or text[:at], clauses, at
                signature, start = signature or text[: found.start()], at + 1
            open_ones.append(PAIRS[mark])
        elif open_ones and mark == open_ones[-1]:
            open_ones.pop()
            if mark == "}" and not open_ones and found:
                clauses.append(Clause(found[1], found[2], one_line(text[start:at])))
                last = at
        elif mark == ";" and not open_ones:
            return signature or text[:at], clauses, at
    return signature or text, clauses, len(text)


def function_end(lines: list[str], at: int, indent: str) -> int:
    """Returns the index of the last line of the function that begins at a line."""
    text = "\n".join(lines[at : at + 100])
    _, _, end = head_of(text)
    head_end = at + text.count("\n", 0, end)
    return head_end if text[end : end + 1] == ";" or text[end : end + 2] == "{}" else block_end(lines, head_end, indent)


def value_end(lines: list[str], at: int, _: str) -> int:
    """Returns the index of the last line of the constant or the alias that begins at a line."""
    return next((here for here in range(at, len(lines)) if lines[here].rstrip().endswith(";")), at)


def block_end(lines: list[str], at: int, indent: str) -> int:
    """Returns the index of the last line of the type, trait, impl or body that begins at a line."""
    for here in range(at, len(lines)):
        line = lines[here]
        shallow = line.startswith(indent) and not line.startswith(indent + " ")
        if shallow and line.rstrip().endswith(("}", ";", "},")):
            return here
    return len(lines) - 1


ENDS = {"fn": function_end, "const": value_end, "type": value_end, "mod": value_end}


def first_of(pattern: str, text: str) -> str:
    """Returns the first group of a pattern with which a text begins, or nothing."""
    found = re.match(pattern, text)
    return found[1] if found else ""


def named(kind: str, rest: str) -> tuple[str, str]:
    """Returns the name, and the trait if it is an impl of one."""
    if kind != "impl":
        return first_of(r"\s*(\w+)", rest), ""
    rest = re.sub(r"^<[^{]*?>\s(?=\w)", "", rest.strip()) if rest.startswith("<") else rest.strip()
    trait, _, kept = rest.partition(" for ")
    return first_of(r"&?(?:mut )?(?:\w+::)*(\w+)", kept or trait), trait if kept else ""


def items_of(lines: list[str], owner: str = "", trait: str = "", inside: str = "", visible: str = "") -> Iterator[Item]:
    """Yields the items of these lines, and of each impl and trait what is in it."""
    doc, marks, at = [], [], 0
    while at < len(lines):
        line = lines[at]
        bare = line.strip()
        found = HEAD.match(line)
        if bare.startswith("///"):
            doc.append(re.sub("^ ", "", bare[3:]))
        elif bare.startswith("#["):
            marks.append(bare)
        elif found and found[1] == inside:
            kind, (name, of_trait) = found[3], named(found[3], found[4])
            end = ENDS.get(kind, block_end)(lines, at, inside)
            text = "\n".join(re.sub("^" + inside, "", it) for it in lines[at : end + 1])
            signature, clauses, _ = head_of(text) if kind == "fn" else (text, [], 0)
            seen = (found[2] or "").strip() or visible
            said = "\n".join(doc), tuple(marks), signature.rstrip(), tuple(clauses)
            yield Item(kind, name, owner, trait or of_trait, seen, *said)
            if kind in ("impl", "trait") and end > at:
                within = seen if kind == "trait" else ""
                yield from items_of(lines[at + 1 : end], name, of_trait, inside + "    ", within)
            doc, marks, at = [], [], end
        elif bare and not bare.startswith("//"):
            doc, marks = [], []
        at += 1


def file_of(crate: str, path: tuple[str, ...]) -> Path:
    """Returns the file of a module of the crate."""
    source = CRATES / crate / "src"
    return source.joinpath(*path).with_suffix(".rt") if path else source / "lib.rt"


def modules(crate: str) -> Iterator[Module]:
    """Yields the modules of a crate: the root, then each in the order in which it is declared."""
    yield from modules_below(crate, (), True)


def modules_below(crate: str, path: tuple[str, ...], public: bool) -> Iterator[Module]:
    """Yields a module and those below it."""
    file = file_of(crate, path)
    if not path and not file.exists():
        file = file.with_name("main.rt")
    if not file.exists():
        return
    lines = file.read_text(encoding="utf-8").split("\n")
    doc = "\n".join(re.sub("^ ", "", it[3:]) for it in lines if it.startswith("//!"))
    items = list(items_of(lines))
    yield Module(path, file, public, doc, [it for it in items if it.kind != "mod"])
    for it in items:
        if it.kind == "mod":
            yield from modules_below(crate, (*path, it.name), public and it.visible == "pub")


def exported(crate: str) -> set[str]:
    """Returns the names that the crate's root gives out by `pub use`."""
    names = set()
    root = file_of(crate, ())
    for listed, single in USE.findall(root.read_text(encoding="utf-8")) if root.exists() else []:
        for name in (listed or single).split(","):
            names.add(name.split("::")[-1].split(" as ")[-1].strip())
    return names - {""}
