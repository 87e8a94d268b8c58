#!/usr/bin/env python3
"""Prints what a crate promises, as a page of Markdown: its public types and functions with their clauses.

    checks/contracts.py CRATE [--tests]
    checks/contracts.py --all FOLDER [--tests]

The page has what the crate's root file says, then each public type and function in the order of its modules, with its
doc comment, its signature and its clauses by name, and last the files of the definitions that these name. It is read
from the crate's .rt files; nothing is checked.
"""
import re
import sys
from collections.abc import Iterator
from pathlib import Path

from crates import asked_of
from sources import CRATES, Item, Module, exported, modules, one_line

PRIVATE = re.compile(r"^    (?!pub |///|\})\w[^\n]*,\n", re.M)
GHOST_USE = re.compile(r"ghost use Rattle\.(\w+)\.specs\.([\w.]+)\.\{([^}]*)\}")
LINK = re.compile(r"\[(`[^`]+`)\](?!\()(?:\([^)]*\))?")


def prose(doc: str) -> str:
    """Returns a doc comment as Markdown, its links to items as code and its headings as bold text."""
    return re.sub(r"^# (.*)$", r"**\1**", LINK.sub(r"\1", doc), flags=re.M)


def code(text: str) -> Iterator[str]:
    """Yields the lines of a block of code."""
    yield from ("```rust", text, "```", "")


def shape(item: Item) -> str:
    """Returns a type as others see it, without its private fields."""
    text = re.sub(r"\n    ghost use [^;]*;\n?", "\n", item.text)
    if item.kind != "struct" or "{" not in text:
        return text
    head, _, fields = text.partition("{\n")
    public = re.findall(r"(?:^    ///[^\n]*\n)*^    pub [^\n]*,\n", fields, re.M)
    kept = "".join(public)
    return f"{head}{{\n{kept}}}" if kept else f"{head}{{ .. }}"


def function(item: Item, depth: int) -> Iterator[str]:
    """Yields the lines of a function: its comment, its signature and its clauses."""
    name = f"{item.owner}::{item.name}" if item.owner else item.name
    yield f"{'#' * depth} `{name}`\n"
    if item.doc:
        yield prose(item.doc) + "\n"
    yield from code(item.text.rstrip(";"))
    for clause in item.clauses:
        said = f" `{clause.name}`" if clause.name else ""
        yield f"* {clause.word}{said}: `{clause.text}`"
    if item.clauses:
        yield ""


def facts(item: Item) -> Iterator[str]:
    """Yields what an impl says of its type: what contracts see of it, or the trait that it has."""
    view = re.search(r"ghost view = \{(.*?)\};$", item.text, re.M | re.S)
    if item.trait == "Model" and view:
        yield f"Contracts see: `{one_line(view[1])}`\n"
    elif item.trait != "Model":
        yield f"It has the trait `{item.trait}`.\n"


def module_lines(module: Module, names: set[str], impls: dict[str, list[Item]]) -> Iterator[str]:
    """Yields the lines of a module's public items."""
    for item in module.items:
        open_here = module.public or item.name in names
        if item.visible != "pub" or item.owner or not open_here:
            continue
        if item.kind == "fn":
            yield from function(item, 3)
        elif item.kind != "impl":
            yield f"### `{item.kind} {item.name}`\n"
            if item.doc:
                yield prose(item.doc) + "\n"
            yield from code(shape(item))
            for it in impls.get(item.name, []) if item.kind != "trait" else []:
                yield from facts(it) if it.kind == "impl" else function(it, 4)


def impls_of(all_modules: list[Module]) -> dict[str, list[Item]]:
    """Returns of each type its public functions and its impls of traits, in the order of the modules."""
    found: dict[str, list[Item]] = {}
    for module in all_modules:
        for item in module.items:
            shown = item.kind == "fn" and item.owner and not item.trait and item.visible == "pub"
            if shown or (item.kind == "impl" and item.trait):
                found.setdefault(item.owner or item.name, []).append(item)
    return found


def tests_of(all_modules: list[Module]) -> Iterator[str]:
    """Yields the lines of a crate's tests, by module."""
    for module in all_modules:
        tests = [it for it in module.items if "#[test]" in it.marks]
        if tests:
            yield f"## Tests in `{'::'.join(module.path)}`\n"
            for it in tests:
                said = f": {one_line(prose(it.doc))}" if it.doc else ""
                yield f"* `{it.name}`{said}"
            yield ""


def definitions(all_modules: list[Module], lines: list[str]) -> Iterator[str]:
    """Yields, for each file of the repository's definitions, those that the lines name."""
    said = set(re.findall(r"[\w-]+", "\n".join(lines)))
    files: dict[str, set[str]] = {}
    for module in all_modules:
        for crate, path, names in GHOST_USE.findall(module.file.read_text(encoding="utf-8")):
            if (CRATES / crate / "specs" / f"{path}.antt").exists():
                here = {it.split(" as ")[-1].strip() for it in names.split(",")} & said
                files.setdefault(f"{crate}/specs/{path}.antt", set()).update(here)
    kept = sorted((file, sorted(names)) for file, names in files.items() if names)
    if kept:
        yield "## Definitions\n"
    for file, shown in kept:
        yield f"* `{file}`: {', '.join(f'`{it}`' for it in shown)}"


def page(crate: str, with_tests: bool) -> str:
    """Returns the page of a crate."""
    all_modules, names = list(modules(crate)), exported(crate)
    impls = impls_of(all_modules)
    lines = [f"# `{crate}`\n", prose(all_modules[0].doc), ""]
    for module in all_modules:
        found = list(module_lines(module, names, impls))
        if found:
            lines += [f"## `{'::'.join(module.path) or 'lib'}`\n", *found]
    lines += definitions(all_modules, lines)
    if with_tests:
        lines += ["", *tests_of(all_modules)]
    return "\n".join(lines).rstrip() + "\n"


def main() -> int:
    """Prints the page that is asked for, or writes all."""
    asked = asked_of(__doc__, None)
    asked.add_argument("crate", nargs="?", metavar="CRATE", help="a folder of crates/")
    asked.add_argument("--tests", action="store_true", help="also the names of the crate's tests, with their comments")
    asked.add_argument("--all", metavar="FOLDER", type=Path, help="write a page CRATE.md for each crate, here")
    words = asked.parse_args()
    if (words.crate is None) == (words.all is None):
        asked.error("give a crate, or --all with a folder")
    crates = sorted(it.name for it in CRATES.iterdir() if (it / "src").is_dir())
    if words.crate is not None and words.crate not in crates:
        asked.error(f"there is no crate {words.crate}")
    if words.all is None:
        print(page(words.crate, words.tests), end="")
        return 0
    words.all.mkdir(parents=True, exist_ok=True)
    for crate in crates:
        (words.all / f"{crate}.md").write_text(page(crate, words.tests), encoding="utf-8")
    print(f"{len(crates)} pages in {words.all}")
    return 0


if __name__ == "__main__":
    sys.exit(main())
