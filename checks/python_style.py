#!/usr/bin/env python3
"""Checks that each public function and class of the scripts has a docstring, and that each function has types.

    checks/python_style.py [FILE..]

It reads all scripts of checks/, bench/ and cases/, or those that are named. A name is public if it begins with no underscore; a function within a
function needs no docstring. It prints a line for each fault, then the count; status 1 if there is one. What flake8 and mypy find isn't repeated.
"""
import ast
import sys
from collections.abc import Iterator
from pathlib import Path

from crates import asked_of
from sources import TOP

FOLDERS = ("checks", "bench", "cases")


def scripts() -> list[Path]:
    """Returns the scripts of the repository."""
    return sorted(file for folder in FOLDERS for file in (TOP / folder).rglob("*.py"))


def public_items(node: ast.AST) -> Iterator[ast.FunctionDef | ast.ClassDef]:
    """Yields the public functions and classes of a module or a class, and those of its public classes."""
    for item in ast.iter_child_nodes(node):
        if isinstance(item, (ast.FunctionDef, ast.ClassDef)) and not item.name.startswith("_"):
            yield item
            if isinstance(item, ast.ClassDef):
                yield from public_items(item)


def parameters(function: ast.FunctionDef) -> list[ast.arg]:
    """Returns the parameters of a function, but for a method's `self` and `cls`."""
    given = function.args
    plain = [*given.posonlyargs, *given.args, *given.kwonlyargs]
    starred = [it for it in (given.vararg, given.kwarg) if it]
    return [it for it in (*plain, *starred) if it.arg not in ("self", "cls")]


def faults_of(module: ast.Module) -> Iterator[tuple[int, str]]:
    """Yields the faults of a module, each with its line."""
    if not ast.get_docstring(module):
        yield 1, "the module has no docstring"
    for item in public_items(module):
        if not ast.get_docstring(item):
            yield item.lineno, f"{item.name} has no docstring"
    for node in ast.walk(module):
        if isinstance(node, ast.FunctionDef):
            if node.returns is None:
                yield node.lineno, f"{node.name} has no type of its result"
            for it in parameters(node):
                if it.annotation is None:
                    yield node.lineno, f"{node.name}: {it.arg} has no type"


def main() -> int:
    """Prints each fault with its place, and the count."""
    asked = asked_of(__doc__, None)
    asked.add_argument("files", nargs="*", metavar="FILE", type=Path, help="these scripts alone")
    files = asked.parse_args().files or scripts()
    count = 0
    for file in files:
        for line, why in sorted(faults_of(ast.parse(file.read_text(encoding="utf-8")))):
            print(f"{file.resolve().relative_to(TOP)}:{line}: {why}")
            count += 1
    print(f"{len(files)} scripts, {count} faults")
    return 1 if count else 0


if __name__ == "__main__":
    sys.exit(main())
