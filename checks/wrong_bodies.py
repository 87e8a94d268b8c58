#!/usr/bin/env python3
"""Tries all wrong bodies of a crate, those of wrong-bodies/ too, in a copy: wrong_bodies.py CRATE [--only WORD]."""

import pathlib
import re
import shutil
import subprocess
import sys
import tempfile

from crates import asked_of, below, lists

TOP = pathlib.Path(__file__).resolve().parent.parent
LINE = re.compile(r"(?:rt: )?must-fail \S+/(\S+\.edit): (refused|NOT REFUSED|BAD EDIT|NOT TRIED)")
# How rt says that an edit was refused for a lost name or at a limit, which shows little of the contract.
LITTLE = re.compile(r"(?:rt: )?must-fail \S+/(\S+\.edit): refused, as it must be \(only ")


def copy(room: pathlib.Path, name: str) -> None:
    """Copies the repository's crates, with what earlier checks kept of this crate and those below it."""
    kept = below([name], lists())
    for crate in sorted(path for path in (TOP / "crates").iterdir() if path.is_dir()):
        left = shutil.ignore_patterns("must-fail") if crate.name in kept else shutil.ignore_patterns("must-fail", "out")
        shutil.copytree(crate, room / "crates" / crate.name, ignore=left, symlinks=True)
    for file in ("crates.txt", "HANDLES"):
        shutil.copy2(TOP / file, room / file)


def put_edits(room: pathlib.Path, name: str, only: str) -> list[str]:
    """Puts the crate's edits whose name has the word into the copy, and returns their names."""
    there = room / "crates" / name / "must-fail"
    names: list[str] = []
    there.mkdir()
    for folder in (TOP / "crates" / name / "must-fail", TOP / "wrong-bodies" / name):
        for edit in sorted(folder.glob("*.edit")):
            if only not in edit.name:
                continue
            if edit.name in names:
                sys.exit(f"{edit.name} stands in the gate and in wrong-bodies/ too: give one another name")
            shutil.copy2(edit, there / edit.name)
            names.append(edit.name)
    return names


def try_all(room: pathlib.Path, name: str) -> tuple[int, dict[str, str]]:
    """Runs rt must-fail, prints what it says as it comes, and returns its status and each edit's outcome."""
    found: dict[str, str] = {}
    with subprocess.Popen(["rt", "must-fail", name], cwd=room, stdin=subprocess.DEVNULL, stdout=subprocess.PIPE,
                          stderr=subprocess.STDOUT, text=True, errors="replace") as ran:
        for line in ran.stdout or ():
            print(line, end="", flush=True)
            if little := LITTLE.match(line):
                print(f"shows little of the contract: {little[1]}", flush=True)
            outcome = LINE.match(line)
            if outcome:
                found[outcome[1]] = outcome[2]
    return ran.returncode, found


def report(names: list[str], found: dict[str, str], status: int) -> int:
    """Prints the edits that were not refused, and the counts; returns the exit status."""
    kinds: dict[str, list[str]] = {"refused": [], "NOT REFUSED": [], "BAD EDIT": [], "NOT TRIED": []}
    for edit in names:
        kinds[found.get(edit, "NOT TRIED")].append(edit)
    print()
    for kind, edits in kinds.items():
        for edit in edits if kind != "refused" else []:
            print(f"{kind}: {edit}")
    print(f"{len(names)} edits: " + ", ".join(f"{len(edits)} {kind.lower()}" for kind, edits in kinds.items()))
    return 0 if status == 0 and len(kinds["refused"]) == len(names) else 1


def main() -> int:
    """Tries the edits of the crate that is named."""
    words = asked_of(__doc__, None)
    words.add_argument("crate")
    words.add_argument("--only", metavar="WORD", default="", help="only edits whose name has this word")
    asked = words.parse_args()
    if not (TOP / "crates" / asked.crate).is_dir():
        sys.exit(f"there is no crate {asked.crate}")
    with tempfile.TemporaryDirectory(prefix="wrong-bodies-") as folder:
        room = pathlib.Path(folder)
        copy(room, asked.crate)
        names = put_edits(room, asked.crate, asked.only)
        if not names:
            sys.exit(f"{asked.crate} has no such edit")
        status, found = try_all(room, asked.crate)
        return report(names, found, status)


if __name__ == "__main__":
    sys.exit(main())
