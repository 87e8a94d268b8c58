#!/usr/bin/env python3
"""Prints what rt ci did with each crate, from its log: at which minute proof and tests ended and edits began.

    rt ci 2>&1 | checks/gate.py --stamp > LOG
    checks/gate.py LOG
"""

import dataclasses
import re
import sys
import time
from collections.abc import Iterator

from crates import asked_of

STAMP = re.compile(r"@(\d+\.\d) ")
BLOCK = re.compile(r"rt: (\w+)(: its tests are)? (proved|NOT PROVED)$")
KEPT = re.compile(r"rt: (\w+) is kept:")
BEGUN = re.compile(r"rt: (\w+): trying its must-fail edits \((\d+)\)")
EDIT = re.compile(r"rt: must-fail (\w+)/\S+: (refused|NOT REFUSED|BAD EDIT|NOT TRIED)")


@dataclasses.dataclass
class Row:
    """What the log says of a crate: what came of its proof and tests, how many edits were begun, and how they ended."""

    proof: str = ""
    tests: str = ""
    begun: str = ""
    refused: int = 0
    other: int = 0


def stamp() -> None:
    """Copies standard input, each line after the seconds since the start."""
    began = time.monotonic()
    for line in sys.stdin:
        print(f"@{time.monotonic() - began:.1f} {line}", end="", flush=True)


def lines_of(log: str) -> Iterator[tuple[float | None, str]]:
    """Yields (minutes or None, line) of a log, with or without stamps."""
    with open(log, encoding="utf-8", errors="replace") as file:
        for line in file:
            at = STAMP.match(line)
            yield (float(at[1]) / 60 if at else None), line[at.end() if at else 0 :].rstrip("\n")


def row(crates: dict[str, Row], name: str) -> Row:
    """Returns the crate's row, a new one at its first line."""
    return crates.setdefault(name, Row())


def told(what: str, at: float | None) -> str:
    """Returns what came of a proof, and the minute at which it ended if the log has one."""
    return what if at is None else f"{what} {at:.1f}"


def read(log: str) -> tuple[dict[str, Row], bool]:
    """Returns the rows of the log by crate, and whether it has moments."""
    crates: dict[str, Row] = {}
    timed = False
    for at, line in lines_of(log):
        timed = timed or at is not None
        if found := BLOCK.match(line):
            setattr(row(crates, found[1]), "tests" if found[2] else "proof", told(found[3], at))
        elif found := KEPT.match(line):
            row(crates, found[1]).proof = told("kept", at)
        elif found := BEGUN.match(line):
            row(crates, found[1]).begun = told(found[2], at)
        elif found := EDIT.match(line):
            it = row(crates, found[1])
            if found[2] == "refused":
                it.refused += 1
            else:
                it.other += 1
    return crates, timed


def main() -> None:
    """Prints the table of the log that is named."""
    asked = asked_of(__doc__, None)
    asked.add_argument("log", nargs="?", metavar="LOG", help="a log of rt ci, with or without moments")
    asked.add_argument("--stamp", action="store_true", help="write the moment before each line of the input")
    words = asked.parse_args()
    if words.stamp:
        stamp()
        return
    if words.log is None:
        asked.error("give a log, or --stamp")
    crates, timed = read(words.log)
    form = "{:<18}{:<18}{:<18}{:<12}{:>8}{:>12}"
    print(form.format("crate", "proof", "tests", "edits begun", "refused", "not refused"))
    for name, it in crates.items():
        print(form.format(name, it.proof, it.tests, it.begun, it.refused, it.other))
    if timed:
        print("A number behind a word is the minute of the clock at which that ended or, of edits, began.")
    else:
        print("The log has no times, and rt ci prints none: run 'rt ci 2>&1 | python3 checks/gate.py --stamp > LOG'.")
    print("Minutes of a processor by crate stand in no log: 'time rt ci' has the sum.")


if __name__ == "__main__":
    main()
