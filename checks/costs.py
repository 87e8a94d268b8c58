#!/usr/bin/env python3
"""Says on which functions of a crate a check spends its time.

    checks/costs.py CRATE.. [--most N]

A check keeps each part of a proof in out/incremental once the part is checked. The time between two such files is taken for that of the
later one, and the times of a function's parts are added. So the figures are of a first check of the crate, by one job:

    (cd crates/CRATE && rm -rf out/incremental && rt check --jobs 1)

After another check they say little. A line a function: seconds, the share of the crate's time, the function. Lemmas and definitions of the
crate are under the name of their file.
"""

import collections
import pathlib
import re
import sys
from typing import NamedTuple

from crates import asked_of, lists

TOP = pathlib.Path(__file__).resolve().parent.parent
# The names of the parts of which a function's proof is made.
PARTS = re.compile(r"\.(?:Answers|Code|Given|Goals|Invariants|Key|Kinds|Layout|Lts|Met|Named|Proof|Reads|Statement|Symbol|TheLink|Tie)(?:\..*)?$")
# A longer time between two files is one between two checks.
MAX_PART_SECONDS = 600


class Kept(NamedTuple):
    """A file that a check kept, with its time."""

    time: float
    name: str


def kept_files(crate: str) -> list[Kept]:
    """Returns the times of the files that checks of the crate kept, with their names, in the order of the times."""
    folder = TOP / "crates" / crate / "out" / "incremental"
    return sorted(Kept(file.stat().st_mtime, file.stem) for file in folder.glob("*/*.oantt"))


def owner_of(crate: str, name: str) -> str:
    """Returns the function, or the file of lemmas, of which a file is a part."""
    own = re.sub(rf"^Rattle-{crate}[-.]?(?:proofs|specs\.contracts)?\.?", "", name)
    return PARTS.sub("", own) or "(the crate)"


def seconds_by_owner(crate: str) -> dict[str, float]:
    """Returns the seconds that went into each function."""
    files = kept_files(crate)
    seconds: dict[str, float] = collections.defaultdict(float)
    for before, file in zip(files, files[1:]):
        if file.time - before.time < MAX_PART_SECONDS:
            seconds[owner_of(crate, file.name)] += file.time - before.time
    return seconds


def main() -> int:
    """Prints the functions of each crate on which most time was spent."""
    asked = asked_of(__doc__, program=None)
    asked.add_argument("crates", nargs="+", metavar="CRATE", help="the crates")
    asked.add_argument("--most", type=int, default=15, metavar="N", help="how many functions of each; 15 if no number is given")
    words = asked.parse_args()
    unknown = [crate for crate in words.crates if crate not in lists()]
    if unknown:
        print(f"crates.txt names no crate {unknown[0]}", file=sys.stderr)
        return 2
    for crate in words.crates:
        seconds = seconds_by_owner(crate)
        total = sum(seconds.values())
        print(f"{crate}: {total:.0f} seconds, {len(seconds)} functions and files")
        for name, spent in sorted(seconds.items(), key=lambda it: it[1], reverse=True)[: words.most]:
            print(f"{spent:8.1f} {spent / total:6.1%}  {name}")
    return 0


if __name__ == "__main__":
    sys.exit(main())
