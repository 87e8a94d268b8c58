#!/usr/bin/env python3
"""Says which files of the crates aren't laid out as `rt fmt` lays them out. No prover is asked.

    checks/layout.py

`rt ci` refuses a crate with such a file, but only after it has tried all others. A line is printed for each such file, then the count; the
exit status is 0 only if there is none. `rt fmt` in the crate's folder lays its files out.
"""

import pathlib
import shutil
import subprocess
import sys

from crates import asked_of, lists

TOP = pathlib.Path(__file__).resolve().parent.parent
PARTS = ("src", "specs", "proofs")
ENDINGS = {".rt", ".antt"}


def files_of(crate: str) -> list[pathlib.Path]:
    """Returns the files of a crate that have a layout, in order, as seen from the top."""
    folder = TOP / "crates" / crate
    return sorted(file.relative_to(TOP) for part in PARTS for file in (folder / part).rglob("*") if file.suffix in ENDINGS)


def checked(program: pathlib.Path, files: list[pathlib.Path]) -> tuple[str, bool]:
    """Returns what the toolchain says of files that aren't laid out, and whether all are."""
    ran = subprocess.run([program, "fmt", "--check", *files], cwd=TOP, stdout=subprocess.PIPE, stderr=subprocess.STDOUT, text=True, check=False)
    return ran.stdout, ran.returncode == 0


def main() -> int:
    """Asks about each crate."""
    asked_of(__doc__, program=None).parse_args()
    command = shutil.which("rt")
    if not command:
        print("rt, the toolchain's command, isn't found", file=sys.stderr)
        return 2
    program = pathlib.Path(command).resolve().parent / "rattle"
    crates = lists()
    wrong = 0
    for crate in crates:
        said, is_well = checked(program, files_of(crate))
        print(said, end="")
        wrong += not is_well
    print(f"{len(crates)} crates, {wrong} not laid out")
    return int(wrong > 0)


if __name__ == "__main__":
    sys.exit(main())
