#!/usr/bin/env python3
"""Runs the cases of cases/ by `rt try`, with one build and no proof.

    checks/cases.py [FOLDER..]    these folders of cases/; if none is named, all of them and what README.md shows

Each case's output is compared by `rt try --cases`, and its exit status with cases/statuses.txt (0 if the
case isn't there). A line is printed for each case that fails, then `N passed, M failed`; the exit
status is 0 only if none failed. CONTRIBUTING.md (Cases and samples) says how a case is added.
"""

import re
import shutil
import subprocess
import sys
import tempfile
from collections.abc import Iterator
from pathlib import Path
from typing import NamedTuple

from crates import asked_of
from readme_runs import readme_runs

TOP = Path(__file__).resolve().parent.parent
CASES = TOP / "cases"
ENDINGS = ("", ".args", ".stdout")
TRANSCRIPT = ".transcript"
PROMPT = "$ jaeger_one"
LINE = re.compile(r"case=(\S+) run=(\S+) (?:status=(\d+) )?.*?(?:output=(\S+) )?proved=no")


class Case(NamedTuple):
    """What `rt try` says of a case: how it ran, its exit status if it ended, and of its output `same` or `differs`."""

    run: str
    status: str | None
    output: str | None


def statuses() -> dict[str, int]:
    """Returns the exit status that is wanted of each case that doesn't end with 0."""
    wanted = {}
    for line in (CASES / "statuses.txt").read_text().splitlines():
        name, status = line.split()
        wanted[name] = int(status)
    return wanted


def inputs(subject: str) -> list[str]:
    """Returns the names of a subject's cases that have three files: each is there, or some are missing."""
    files = [it for it in (CASES / subject).iterdir() if it.suffix != TRANSCRIPT]
    return sorted({it.name.split(".")[0] for it in files})


def runs(transcript: Path) -> Iterator[tuple[list[str], str]]:
    """Yields the runs of a transcript, each the arguments and the output. A line with the prompt begins one."""
    lines = transcript.read_text().splitlines(keepends=True)
    starts = [at for at, line in enumerate(lines) if line.startswith(PROMPT)]
    for start, end in zip(starts, [*starts[1:], len(lines)]):
        output = "".join(lines[start + 1:end])
        yield lines[start].removeprefix(PROMPT).split(), output


def gather_runs(subject: str, room: str) -> dict[str, str]:
    """Copies the runs of a subject's transcripts as cases without input. Returns each one's name by its file's."""
    names = {}
    for transcript in sorted((CASES / subject).glob(f"*{TRANSCRIPT}")):
        for number, (arguments, output) in enumerate(runs(transcript), 1):
            flat = f"{subject}-{transcript.stem}-{number}"
            names[flat] = f"{subject}/{transcript.stem} {number}"
            contents = ("", "".join(f"{it}\n" for it in arguments), output)
            for ending, content in zip(ENDINGS, contents):
                Path(f"{room}/{flat}{ending}").write_text(content)
    return names


def gather_readme(room: str) -> dict[str, str]:
    """Writes what README.md says that the program prints as cases. Returns each one's name by its file's."""
    names = {}
    for run in readme_runs():
        flat = f"readme-{run.name}"
        names[flat] = f"README.md {run.name}"
        for ending, content in zip(ENDINGS, (run.stdin, "".join(f"{it}\n" for it in run.arguments).encode(), run.stdout)):
            Path(f"{room}/{flat}{ending}").write_bytes(content)
    return names


def gather(subjects: list[str], room: str) -> dict[str, str]:
    """Copies the cases into one folder, as one build takes them. Returns each one's name by its file's."""
    names = {}
    for subject in subjects:
        for name in inputs(subject):
            files = {it: CASES / subject / f"{name}{it}" for it in ENDINGS}
            names[f"{subject}-{name}"] = f"{subject}/{name}"
            if all(it.exists() for it in files.values()):
                for ending, file in files.items():
                    shutil.copyfile(file, f"{room}/{subject}-{name}{ending}")
        names.update(gather_runs(subject, room))
    return names


def fault(case: Case, wanted: int) -> str:
    """Returns what is wrong with a case, or nothing."""
    if case.run != "ended":
        return f"run={case.run}"
    if case.status != str(wanted):
        return f"it ended with status {case.status}, and not {wanted}"
    return "its output differs" if case.output == "differs" else ""


def tried(room: str) -> tuple[str, dict[str, Case]]:
    """Returns what `rt try` says of the cases of a folder, all of it and of each case.

    Its interpreter can't run a program that reads its arguments, so it gets a single step.
    """
    words = ["rt", "try", "--steps", "1", "--cases", room]
    ran = subprocess.run(words, cwd=TOP / "crates/jaeger_one", stdin=subprocess.DEVNULL,
                         stdout=subprocess.PIPE, stderr=subprocess.STDOUT)
    said = ran.stdout.decode(errors="replace")
    return said, {it[1]: Case(it[2], it[3], it[4]) for it in LINE.finditer(said)}


def main() -> int:
    """Runs the cases, and prints each that fails."""
    asked = asked_of(__doc__, None)
    folders = sorted(it.name for it in CASES.iterdir() if it.is_dir())
    asked.add_argument("folders", nargs="*", metavar="FOLDER", help="folders of cases/; all if none is named")
    named = asked.parse_args().folders
    subjects = named or folders
    for name in subjects:
        if name not in folders:
            asked.error(f"cases/ has no folder {name}")
    wanted = statuses()
    with tempfile.TemporaryDirectory(prefix="cases-") as room:
        names = gather(subjects, room)
        if not named:
            names.update(gather_readme(room))
        said, found = tried(room)
    wrong = {}
    for flat, name in names.items():
        case = found.get(flat)
        # (a run of a transcript has its number behind the name)
        status = wanted.get(name.split()[0], 0)
        wrong[name] = fault(case, status) if case else "it wasn't run, or lacks a file"
    known = {name.split()[0] for name in wrong}
    for name in wanted:
        if name.split("/")[0] in subjects and name not in known:
            wrong[name] = "statuses.txt names it, but there is no such case"
    failed = {name: why for name, why in wrong.items() if why}
    for name, why in failed.items():
        print(f"{name}: {why}")
    if failed:
        print("\n".join(it[:300] for it in said.splitlines() if re.search("differs from|error", it)))
    print(f"{len(wrong) - len(failed)} passed, {len(failed)} failed")
    return 1 if failed or not names else 0


if __name__ == "__main__":
    sys.exit(main())
