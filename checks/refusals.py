#!/usr/bin/env python3
"""Tries the wrong bodies of all crates, many by one check, each judged on the functions that it changes, and keeps what came of each.

    checks/refusals.py [CRATE..] [--only WORD] [--built] [--again OUTCOME] [--minutes N] [--jobs N]
    checks/refusals.py --counts

A function is proved by the contracts of those that it calls, and never by their bodies. So edits of crates/NAME/must-fail and wrong-bodies/NAME
that change the bodies of different functions are applied together, as a round, in a copy of the repository, and one `rt check --only` checks
these functions and those that they call. An edit is refused if the check gives a cause in a function that it changes: an error in its lines or its
proof files, or a goal of its own that isn't proved. A call of a function that isn't proved is no such cause.

An edit is tried alone if it does more than change bodies, if it changes a function of a cycle of calls or a `const fn`, or if its round gave no cause
in its functions. Its functions are checked first; if they are still proved, or it is in no function, the whole crate is. If a round can't be
judged (it doesn't compile, the check was killed, an error is in none of its functions), the edits to which its errors point are tried alone and
the others again, or the round in two halves. Crates come lowest first, `--jobs N` of them side by side, each in a copy of its own; a
check takes 0.5 to 2 GB. Libraries below a crate that aren't built are built first.

What came of an edit is a line of wrong-bodies/results.tsv, written after each check, so the script may be stopped and started again: an edit is
passed over if its own text and its crate's src/, specs/ and proofs/ are those of its line. The columns: crate; edit; outcome; what was checked,
functions or `crate`; the first line that says why; seconds of a processor, of a round its share; the commit; sums of the crate's text, without
comments, and of the edit's.

    refused       a changed function, or of an edit that is tried alone one that it calls, is not proved: a clause, a call's premise or an
                  invariant fails
    by a name     refused only because a proof names what the edit took away, which says little of a contract: keep the names, change a value
    at a limit    the prover gave no verdict within its limits
    not refused   the whole crate is still proved with the edit
    bad edit      it doesn't apply, or the compiler, the borrow checker or the prover can't read it
    not tried     the check was killed or stopped for another reason

A line whose edit is gone is dropped.

An edit that is refused on a function is refused by `rt must-fail` too: that function is a part of the crate. The line doesn't show that
the function is proved with its own body, which `rt ci` shows: a function that has no proof counts here as refused. Nor does it show that the edit
is refused over other libraries than those that it was tried with: a change in a crate below makes no line stale. `--again` tries edits anew whose
line has that outcome, or `all`. Status 1 if an edit that was tried was not refused for its meaning.
"""

import argparse
import collections
import concurrent.futures
import contextlib
import hashlib
import os
import pathlib
import re
import shutil
import subprocess
import sys
import tempfile
import threading
import time
from collections.abc import Iterator, Sequence
from typing import NamedTuple

from bodies import Change, Function, change_of, rounds_of
from crates import asked_of, below, lists
from edits import Fault, folders

TOP = pathlib.Path(__file__).resolve().parent.parent
RESULTS = TOP / "wrong-bodies" / "results.tsv"
REFUSED, BY_NAME, AT_LIMIT = "refused", "by a name", "at a limit"
NOT_REFUSED, BAD, NOT_TRIED = "not refused", "bad edit", "not tried"
OUTCOMES = (REFUSED, BY_NAME, AT_LIMIT, NOT_REFUSED, BAD, NOT_TRIED)

ERROR = re.compile(r"(?:\./)?(?P<file>\S+?):(?P<line>\d+):\d+: error(?P<code>\[[\w-]+\])?: (?P<said>.*)")
# How a check says that a proof names what is gone, or that the edited text can't be read.
GONE = re.compile(r"has no field|is not in scope|has no `|was not admitted")
UNREADABLE = re.compile(r"is not in scope|has no field|is no name|operand is missing|expected the end|cannot continue")
LIMIT = re.compile(r"antt ran out of (?:stack|the (?:steps|memory) that)|(?:outgrew the memory limit|stopped at the step limit) \(")
UNPROVED = re.compile(r"fn (\S+): (?:not proved|no proof)")
VERDICT = re.compile(r"fn \w+::(?P<name>\S+): (?P<said>.*)")
# The part of a verdict that names a file that could be written.
EXPECTED = re.compile(r" expected answers in [^;]*;")
# What a verdict says of a function that the borrow checker can't read: no clause was looked at.
BORROWS = re.compile(r"the borrow checker(?:'s part| does not cover)")
# What a verdict has for the functions that this one calls, and where the name of a closure says in which function it is.
CALLS = re.compile(r"(?:; |: )?it calls `.*")
CLOSURE = re.compile(r"(?P<module>(?:\w+::)*)fn::(?P<name>.+)::\w+\+Fn(?:Mut|Once)?::\w+")


class Row(NamedTuple):
    """A line of results.tsv, which is of one edit."""

    crate: str
    edit: str
    outcome: str
    checked: str
    why: str
    seconds: str
    commit: str
    crate_sum: str
    edit_sum: str


class Came(NamedTuple):
    """What came of an edit: the outcome, the line that says why, what was checked, and the seconds of a processor."""

    outcome: str
    why: str
    checked: str
    seconds: float


class Error(NamedTuple):
    """An error of a check: the file where it is, what it says, and its whole line."""

    file: str
    said: str
    line: str


def sum_of(*texts: bytes) -> str:
    """Returns a short sum of texts."""
    made = hashlib.sha256()
    for text in texts:
        made.update(len(text).to_bytes(8, "big") + text)
    return made.hexdigest()[:12]


def uncommented(file: pathlib.Path) -> bytes:
    """Returns the words of the lines of a file that aren't comments, so that a new layout changes nothing."""
    mark = b"//" if file.suffix == ".rt" else b"--"
    lines = (line for line in file.read_bytes().splitlines() if not line.lstrip().startswith(mark))
    return b" ".join(word for line in lines for word in line.split())


def crate_sum(crate: pathlib.Path) -> str:
    """Returns the sum of what a check reads of the crate, without comments and layout."""
    files = sorted(file for part in ("src", "specs", "proofs") for file in (crate / part).rglob("*") if file.is_file())
    return sum_of(*(part for file in files for part in (str(file.relative_to(crate)).encode(), uncommented(file))))


class Rows:
    """The lines of results.tsv, which crates that are tried side by side share."""

    def __init__(self, edits: dict[str, list[pathlib.Path]]) -> None:
        """Reads the lines that earlier runs left of these edits."""
        lines = RESULTS.read_text(encoding="utf-8").splitlines()[1:] if RESULTS.is_file() else []
        rows = [Row(*line.split("\t")) for line in lines]
        there = {(name, label(edit)) for name, found in edits.items() for edit in found}
        self.by_edit, self.lock = {key: row for row in rows if (key := (row.crate, row.edit)) in there}, threading.Lock()

    def keep(self, rows: list[Row]) -> None:
        """Takes in rows, and writes all lines in the order of crates and edits."""
        with self.lock:
            self.by_edit.update({(row.crate, row.edit): row for row in rows})
            lines = ["\t".join(Row._fields), *("\t".join(row) for _, row in sorted(self.by_edit.items()))]
            part = RESULTS.with_suffix(".part")
            part.write_text("\n".join(lines) + "\n", encoding="utf-8")
            os.replace(part, RESULTS)


# ---- a copy of the repository


def linked(one: str, other: str) -> None:
    """Gives a file a second name, or copies it: a build replaces the files of a library and changes none."""
    try:
        os.link(one, other)
    except OSError:
        shutil.copy2(one, other)


class Room:
    """A copy of the repository, in which edits of one crate are tried."""

    def __init__(self, folder: str, name: str, shelf: pathlib.Path) -> None:
        """Copies the text of all crates, what was built of those below the crate, and what checks of it kept."""
        self.folder, self.name, self.shelf = pathlib.Path(folder), name, shelf
        self.crate = self.folder / "crates" / name
        shutil.copytree(TOP / "crates", self.folder / "crates", ignore=shutil.ignore_patterns("out", "must-fail"))
        for file in ("crates.txt", "HANDLES"):
            shutil.copy2(TOP / file, self.folder / file)
        for other in self.below():
            built = next((it for it in (shelf / other, TOP / "crates" / other / "out" / "rlib") if (it / "stamp").is_file()), None)
            if built:
                shutil.copytree(built, self.library(other), copy_function=linked)
        kept = TOP / "crates" / name / "out" / "incremental"
        if kept.is_dir():
            shutil.copytree(kept, self.crate / "out" / "incremental")

    def below(self) -> set[str]:
        """Returns the crates below this one."""
        return below([self.name], lists()) - {self.name}

    def library(self, name: str) -> pathlib.Path:
        """Returns where a crate's library is."""
        return self.folder / "crates" / name / "out" / "rlib"

    def leave(self) -> None:
        """Puts the libraries that were built here on the shelf, for the crates that come later."""
        for other in self.below():
            if (self.library(other) / "stamp").is_file() and not (self.shelf / other).exists():
                shutil.copytree(self.library(other), self.shelf / other, copy_function=linked)

    def check(self, words: list[str]) -> tuple[int, str, float]:
        """Runs rt check, and returns its status, what it said, and the seconds of a processor that it took."""
        with subprocess.Popen(["rt", "check", "--jobs", "1", *words], cwd=self.crate, stdin=subprocess.DEVNULL, stdout=subprocess.PIPE,
                              stderr=subprocess.STDOUT, text=True, errors="replace") as ran:
            said = ran.stdout.read() if ran.stdout else ""
            _, status, used = os.wait4(ran.pid, 0)
            ran.returncode = os.waitstatus_to_exitcode(status)
        return ran.returncode, said, used.ru_utime + used.ru_stime

    def check_functions(self, functions: Sequence[Function]) -> "Check":
        """Checks the functions, each by the first of its names that the check knows; returns the check, with the names."""
        steps, spent = [0] * len(functions), 0.0
        while True:
            names = [function.names[step] for function, step in zip(functions, steps)]
            status, said, seconds = self.check([word for name in names for word in ("--only", name)])
            spent += seconds
            unknown = [at for at, name in enumerate(names) if f"`{name}`" in said] or range(len(names))
            ahead = [at for at in unknown if steps[at] + 1 < len(functions[at].names)]
            if not (fits_nothing(status, said) and ahead):
                return Check(status, said, spent, dict(zip(functions, names)))
            for at in ahead:
                steps[at] += 1

    @contextlib.contextmanager
    def changed(self, changes: list[Change]) -> Iterator[None]:
        """Has these changes in the crate's files for a while."""
        was = {path: (self.crate / path).read_text(encoding="utf-8") for change in changes for path in change.files}
        texts = {path: text.split("\n") for path, text in was.items()}
        for change in changes:
            for (path, number), line in change.lines.items():
                texts[path][number] = line
        try:
            for path, lines in texts.items():
                (self.crate / path).write_text("\n".join(lines), encoding="utf-8")
            yield
        finally:
            for path, text in was.items():
                (self.crate / path).write_text(text, encoding="utf-8")


# ---- what a check said


def fits_nothing(status: int, said: str) -> bool:
    """Returns whether a check says that no function has a name that --only gave it."""
    return status == 2 and not re.search(r"^only=", said, re.M) and ("only" in said or "has no function" in said)


def whole_lines(said: str) -> list[str]:
    """Returns the lines of what a check said, each with the indented ones below it, which continue it."""
    return re.sub(r"\n {2,}(?=\S)", " ", said).splitlines()


def outcome_of(status: int, said: str, edited: set[str]) -> tuple[str | None, str]:
    """Returns what a check with an edit of these files came to, and the line that says why; None if what it checked is proved."""
    lines = whole_lines(said)
    errors = [Error(found["file"], found["said"], line) for line in lines if (found := ERROR.match(line))]
    has_ended = any(line.startswith(("only=", "logic=")) for line in lines)
    if status == 0:
        return None, ""
    unreadable = [it.line for it in errors if it.file in edited and UNREADABLE.search(it.said)]
    compiler = [line for line in lines if re.search(r"\berror\[[\w-]+\]", line)]
    if unreadable or (compiler and not has_ended):
        return BAD, [*unreadable, *compiler][0]
    if status == 3 and LIMIT.search(said):
        return AT_LIMIT, next((it.line for it in errors), next(line for line in lines if LIMIT.search(line)))
    if status != 1 or not has_ended:
        return NOT_TRIED, f"status {status}: {next((line for line in reversed(lines) if line), '')}"
    meant = [it.line for it in errors if not (it.file.startswith("proofs/") and GONE.search(it.said))]
    if errors and not meant:
        return BY_NAME, errors[0].line
    unproved = [line for line in lines if UNPROVED.match(line)]
    if not meant and unproved and not any(is_of_meaning(line) for line in unproved):
        return BAD, next((line for line in unproved if BORROWS.search(line)), unproved[0])
    return REFUSED, next(iter(meant), next(filter(is_of_meaning, unproved), lines[-1]))


def is_of_meaning(verdict: str) -> bool:
    """Returns whether a function isn't proved for a goal of its own: not for a function that it calls, nor for the borrow checker."""
    is_by_calls = CALLS.search(verdict) and CALLS.sub("", verdict).endswith((": no proof", ": not proved"))
    return not BORROWS.search(verdict) and not is_by_calls


class Check:
    """What a check of functions said, each of which it was asked by a name."""

    def __init__(self, status: int, said: str, seconds: float, names: dict[Function, str]) -> None:
        """Reads the verdicts and the errors."""
        self.status, self.said, self.seconds, self.names = status, said, seconds, names
        lines = whole_lines(said)
        self.errors = [found for line in lines if (found := ERROR.match(line))]
        self.verdicts: dict[str, list[re.Match[str]]] = {}
        for found in filter(None, map(VERDICT.match, lines)):
            self.verdicts.setdefault(owner_of(found["name"]), []).append(found)

    def is_of(self, error: re.Match[str], change: Change) -> bool:
        """Returns whether an error is in the lines or the proof files of a function that this changes."""
        if change.has_line(error["file"], int(error["line"]) - 1):
            return True
        return any(error["file"].startswith(f"proofs/{self.names[it].replace('::', '/')}/") for it in change.functions)

    def is_verdict_on(self, changes: list[Change]) -> bool:
        """Returns whether the check came to its end, could read the changes, and has no error outside their functions."""
        edited = {path for change in changes for path in change.files}
        unread = [it for it in self.errors if it["code"] or it["file"] in edited and UNREADABLE.search(it["said"])]
        strange = [it for it in self.errors if not any(self.is_of(it, change) for change in changes)]
        return self.status in (0, 1, 3) and bool(re.search(r"^only=", self.said, re.M)) and not unread and not strange

    def cause_in(self, change: Change) -> str | None:
        """Returns the line by which the change is refused for its meaning, in a function of its own, or None."""
        own = [it for it in self.errors if self.is_of(it, change)]
        if any(LIMIT.search(it[0]) for it in own):
            return None
        meant = [it[0] for it in own if not (it["file"].startswith("proofs/") and GONE.search(it["said"]))]
        if own:
            return next(iter(meant), None)
        verdicts = [it for function in change.functions for it in self.verdicts.get(self.names[function], [])]
        return next((it[0] for it in verdicts if CALLS.sub("", it["said"]).startswith("no proof: ") and is_of_meaning(it[0])), None)

    def proves(self, change: Change) -> bool:
        """Returns whether each function that this changes is proved."""
        found = [self.verdicts.get(self.names[it], []) for it in change.functions]
        return all(found) and all(it["said"] == "proved" for verdicts in found for it in verdicts)

    def checked(self, change: Change) -> str:
        """Returns the names by which the change's functions were checked."""
        return " ".join(self.names[it] for it in change.functions)


def owner_of(name: str) -> str:
    """Returns the name of the function in which a closure is, and that of any other function as it is."""
    found = CLOSURE.fullmatch(name)
    return found["module"] + found["name"] if found else name


# ---- trying


def try_alone(room: Room, change: Change, spent: float, is_proved: bool = False) -> Came:
    """Tries a change alone, at once on the whole crate if its functions are known to be proved; returns what came of it."""
    with room.changed([change]):
        if change.functions and not is_proved:
            check = room.check_functions(change.functions)
            outcome, why = outcome_of(check.status, check.said, change.files)
            spent += check.seconds
            if outcome and not fits_nothing(check.status, check.said):
                return Came(outcome, why, check.checked(change), spent)
        status, said, seconds = room.check([])
        outcome, why = outcome_of(status, said, change.files)
        return Came(outcome or NOT_REFUSED, why, "crate", spent + seconds)


def parts_of(changes: list[Change], check: Check) -> list[list[Change]]:
    """Returns the lists in which to try the changes of a round that can't be judged."""
    blamed = [it for it in changes if any(check.is_of(error, it) for error in check.errors if error["code"] or UNREADABLE.search(error["said"]))]
    others = [it for it in changes if it not in blamed]
    if blamed:
        return [*([it] for it in blamed), *([others] if others else [])]
    return [changes[: len(changes) // 2], changes[len(changes) // 2 :]]


def try_round(room: Room, changes: list[Change], asked: argparse.Namespace, spent: float = 0.0) -> Iterator[tuple[Change, Came]]:
    """Tries changes of different functions by one check, and yields each with what came of it; each has spent some seconds
    before. Nothing is begun after the time that was asked for."""
    if time.monotonic() > asked.ends:
        return
    if len(changes) == 1:
        yield changes[0], try_alone(room, changes[0], spent)
        return
    with room.changed(changes):
        check = room.check_functions([function for change in changes for function in change.functions])
    spent += check.seconds / len(changes)
    if not check.is_verdict_on(changes):
        for part in parts_of(changes, check):
            yield from try_round(room, part, asked, spent)
        return
    causes = [(change, check.cause_in(change)) for change in changes]
    for change, why in causes:
        if why:
            yield change, Came(REFUSED, why, check.checked(change), spent)
    for change, why in causes:
        if not why and time.monotonic() < asked.ends:
            yield change, try_alone(room, change, spent, check.proves(change))


# ---- all of them


def by_layer() -> list[str]:
    """Returns the crates, each after those that it uses."""
    used = lists()
    found: list[str] = []
    while len(found) < len(used):
        found += [name for name in used if name not in found and all(it in found or it not in used for it in used[name])]
    return found


def edits_by_crate() -> dict[str, list[pathlib.Path]]:
    """Returns the edits of each crate."""
    found: dict[str, list[pathlib.Path]] = {}
    for folder, crate in folders():
        found.setdefault(crate.name, []).extend(sorted(folder.glob("*.edit")) if folder.is_dir() else [])
    return found


def is_built(name: str) -> bool:
    """Returns whether the libraries below the crate are built."""
    return all((TOP / "crates" / it / "out" / "rlib" / "stamp").is_file() for it in below([name], lists()) - {name})


def commit() -> str:
    """Returns the commit that is checked out."""
    ran = subprocess.run(["git", "rev-parse", "--short=12", "HEAD"], cwd=TOP, capture_output=True, text=True)
    return ran.stdout.strip() or "none"


def label(edit: pathlib.Path) -> str:
    """Returns an edit's path below the repository, without its crate, which is said beside it."""
    return f"{'gate' if edit.parent.name == 'must-fail' else 'more'}/{edit.stem}"


def is_known(row: Row | None, sums: tuple[str, str], again: str | None) -> bool:
    """Returns whether a line is of this text and needs no further try."""
    return row is not None and (row.crate_sum, row.edit_sum) == sums and again not in ("all", row.outcome) and row.outcome != NOT_TRIED


def outcomes_of(room: Room, edits: list[pathlib.Path], asked: argparse.Namespace) -> Iterator[tuple[pathlib.Path, Came]]:
    """Tries the edits, and yields each with what came of it."""
    changes = []
    for edit in edits:
        try:
            changes.append(change_of(edit, room.crate))
        except (Fault, OSError, ValueError) as why:
            yield edit, Came(BAD, str(why), "", 0.0)
    rounds = [*rounds_of([it for it in changes if it.is_of_bodies]), *([it] for it in changes if not it.is_of_bodies)]
    for tried in rounds:
        for change, came in try_round(room, tried, asked):
            yield change.edit, came


def try_crate(name: str, edits: list[pathlib.Path], rows: Rows, asked: argparse.Namespace) -> None:
    """Tries the crate's edits that are not known, and keeps each outcome."""
    text = crate_sum(TOP / "crates" / name)
    sums = {edit: (text, sum_of(edit.read_bytes())) for edit in edits if asked.only in edit.name}
    todo = [edit for edit in sums if not is_known(rows.by_edit.get((name, label(edit))), sums[edit], asked.again)]
    if not todo or time.monotonic() > asked.ends or (asked.built and not is_built(name)):
        return
    with tempfile.TemporaryDirectory(prefix=f"refusals-{name}-") as folder:
        room = Room(folder, name, asked.shelf)
        for edit, came in outcomes_of(room, todo, asked):
            why = " ".join(EXPECTED.sub("", came.why.replace(folder, "")).split())[:160]
            rows.keep([Row(name, label(edit), came.outcome, came.checked, why, f"{came.seconds:.0f}", asked.commit, *sums[edit])])
            print(f"{name} {label(edit)}: {came.outcome} ({came.checked}, {came.seconds:.0f} s): {why}", flush=True)
        room.leave()


def try_all(edits: dict[str, list[pathlib.Path]], rows: Rows, asked: argparse.Namespace) -> None:
    """Tries the edits of the crates that are asked for; if it is interrupted, checks that run end first."""
    names = [name for name in by_layer() if not asked.crates or name in asked.crates]
    with tempfile.TemporaryDirectory(prefix="refusals-shelf-") as folder, concurrent.futures.ThreadPoolExecutor(asked.jobs) as pool:
        asked.shelf = pathlib.Path(folder)
        runs = [pool.submit(try_crate, name, edits[name], rows, asked) for name in names]
        try:
            for run in runs:
                run.result()
        except BaseException:
            asked.ends = float("-inf")
            raise


def present_lines(rows: Rows, edits: dict[str, list[pathlib.Path]]) -> int:
    """Returns how many lines are of the present text of their crate and of their edit."""
    count = 0
    for name, found in edits.items():
        text = crate_sum(TOP / "crates" / name)
        sums = ((rows.by_edit.get((name, label(edit))), (text, sum_of(edit.read_bytes()))) for edit in found)
        count += sum(row is not None and (row.crate_sum, row.edit_sum) == both for row, both in sums)
    return count


def report(rows: Rows, edits: dict[str, list[pathlib.Path]]) -> int:
    """Prints the edits that were not refused for their meaning, and the counts; returns the exit status."""
    lines = [row for _, row in sorted(rows.by_edit.items())]
    for row in lines:
        if row.outcome != REFUSED:
            print(f"{row.outcome}: {row.crate} {row.edit}: {row.why}")
    counts = ", ".join(f"{sum(row.outcome == it for row in lines)} {it}" for it in OUTCOMES)
    print(f"{len(lines)} of {sum(map(len, edits.values()))} edits have a line: {counts}")
    commits = collections.Counter(row.commit for row in lines)
    print(f"{present_lines(rows, edits)} lines are of the present text of their crate; by commit: {', '.join(f'{n} {it}' for it, n in commits.most_common())}")
    return 0 if all(row.outcome == REFUSED for row in lines) else 1


def arguments() -> argparse.Namespace:
    """Returns what the script is asked."""
    words = asked_of(__doc__, None)
    words.add_argument("crates", nargs="*", metavar="CRATE", help="these crates alone")
    words.add_argument("--only", metavar="WORD", default="", help="only edits whose name has this word")
    words.add_argument("--built", action="store_true", help="only crates below which all libraries are built")
    words.add_argument("--again", metavar="OUTCOME", choices=("all", *OUTCOMES), help="try those with this outcome anew")
    words.add_argument("--minutes", type=float, default=float("inf"), help="begin no further check after this number of minutes")
    words.add_argument("--jobs", type=int, default=1, metavar="N", help="this many crates side by side")
    words.add_argument("--counts", action="store_true", help="try nothing, and print what came of those that were tried")
    asked = words.parse_args()
    asked.ends, asked.commit = time.monotonic() + 60 * asked.minutes, commit()
    return asked


def main() -> int:
    """Tries what is asked, and reports."""
    asked, edits = arguments(), edits_by_crate()
    rows = Rows(edits)
    if lacking := [name for name in asked.crates if name not in edits]:
        sys.exit(f"there is no crate {lacking[0]}")
    if not asked.counts:
        try_all(edits, rows, asked)
    return report(rows, edits)


if __name__ == "__main__":
    sys.exit(main())
