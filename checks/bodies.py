"""The functions whose bodies a wrong-body edit changes, and the names by which a check knows them."""

import dataclasses
import pathlib
import re
from collections.abc import Iterable

from edits import apply

FUNCTION = re.compile(r"(?P<indent> *)(?:pub(?:\([a-z ]+\))? )?(?P<const>const )?(?:unsafe )?fn (?P<name>\w+)")
CLOSES = re.compile(r"(?P<indent> *)\}")
OWNER = re.compile(r"(?:pub(?:\([a-z ]+\))? )?(?:impl|trait)\b")
# The lines between a function's doc comment and its first line.
ABOVE = re.compile(r" *(?:#\[|//)")


# A line of a crate: its file and its number, from 0.
Place = tuple[str, int]


@dataclasses.dataclass(frozen=True)
class Function:
    """A function: its file, its lines by number, and the names that a check may give it, the most exact first and its module's last."""

    path: str
    begins: int
    opens: int
    ends: int
    names: tuple[str, ...]
    stands_alone: bool

    def has_line(self, path: str, number: int) -> bool:
        """Returns whether this line is one of the function's."""
        return path == self.path and self.begins <= number <= self.ends

    def is_of_body(self, number: int, was: str, now: str) -> bool:
        """Returns whether a change of this line is a change of the body."""
        return self.opens < number < self.ends or (number == self.opens and now.startswith(was))


@dataclasses.dataclass(frozen=True, eq=False)
class Change:
    """What an edit changes: lines, by file and number, and the functions around them; whether it changes their bodies alone."""

    edit: pathlib.Path
    lines: dict[Place, str]
    functions: tuple[Function, ...]
    is_of_bodies: bool

    @property
    def files(self) -> set[str]:
        """Returns the files that it changes."""
        return {path for path, _ in self.lines}

    def has_line(self, path: str, number: int) -> bool:
        """Returns whether this line is in a function that it changes."""
        return any(it.has_line(path, number) for it in self.functions)

    def shares_with(self, other: "Change") -> bool:
        """Returns whether both change a function, by its place or by a name that a check may give it."""
        return any(one.begins == it.begins and one.path == it.path or {*one.names[:-1]} & {*it.names[:-1]}
                   for one in self.functions for it in other.functions)


# ---- the functions of a file


def indent_of(line: str) -> int:
    """Returns how far a line is indented."""
    return len(line) - len(line.lstrip(" "))


def function_around(lines: list[str], at: int) -> int | None:
    """Returns the number of the line where the function begins whose text has this line, or None."""
    closed = len(lines[at]) + 1
    for number in range(at, -1, -1):
        begins = FUNCTION.match(lines[number])
        if begins and len(begins["indent"]) < closed:
            return number
        ends = CLOSES.match(lines[number]) if number < at else None
        if ends:
            closed = min(closed, len(ends["indent"]))
    return None


def body_of(lines: list[str], begins: int) -> tuple[int, int]:
    """Returns the numbers of the lines that open and close a function's body, twice that of its first line if they can't be told. By the layout of
    `rt fmt` both are indented as the first line is, and nothing between them is."""
    indent, opens = indent_of(lines[begins]), None
    for number in range(begins, len(lines)):
        line = lines[number]
        if not line or indent_of(line) != indent:
            continue
        if opens is not None:
            return (opens, number) if line.startswith("}", indent) else (begins, begins)
        if line.endswith("{"):
            opens = number
        elif line.endswith(("}", ";")):
            break
    return begins, begins


def is_in_cycle(lines: list[str], begins: int) -> bool:
    """Returns whether an attribute above a function's first line puts it into a cycle of calls, which has one proof."""
    number = begins - 1
    while number >= 0 and ABOVE.match(lines[number]):
        if "#[cycle(" in lines[number]:
            return True
        number -= 1
    return False


def first_line(line: str) -> re.Match[str]:
    """Returns the parts of a line with which a function begins."""
    found = FUNCTION.match(line)
    assert found, line
    return found


def function_at(lines: list[str], begins: int, path: str) -> Function:
    """Returns the function that begins at this line."""
    names = (*names_of(lines, begins, module_of(path)), module_of(path))
    opens, ends = body_of(lines, begins)
    stands_alone = bool(first_line(lines[begins])["const"]) or is_in_cycle(lines, begins) or len(names) == 1
    return Function(path, begins, opens, ends, names, stands_alone)


# ---- the names of a function


def without_brackets(text: str) -> str:
    """Returns a type's text without what its angle brackets hold."""
    depth, kept = 0, []
    for before, letter in zip(" " + text, text):
        depth += letter == "<"
        if not depth:
            kept.append(letter)
        depth -= letter == ">" and before not in "-="
    return "".join(kept)


def without_leading(head: str) -> str:
    """Returns what follows the parameters that an impl begins with."""
    depth = 0
    for at, letter in enumerate(head):
        depth += letter == "<"
        depth -= letter == ">" and head[at - 1] not in "-="
        if not depth:
            return head[at + 1 :]
    return ""


def last_name(text: str) -> str:
    """Returns the last name of a path, without references and arguments."""
    names = re.findall(r"\w+", re.sub(r"&\s*(?:'\w+ )?(?:mut )?", "", without_brackets(text)))
    return names[-1] if names else ""


def owners_of(header: str) -> list[str]:
    """Returns the names that a check may give the type of an impl or a trait that begins so."""
    head = re.sub(r"^(?:pub(?:\([a-z ]+\))? )?(?:impl|trait)\b", "", header.partition("{")[0].partition(" where ")[0]).strip()
    if header.lstrip().startswith(("trait", "pub trait")):
        return [last_name(head.partition(":")[0])]
    if head.startswith("<"):
        head = head[len(head) - len(without_leading(head)) :].strip()
    trait, is_of, kind = head.partition(" for ")
    if not is_of:
        return [last_name(head)]
    plain, argument = last_name(kind) + last_name(trait), last_name(trait.partition("<")[2].rpartition(">")[0])
    return [plain + argument, plain] if argument else [plain]


def module_of(path: str) -> str:
    """Returns the path of a file's module below the crate."""
    parts = pathlib.PurePosixPath(path).with_suffix("").parts[1:]
    return "::".join(part for part in parts if part not in ("lib", "main", "mod"))


def names_of(lines: list[str], at: int, module: str) -> list[str]:
    """Returns the names that a check may give the function that begins at this line."""
    begins, before = first_line(lines[at]), f"{module}::" if module else ""
    if not begins["indent"]:
        return [before + begins["name"]]
    owner = next((number for number in range(at, -1, -1) if OWNER.match(lines[number])), None)
    if owner is None:
        return []
    ends = [f"{name}::{begins['name']}" for name in owners_of(" ".join(lines[owner:at]))]
    # (a method is in the module of its type, which may be another)
    return [*(before + end for end in ends), *ends]


# ---- what an edit changes


def lines_changed(edit: pathlib.Path, crate: pathlib.Path) -> dict[Place, tuple[str, str]]:
    """Returns the lines that an edit changes, by file and number, each with its text before and after; an edit keeps the count of lines."""
    found = {}
    for path, text in apply(edit, crate).items():
        was = (crate / path).read_text(encoding="utf-8").split("\n")
        for number, (one, other) in enumerate(zip(was, text.split("\n"), strict=True)):
            if one != other:
                found[path, number] = (one, other)
    return found


def leaves_the_rest(changed: dict[Place, tuple[str, str]], function_of: dict[Place, Function]) -> bool:
    """Returns whether changes are of bodies alone: each in the body of a function that may be tried beside others, no function more, and as many
    brackets open as before."""
    opened: dict[Function, int] = {}
    for (path, number), (was, now) in changed.items():
        function = function_of.get((path, number))
        if function is None or function.stands_alone or not function.is_of_body(number, was, now):
            return False
        if len(re.findall(r"\bfn\b", now)) > len(re.findall(r"\bfn\b", was)):
            return False
        more = (now.count("{") - now.count("}")) - (was.count("{") - was.count("}"))
        opened[function] = opened.get(function, 0) + more
    return not any(opened.values())


def change_of(edit: pathlib.Path, crate: pathlib.Path) -> Change:
    """Returns what an edit changes; raises Fault if it doesn't apply."""
    changed = lines_changed(edit, crate)
    function_of: dict[Place, Function] = {}
    for path, number in changed:
        lines = (crate / path).read_text(encoding="utf-8").split("\n") if path.startswith("src/") else []
        begins = function_around(lines, number) if lines else None
        if begins is not None:
            function_of[path, number] = function_at(lines, begins, path)
    after = {place: now for place, (_, now) in changed.items()}
    return Change(edit, after, tuple(dict.fromkeys(function_of.values())), leaves_the_rest(changed, function_of))


def rounds_of(changes: Iterable[Change]) -> list[list[Change]]:
    """Returns the changes in as few lists as a first fit finds; no two of a list change one function."""
    rounds: list[list[Change]] = []
    for change in sorted(changes, key=lambda it: -len(it.functions)):
        room = next((it for it in rounds if not any(change.shares_with(other) for other in it)), None)
        if room is None:
            rounds.append([change])
        else:
            room.append(change)
    return rounds
