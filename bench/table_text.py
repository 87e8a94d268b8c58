"""Makes cells, rows and captions of tables. It is no script: `tables.py` and what it calls use it."""
import datetime
import math
import textwrap
from typing import Any, Callable, Iterable

NOISE = "within the noise"

Form = Callable[[Any], str]


def two(value: float) -> str:
    """Returns a number with two significant digits."""
    if value >= 10:
        step = 10 ** (math.floor(math.log10(value)) - 1)
        return f"{round(value / step) * step:,.0f}"
    return f"{value:.1f}" if value >= 0.995 else f"{value:.2f}"


def two_places(value: float) -> str:
    """Returns a number with two decimals."""
    return f"{value:.2f}"


def digits(count: int) -> Form:
    """Returns a form with this number of decimals, or `-` for none."""
    return lambda value: "-" if value is None else f"{value:,.{count}f}"


def cell(value: Any) -> str:
    """Returns a value as it was printed, or `-` for none."""
    if value is None:
        return "-"
    return f"{value:,}" if isinstance(value, int) else str(value)


def bounds(values: Iterable[float], form: Form = two) -> str:
    """Returns the minimum and the maximum, or the one value that all are."""
    texts = [form(value) for value in sorted(values)]
    return texts[0] if texts[0] == texts[-1] else f"{texts[0]} to {texts[-1]}"


def day(text: str) -> str:
    """Returns a date as a page has it."""
    date = datetime.date.fromisoformat(text)
    return f"{date.day} {date:%B} {date.year}"


def listed(names: list[str]) -> str:
    """Returns names as a sentence has them: `A, B and C`."""
    return " and ".join([", ".join(names[:-1]), names[-1]] if names[1:] else names)


def row(cells: Iterable[str]) -> str:
    """Returns a row of a table."""
    return "| " + " | ".join(cells) + " |"


def table(heads: list[str], rows: Iterable[Iterable[str]]) -> list[str]:
    """Returns the lines of a table."""
    return [row(heads), "|" + "---|" * len(heads), *map(row, rows)]


def note(parts: Iterable[str]) -> list[str]:
    """Returns the lines below a table."""
    return ["", *textwrap.wrap("*" + "; ".join(parts) + ".*", 150, break_long_words=False, break_on_hyphens=False)]
