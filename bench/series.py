"""Reads bench/results.json as named rows. It is no script: `tables.py` and what it calls use it.

A row has a field for each column of its series, in small letters, with `_` in place of all but letters and digits: the field
of the column `MB a second` is `mb_a_second`.
"""
import re
from dataclasses import dataclass, field, make_dataclass
from typing import Any, Iterable, Sequence

import results
from table_text import NOISE, bounds, cell, two, two_places

Row = Any  # a dataclass that `rows_of` makes of the columns of a series
SIZES = [1000, 10_000]
WRITERS = [1, 2, 4, 8]
ALONE = "spans a second"
BESIDE = "spans a second beside two readers"
POST = "a POST beside two readers, p99, ms"
COST = "processor time a span, microseconds"
ONE = "a trace by its id, nobody writing: processor time, microseconds"
TWENTY = "20 traces of the service, nobody writing: processor time, microseconds"
LOOK = "a trace by its id beside 4 writers at full speed"


def field_of(column: str) -> str:
    """Returns the name of the field of a column."""
    return re.sub(r"\W+", "_", column.lower()).strip("_")


def rows_of(columns: Iterable[str], rows: Iterable[Sequence[Any]]) -> list[Row]:
    """Returns these rows with named fields."""
    make = make_dataclass("Row", [field_of(it) for it in columns], frozen=True)
    return [make(*it) for it in rows]


@dataclass
class Series:
    """A series: how it was measured, and its rows. What wasn't written down is empty."""
    name: str
    rows: list[Row]
    machine: str
    command: str = ""
    date: str = ""
    commit: str = ""
    program: str = ""
    compiler: str = ""
    load: str = ""
    page: str = ""
    peers: str = ""
    builds: str = ""
    noise: float = 0.0
    runs: dict[str, list[list[float]]] = field(default_factory=dict)

    def where(self, **values: Any) -> list[Row]:
        """Returns the rows whose fields have these values."""
        return [it for it in self.rows if all(getattr(it, name) == value for name, value in values.items())]

    def one(self, **values: Any) -> Row:
        """Returns the one row whose fields have these values."""
        found = self.where(**values)
        if len(found) != 1:
            raise KeyError(f"{self.name}: {len(found)} rows of {values}")
        return found[0]


@dataclass
class Machine:
    """A machine that something was measured on."""
    processor: str
    memory: str
    system: str


class Results:
    """The series and the machines of bench/results.json, by their names."""

    def __init__(self) -> None:
        found = results.load()
        self.machines = {name: Machine(**it) for name, it in found["machines"].items()}
        self.series = {}
        for name, it in found["series"].items():
            about = {key: value for key, value in it.items() if key not in ("columns", "rows")}
            self.series[name] = Series(name, rows_of(it["columns"], it["rows"]), **about)

    def __getitem__(self, name: str) -> Series:
        return self.series[name]

    def rows(self, name: str) -> list[Row]:
        """Returns the rows of a series."""
        return self.series[name].rows

    def serve(self) -> "Serve":
        """Returns the series `serve` with its ratios."""
        return Serve(self.series["serve"])


@dataclass
class Serve:
    """The ratios of `jaeger_one` to the plain server, of times the inverse: above 1 `jaeger_one` is better."""
    series: Series

    def row(self, what: str, writers: int, held: int) -> Row:
        """Returns the row of a measurement."""
        return self.series.one(what=what, writers=writers, spans_held=held)

    def gain(self, what: str, writers: int, held: int) -> float:
        """Returns the ratio of a measurement."""
        it = self.row(what, writers, held)
        return it.jaeger_one / it.plain_server if what.startswith(ALONE) else it.plain_server / it.jaeger_one

    def is_noise(self, gain: float) -> bool:
        """Returns whether a ratio is within the noise of the series."""
        most = 1 + self.series.noise
        return 1 / most < gain < most

    def gains(self, what: str, *writers: int) -> str:
        """Returns the least and the greatest ratio over all sizes and these numbers of writers."""
        found = [self.gain(what, number, held) for number in writers for held in SIZES]
        return f"{bounds(found)}, {NOISE}" if all(map(self.is_noise, found)) else bounds(found)

    def gains_alone(self, *writers: int) -> str:
        """Returns the same of spans a second while nobody reads, over all runs that were written down."""
        runs = self.series.runs
        if not runs:
            return self.gains(ALONE, *writers)
        ratios = [ratio for of_size in runs.values() for number in writers for ratio in of_size[WRITERS.index(number)]]
        return f"{bounds(ratios, two_places)}, in {len(runs[str(SIZES[0])][0])} runs"

    def ours(self, what: str, writers: int) -> str:
        """Returns the least and the greatest figure of `jaeger_one` over all sizes."""
        return bounds([self.row(what, writers, held).jaeger_one for held in SIZES], cell)

    def in_milliseconds(self, what: str, side: str) -> str:
        """Returns the same of one of the two servers, `side`, of microseconds without a writer, as milliseconds."""
        return bounds([getattr(self.row(what, 0, held), side) / 1000 for held in SIZES], two)
