#!/usr/bin/env python3
"""Makes the tables and plots of the pages from bench/results.json.

    bench/tables.py            writes them into the pages
    bench/tables.py --check    writes nothing, prints what differs, and exits with status 1 if something does

A table is the text between `<!-- results: NAME -->` and `<!-- end of results -->`, NAME being a function of table_rows.py or
glance.py. Plots are in bench/plots/.

A comparison is printed as a ratio, above 1 if `jaeger_one` is better: 2 is twice the rate, or half of the time or
memory. A difference that is no larger than the series' `noise` is printed as such. If the series `serve` has `runs`, its
ratios of spans a second over several runs by spans held, writers and run, their range is printed instead. Both are written
by hand.
"""
import os
import re
import sys
from typing import Callable, Iterator

import glance
import results
import table_rows
from plots import Line, Marks, Point, plot
from series import ALONE, BESIDE, SIZES, WRITERS, Results
from table_text import day

PAGES = ["README.md", "docs/benchmarks.md", "bench/figures.md"]
BLOCK = re.compile(r"(<!-- results: (\w+) -->\n).*?(<!-- end of results -->)", re.S)
TABLES = {it.__name__: it for it in (glance.machines, glance.glance_beside, glance.glance_alone, glance.speed)}
TABLES |= {name: getattr(table_rows, name) for name in (
    "decode compare store session searches searches_load shapes heavy held held_at_once held_answers ids limits resent memory memory_processes memory_most "
    "copies serve serve_itself grown connections connections_memory gate gate_by_crate").split()}


def below(found: Results, name: str) -> str:
    """Returns what stands below a plot of this series."""
    it = found[name]
    return f"{it.command}; {day(it.date)}, commit {it.commit or 'not written down'}, machine {it.machine}"


def writers_plot(found: Results) -> str:
    """Returns the plot of spans a second by number of writers."""
    serve, held = found.serve(), SIZES[-1]
    drawn = []
    for what, told, dashed in ((ALONE, "nobody reading", False), (BESIDE, "beside two readers", True)):
        rows = [serve.row(what, number, held) for number in WRITERS]
        drawn.append(Line(f"jaeger_one, {told}", [Point(it.writers, it.jaeger_one) for it in rows], 0, dashed))
        drawn.append(Line(f"plain server, {told}", [Point(it.writers, it.plain_server) for it in rows], 1, dashed))
    marks = Marks([0, 200_000, 400_000, 600_000, 800_000, 1_000_000], "spans a second", is_log=False)
    return plot(f"Spans a second that a server takes, {held:,} spans held", below(found, "serve"), Marks([*WRITERS], "writers"), marks, drawn)


def queries_plot(found: Results) -> str:
    """Returns the plot of the times of queries by number of spans held."""
    names = ["a trace by its id", "search, rare service, 20 traces", "search, common service, 20 traces", "search, common service, no tag", "dependencies"]
    sizes = [1000, 10_000, 100_000]
    drawn = []
    for number, name in enumerate(names):
        points = [Point(size, found["session"].one(what=name, spans_held=size).value) for size in sizes]
        drawn.append(Line(name.removeprefix("search, "), points, number))
    return plot("How long a query takes", below(found, "session"), Marks([*sizes], "spans held"), Marks([0.01, 0.1, 1, 10, 100], "ms"), drawn)


PLOTS: dict[str, Callable[[Results], str]] = {"bench/plots/writers.svg": writers_plot, "bench/plots/queries.svg": queries_plot}


def made(found: Results, text: str) -> str:
    """Returns a page with its tables as they should be."""
    return BLOCK.sub(lambda it: it[1] + "\n".join(TABLES[it[2]](found)) + "\n" + it[3], text)


def read(path: str) -> str:
    """Returns the text of a file of the repository; none if it isn't there."""
    try:
        with open(os.path.join(results.ROOT, path), encoding="utf-8") as file:
            return file.read()
    except FileNotFoundError:
        return ""


def wanted(found: Results) -> Iterator[tuple[str, str]]:
    """Yields each file with the text that it should have."""
    for path in PAGES:
        yield path, made(found, read(path))
    for path, drawn in PLOTS.items():
        yield path, drawn(found)


def write(path: str, text: str) -> None:
    """Writes a file of the repository."""
    there = os.path.join(results.ROOT, path)
    os.makedirs(os.path.dirname(there), exist_ok=True)
    with open(there, "w", encoding="utf-8") as file:
        file.write(text)


def main() -> int:
    """Writes the tables and plots, or prints what differs."""
    asked = results.crates.asked_of(__doc__, None)
    asked.add_argument("--check", action="store_true", help="write nothing, and say what differs")
    options = asked.parse_args()
    try:
        texts = list(wanted(Results()))
    except KeyError as fault:
        print(f"a page or bench/results.json lacks what a table needs: {fault.args[0]}")
        return 1
    differing = [(path, text) for path, text in texts if read(path) != text]
    for path, text in differing:
        if options.check:
            print(f"{path} isn't what bench/tables.py makes of bench/results.json")
        else:
            write(path, text)
    faults = len(differing) if options.check else 0
    print(f"{len(TABLES)} tables, {len(PLOTS)} plots, {faults} faults")
    return 1 if faults else 0


if __name__ == "__main__":
    sys.exit(main())
