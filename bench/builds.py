#!/usr/bin/env python3
"""Whether one build of `jaeger_one` serves writers slower than another: both in turn, many times, on one machine.

    bench/builds.py OLD NEW [--writers 1,2,4,8] [--pairs 30] [--seconds 0.6] [--workers N] [--save KIND]

For each number of writers at full speed, as in serve.py: the spans a second that each build takes, and the ratio of NEW to OLD, in a second
and in a CPU second of the server: above 1 NEW is better. A ratio is the median of the pairs' ratios, followed by its 95 % bootstrap interval.
Each server has four workers more than writers, or the number that `--workers` gives.
"""
import random
import statistics
import tempfile
from collections.abc import Iterator
from typing import NamedTuple

from results import Record, asked_of
from serve import Bench
from servers import rust_program

HELD = 1000
DRAWS = 2000
COLUMNS = ["writers", "old", "new", "times as many", "times as many, least", "times as many, most", "for a second of a processor",
           "for a second of a processor, least", "for a second of a processor, most"]


class Interval(NamedTuple):
    """A median, and the interval in which it lies."""
    median: float
    least: float
    most: float

    def __str__(self) -> str:
        return f"{self.median:.2f} ({self.least:.2f} to {self.most:.2f})"


def within(ratios: list[float]) -> Interval:
    """Returns the median, and the ends of its interval."""
    draw = random.Random(1)
    medians = sorted(statistics.median(draw.choices(ratios, k=len(ratios))) for _ in range(DRAWS))
    return Interval(*(round(it, 2) for it in (statistics.median(ratios), medians[DRAWS // 40], medians[-DRAWS // 40])))


def pairs(bench: Bench, writers: int, count: int) -> Iterator[dict[str, dict[str, float]]]:
    """Yields the numbers of both builds, each pair in the other order than the one before it."""
    for number in range(count):
        order = ("old", "new") if number % 2 == 0 else ("new", "old")
        yield {name: bench.measure(name, HELD, writers) for name in order}


def compare(bench: Bench, writers: int, count: int, record: Record) -> None:
    """Measures both builds with this number of writers, prints the row and records it."""
    found = [pair for pair in pairs(bench, writers, count) if all(pair.values())]
    rates = {name: statistics.median(pair[name]["rate"] for pair in found) for name in ("old", "new")}
    faster = within([pair["new"]["rate"] / pair["old"]["rate"] for pair in found])
    thriftier = within([pair["old"]["processor"] / pair["new"]["processor"] for pair in found])
    print(f"{writers} writers: {rates['old']:,.0f} and {rates['new']:,.0f} spans a second, {faster} times as many; for a second of a processor "
          f"{thriftier}; {len(found)} pairs", flush=True)
    record.row(writers, round(rates["old"]), round(rates["new"]), *faster, *thriftier)


def main() -> None:
    """Measures both builds and prints a row for each number of writers."""
    asked = asked_of(__doc__, None)
    asked.add_argument("old", help="a program")
    asked.add_argument("new", help="a program")
    asked.add_argument("--writers", default="1,2,4,8", help="numbers of writers")
    asked.add_argument("--pairs", type=int, default=30, help="how often both are measured")
    asked.add_argument("--seconds", type=float, default=0.6, help="of each measurement")
    asked.add_argument("--workers", type=int, help="of each server")
    options = asked.parse_args()
    record = Record(options, "builds", COLUMNS, builds=f"old {options.old}, new {options.new}")
    with tempfile.TemporaryDirectory() as folder:
        bench = Bench({"old": options.old, "new": options.new}, rust_program(folder, "bench/load.rs"), options.seconds, 1)
        bench.end = float("inf")
        bench.workers = options.workers
        for writers in map(int, options.writers.split(",")):
            compare(bench, writers, options.pairs, record)
    if not bench.faults:
        record.save()
    for fault in bench.faults:
        print("FAILED", fault)


if __name__ == "__main__":
    main()
