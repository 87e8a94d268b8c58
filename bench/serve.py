#!/usr/bin/env python3
"""What `jaeger_one serve` takes and answers over loopback, beside a plain scanning server (`plain_server.rs`).

    bench/serve.py [--bin PATH] [--sizes 1000,10000,100000] [--seconds 0.6] [--rounds 3] [--only ours|plain] [--itself] [--save KIND]

  spans a second    1, 2, 4 and 8 writers at full speed, each of which waits for the 202 of a batch of 10 spans
  beside readers    the same beside two readers of traces by their ids at full speed, and how long a POST takes then
  reads, paced      one reader that asks for random traces by their ids, one after the other, beside 4 writers of 25 batches
                    a second each, so that the number of spans held stays about the same
  reads, full speed the same beside 4 writers at full speed; the rows say how many spans were held at the end
  reads, alone      one reader of random traces by their ids, then one of the 20 latest traces of the one service, with nobody
                    writing: processor time of the server a request, and the median time
  processor time    of the server a span, beside the spans a second
  idle              processor time of `jaeger_one` in ten seconds after 1,000 spans, with nobody connected

A figure is the median of the rounds. `times as good` is the ratio of the two medians, of times and of memory its inverse: above 1
`jaeger_one` is better. It is followed by the lowest and the highest ratio of the rounds. With `--itself` the plain server is measured in the
place of `jaeger_one` too: what differs then is noise. Each server is started anew for each measurement, filled, measured and killed, the
two in turn. Clients and server share the cores. It ends after five minutes, and what was not measured then is `-`.
"""
import argparse
import os
import statistics
import subprocess
import sys
import tempfile
import time
import urllib.request
from typing import Any, NamedTuple

from results import Record, asked_of, compiler
from servers import Failed, Server, rust_program

LIMITS = ["--queue", "256", "--batches", "1000000", "--spans", "10000000"]
SEARCH = "/api/traces?service=orders&limit=20"
AT_MOST = 290
SERVERS = ["ours", "plain"]
NAMES = {"ours": "jaeger_one", "plain": "plain server"}
COLUMNS = ["what", "writers", "spans held", "jaeger_one", "plain server"]
MORE_IS_BETTER = {"rate", "reads", "held"}

Round = dict[str, dict[str, float]]  # the numbers of each server


class Shown(NamedTuple):
    """What a server answers: a trace by its id, and 20 traces."""
    trace: bytes
    traces: bytes


class Recorded(NamedTuple):
    """What the row of a figure is called, and the number of writers."""
    what: str
    writers: int


def first_trace() -> int:
    """Returns the id of trace 0 of load.rs."""
    mask = (1 << 64) - 1
    x = 0x9E3779B97F4A7C15
    x = (x ^ (x >> 30)) * 0xBF58476D1CE4E5B9 & mask
    x = (x ^ (x >> 27)) * 0x94D049BB133111EB & mask
    return (x ^ (x >> 31)) | 1


def started(program: str, workers: int) -> Server:
    """Starts a server with this number of workers and room for all that is measured."""
    return Server("--workers", workers, *LIMITS, binary=program)


def get(server: Server, target: str) -> bytes:
    """Returns the body of the answer to a query."""
    with urllib.request.urlopen(f"http://127.0.0.1:{server.port}{target}", timeout=10) as response:
        return response.read()


class Bench:
    """Measures servers, each started anew for each measurement, with clients of their own."""
    def __init__(self, programs: dict[str, str], load: str, seconds: float, rounds: int) -> None:
        self.programs = programs
        self.load = load
        self.seconds = seconds
        self.rounds = rounds
        self.workers: int | None = None
        self.end = time.monotonic() + AT_MOST
        self.shown: dict[str, Shown] = {}
        self.faults: list[str] = []

    def load_with(self, *words: object) -> dict[str, float]:
        """Returns what a run of the clients reports."""
        command = [self.load, *map(str, words)]
        run = subprocess.run(command, capture_output=True, timeout=60, env=dict(os.environ, RUST_BACKTRACE="0"))
        if run.returncode:
            raise OSError(run.stderr.decode(errors="replace").strip())
        reported = run.stdout.decode().split()
        return {key: float(value) for key, value in zip(reported[::2], reported[1::2])}

    def measure(self, name: str, size: int, writers: int, readers: int = 0, pace: int = 0, seconds: float | None = None,
                target: str | None = None) -> dict[str, float]:
        """Returns the numbers of one measurement, and none if there is no such server, no time is left or it failed."""
        if name not in self.programs or time.monotonic() > self.end:
            return {}
        try:
            with started(self.programs[name], self.workers or writers + readers + 4) as server:
                self.load_with("--port", server.port, "--fill", size, "--writers", 0)
                before = server.processor()
                asked = ["--target", target] if target else []
                numbers = self.load_with("--port", server.port, "--fill", 0, "--held", size, "--writers", writers, "--readers",
                                         readers, "--pace", pace, "--seconds", seconds or self.seconds, *asked)
                numbers["processor"] = 1e6 * (server.processor() - before) / max(1, numbers["reads"] or numbers["spans"])
                numbers["peak"] = server.peak() / 1000
                self.shown[name] = Shown(get(server, f"/api/traces/{first_trace():x}"), get(server, SEARCH))
        except (Failed, OSError, subprocess.TimeoutExpired) as fault:
            self.faults.append(f"{NAMES.get(name, name)}, {size} spans, {writers} writers, {readers} readers: {fault}")
            return {}
        numbers["held"] = size + numbers["spans"]
        return numbers

    def left_alone(self, seconds: float = 10) -> float:
        """Returns the seconds of a processor that the server takes while nobody is connected."""
        with started(self.programs["ours"], 8) as server:
            self.load_with("--port", server.port, "--fill", 1000, "--writers", 0)
            before = server.processor()
            time.sleep(seconds)
            return server.processor() - before

    def both(self, size: int, writers: int, **more: Any) -> list[Round]:
        """Returns the numbers of each round, of each server; each goes first in turn."""
        orders = (SERVERS if number % 2 == 0 else SERVERS[::-1] for number in range(self.rounds))
        return [{name: self.measure(name, size, writers, **more) for name in order} for order in orders]


class Table:
    """Prints the rows of a table, and records those that have a name."""

    def __init__(self, record: Record, size: int) -> None:
        self.record = record
        self.size = size

    def row(self, title: str, found: list[Round], key: str, form: str, recorded: Recorded | None = None) -> None:
        """Prints the medians of a figure, and how many times as good ours is; `recorded` names the row if it is kept."""
        ours, plain = (median_of([each[name][key] for each in found if key in each[name]]) for name in SERVERS)
        ratio = "-"
        if ours and plain:
            ratios = [times_as_good(key, each["ours"][key], each["plain"][key]) for each in found if each["ours"].get(key) and each["plain"].get(key)]
            ratio = f"{times_as_good(key, ours, plain):.2f} ({min(ratios):.2f} to {max(ratios):.2f})" if ratios else "-"
        cells = ["-" if it is None else format(it, form) for it in (ours, plain)]
        print(f"{'':9} {title:58} {cells[0]:>12} {cells[1]:>13}   {ratio}", flush=True)
        if recorded:
            self.record.row(*recorded, self.size, *(None if it is None else rounded(it) for it in (ours, plain)))


def median_of(values: list[float]) -> float | None:
    """Returns the median, or None of no values."""
    return statistics.median(values) if values else None


def rounded(value: float) -> float:
    """Returns a figure with three significant digits."""
    value = float(f"{value:.3g}")
    return int(value) if value >= 100 else value


def times_as_good(key: str, ours: float, plain: float) -> float:
    """Returns the ratio of two figures, of those of which less is better the inverse."""
    return ours / plain if key in MORE_IS_BETTER else plain / ours


def table(bench: Bench, sizes: list[int], record: Record) -> None:
    """Prints the rows of each number of spans held."""
    print(f"{'held':>9} {'':58} {NAMES['ours']:>12} {NAMES['plain']:>13}   times as good (rounds)")
    for size in sizes:
        print(f"{size:9,}", flush=True)
        rows = Table(record, size)
        written_alone(bench, size, rows)
        beside_readers(bench, size, rows)
        read_alone(bench, size, rows)
        read_beside(bench, size, rows)


def written_alone(bench: Bench, size: int, rows: Table) -> None:
    """Prints the rows of writers while nobody reads."""
    for writers in (1, 2, 4, 8):
        found = bench.both(size, writers)
        rows.row(f"spans a second, writers: {writers}", found, "rate", ",.0f", Recorded("spans a second", writers))
        rows.row("   processor time a span, us", found, "processor", ".2f", Recorded("processor time a span, microseconds", writers))


def beside_readers(bench: Bench, size: int, rows: Table) -> None:
    """Prints the rows of writers beside two readers."""
    for writers in (1, 2, 4, 8):
        found = bench.both(size, writers, readers=2)
        named = Recorded("spans a second beside two readers", writers)
        rows.row(f"spans a second beside two readers of traces, writers: {writers}", found, "rate", ",.0f", named)
        rows.row("   a POST: p99, ms", found, "posts_p99", ".3f", Recorded("a POST beside two readers, p99, ms", writers))


def read_alone(bench: Bench, size: int, rows: Table) -> None:
    """Prints the rows of a reader while nobody writes."""
    for title, target in (("a trace by its id", None), ("20 traces of the service", SEARCH)):
        found = bench.both(size, 0, readers=1, target=target, seconds=bench.seconds)
        name = f"{title}, nobody writing: processor time, microseconds"
        rows.row(f"{title}, nobody writing: processor time, us", found, "processor", ",.0f", Recorded(name, 0))
        rows.row("   p50, ms", found, "p50", ".3f")


def read_beside(bench: Bench, size: int, rows: Table) -> None:
    """Prints the rows of a reader beside four writers."""
    for title, pace in (("paced", 25), ("at full speed", 0)):
        found = bench.both(size, 4, readers=1, pace=pace, seconds=2 * bench.seconds)
        name = f"a trace by its id beside 4 writers {title}"
        rows.row(f"{name}: p50, ms", found, "p50", ".3f", Recorded(f"{name}: p50, ms", 4))
        rows.row("   p99, ms", found, "p99", ".3f", Recorded(f"{name}: p99, ms", 4))
        rows.row("   reads", found, "reads", ",.0f")
        written = None if pace else Recorded("spans a second, written beside one reader at full speed", 4)
        rows.row("   spans a second, written beside", found, "rate", ",.0f", written)
        rows.row("   spans held at the end", found, "held", ",.0f")
        rows.row("   peak memory, MB", found, "peak", ",.0f")


def programs_of(folder: str, options: argparse.Namespace) -> dict[str, str]:
    """Returns the servers that are measured."""
    programs = {"ours": options.bin, "plain": rust_program(folder, "bench/plain_server.rs")}
    if options.itself:
        programs["ours"] = programs["plain"]
        NAMES["ours"] = "the same"
    if options.only:
        programs = {options.only: programs[options.only]}
    if "ours" in programs and not os.path.exists(programs["ours"]):
        print(f"{options.bin} is not there, so the plain server stands alone")
        del programs["ours"]
    return programs


def main() -> None:
    """Prints the table of both servers; ends with status 1 if a measurement failed."""
    asked = asked_of(__doc__)
    asked.add_argument("--sizes", default="1000,10000,100000", help="spans held")
    asked.add_argument("--seconds", type=float, default=0.6, help="of each writing; a reading takes twice as long")
    asked.add_argument("--rounds", type=int, default=3, help="of which the medians are printed")
    asked.add_argument("--only", choices=SERVERS, help="one of the two servers")
    asked.add_argument("--itself", action="store_true", help="measure the plain server against itself, which shows the noise")
    options = asked.parse_args()
    record = Record(options, "serve, itself" if options.itself else "serve", COLUMNS, peers=f"{compiler('rustc')} -O")
    with tempfile.TemporaryDirectory() as folder:
        programs = programs_of(folder, options)
        cores = len(os.sched_getaffinity(0))
        print(f"{cores} cores, load {os.getloadavg()[0]:.1f} at the start; batches of 10 spans, 8 tags each")
        bench = Bench(programs, rust_program(folder, "bench/load.rs"), options.seconds, options.rounds)
        table(bench, [int(size) for size in options.sizes.split(",")], record)
        if "ours" in programs and not options.itself:
            print(f"Idle for ten seconds: {bench.left_alone():.2f} s of a processor")
    if len(bench.shown) == 2:
        ours, plain = bench.shown["ours"], bench.shown["plain"]
        same = "the same bytes" if ours.trace == plain.trace else "NOT the same"
        print(f"One trace as both answer it: {same}, {len(ours.trace)} and {len(plain.trace)} bytes; 20 traces: {len(ours.traces)} and {len(plain.traces)}")
    for fault in bench.faults:
        print("FAILED", fault)
    if not bench.faults:
        record.save()
    sys.exit(1 if bench.faults else 0)


if __name__ == "__main__":
    main()
