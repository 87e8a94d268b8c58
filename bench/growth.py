#!/usr/bin/env python3
"""The longest POST while a server grows, beside a plain server that keeps its spans in one list.

    bench/growth.py [--bin PATH] [--sizes 1000000,10000000] [--rounds 3] [--save KIND]

Four clients store spans in batches of 10 until a server holds as many as a size, each waiting for its 202 before it sends the
next batch. What is printed is the longest POST of the four, and the seconds that it took: the minimum of the rounds of the longest, since
other work of the machine makes a POST longer too, and the median of the seconds.

Then one client stores as many in another server, and the most processor time that the server takes during a POST is printed, the minimum of the
rounds: it has what a list that is copied would take, and doesn't grow while a thread waits for a processor.
"""
import os
import statistics
import subprocess
import tempfile
from collections.abc import Callable
from typing import NamedTuple

from results import Record, asked_of
from serve import NAMES, SERVERS, started
from servers import Failed, rust_program

COLUMNS = ["what", "spans stored", "jaeger_one", "plain server"]
WORKERS = 8


class Grown(NamedTuple):
    """The milliseconds of the longest POST, the most of processor time in a POST, and the seconds of all."""
    longest: float
    most_used: float
    seconds: float


def filled(program: str, load: str, size: int, counts: bool) -> dict[str, float]:
    """Returns what the clients report who fill a server; with `counts` one client, and the server's processor time too."""
    with started(program, WORKERS) as server:
        command = [load, "--port", str(server.port), "--fill", str(size), "--writers", "0"]
        command += ["--pid", str(server.run.pid)] if counts else []
        run = subprocess.run(command, capture_output=True, timeout=600, check=True)
        reported = run.stdout.decode().split()
        return {key: float(value) for key, value in zip(reported[::2], reported[1::2])}


def grown(program: str, load: str, size: int) -> Grown:
    """Returns what it costs to fill a server."""
    numbers = filled(program, load, size, counts=False)
    return Grown(numbers["fill_longest"], filled(program, load, size, counts=True)["fill_most_used"], numbers["fill_seconds"])


def rounds_of(programs: dict[str, str], load: str, size: int, count: int) -> list[dict[str, Grown]]:
    """Returns what each round measured of both servers, and prints why one failed."""
    rounds = []
    for _ in range(count):
        try:
            rounds.append({name: grown(programs[name], load, size) for name in SERVERS})
        except (Failed, OSError, subprocess.SubprocessError) as fault:
            print(f"{size:,} spans: {fault}")
    return rounds


def show(size: int, rounds: list[dict[str, Grown]], record: Record) -> None:
    """Prints the row of a size and records it."""
    def of_both(of: Callable[[list[float]], float], field: str) -> list[float]:
        return [of([getattr(it[name], field) for it in rounds]) for name in SERVERS]

    longest, most_used, seconds = of_both(min, "longest"), of_both(min, "most_used"), of_both(statistics.median, "seconds")
    each = {NAMES[name]: [(round(it[name].longest, 1), round(it[name].most_used, 1)) for it in rounds] for name in SERVERS}
    print(f"{size:,} spans: longest POST {longest[0]:.1f} ms, {longest[1]:.1f} of the plain server; processor time in a POST at most "
          f"{most_used[0]:.1f} ms, {most_used[1]:.1f}; in {seconds[0]:.1f} s, {seconds[1]:.1f}; rounds {each}", flush=True)
    record.row("the longest POST, ms", size, *(round(it, 1) for it in longest))
    record.row("the most processor time in a POST, ms", size, *(round(it, 1) for it in most_used))
    record.row("seconds", size, *(round(it, 1) for it in seconds))


def main() -> None:
    """Prints a row for each number of spans stored."""
    asked = asked_of(__doc__)
    asked.add_argument("--sizes", default="1000000,10000000", help="spans stored, 10,000,000 at most")
    asked.add_argument("--rounds", type=int, default=3)
    options = asked.parse_args()
    record = Record(options, "growth", COLUMNS, peers="rustc -O")
    with tempfile.TemporaryDirectory() as folder:
        programs = {"ours": options.bin, "plain": rust_program(folder, "bench/plain_server.rs")}
        load = rust_program(folder, "bench/load.rs")
        print(f"{len(os.sched_getaffinity(0))} cores, load {os.getloadavg()[0]:.1f} at the start")
        for size in map(int, options.sizes.split(",")):
            rounds = rounds_of(programs, load, size, options.rounds)
            if rounds:
                show(size, rounds, record)
    record.save()


if __name__ == "__main__":
    main()
