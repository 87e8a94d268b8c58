#!/usr/bin/env python3
"""What an accepted batch costs, by number of spans held.

Each size is a run of the built program, `jaeger_one get`, on that many spans in batches of 10, and asks for a
trace that is in none of them: what is timed is reading, decoding and keeping. Times are processor time of the
program, the minimum of some runs. What a trace by its id costs is shown by session.py.

    bench/store.py [--bin PATH] [--sizes 1000,10000,100000] [--runs 5] [--save KIND]
"""
import os
import random
import subprocess
import tempfile
from collections.abc import Iterable, Iterator

from decode import span
from results import Record, asked_of
import wire

IN_BATCH = 10


def batch(rng: random.Random, trace: int) -> bytes:
    """Returns a batch of spans without a parent."""
    return wire.batch("orders", [span(rng, trace, rng.getrandbits(63) | 1, 0) for _ in range(IN_BATCH)])


def lines_of(rng: random.Random, size: int) -> Iterator[str]:
    """Returns batches of `size` spans in all, each a trace of its own."""
    return (batch(rng, rng.getrandbits(62) | 1 << 62).hex() + "\n" for _ in range(size // IN_BATCH))


def seconds(words: list[str], name: str, runs: int, status: int) -> float:
    """Returns the processor time of the program, the minimum of some runs."""
    times = []
    for _ in range(runs):
        with open(name, "rb") as stdin:
            run = subprocess.Popen(words, stdin=stdin, stdout=subprocess.DEVNULL)
            _, ended, used = os.wait4(run.pid, 0)
        run.returncode = os.waitstatus_to_exitcode(ended)
        assert run.returncode == status, run.returncode
        times.append(used.ru_utime + used.ru_stime)
    return min(times)


def seconds_over(words: list[str], lines: Iterable[str], runs: int, status: int = 0) -> float:
    """Returns the same over these lines as standard input."""
    with tempfile.NamedTemporaryFile(mode="w") as file:
        file.writelines(lines)
        file.flush()
        return seconds(words, file.name, runs, status)


def main() -> None:
    """Prints a row for each number of spans held."""
    asked = asked_of(__doc__)
    asked.add_argument("--sizes", default="1000,10000,100000", help="spans held")
    asked.add_argument("--runs", type=int, default=5, help="of which the minimum is printed")
    options = asked.parse_args()
    record = Record(options, "store", ["spans held", "microseconds a span"])
    rng = random.Random(1)
    limits = ["--batches", "1000000", "--spans", "10000000"]
    print(f"{'spans':>8} {'batches':>8} {'seconds':>8} {'us a span':>10}")
    for size in [int(s) for s in options.sizes.split(",")]:
        kept = seconds_over([options.bin, "get", "ffffffffffffffff", *limits], lines_of(rng, size), options.runs, 1)
        print(f"{size:8} {size // IN_BATCH:8} {kept:8.3f} {kept / size * 1e6:10.2f}")
        record.row(size, round(kept / size * 1e6, 1))
    record.save()


if __name__ == "__main__":
    main()
