#!/usr/bin/env python3
"""What a trace limit costs, by number of traces held.

Each size is a run of the built program, `jaeger_one play`, on a script that submits that many traces, ten spans of
ten traces to a batch; then the same followed by limits of 10 and of none in turn. The first limit hides all traces
but ten, and the others have nothing to do. Times are processor time of the program, the minimum of the runs.

    bench/limits.py [--bin PATH] [--sizes 1000,10000,100000] [--limits 100000] [--runs 5] [--save KIND]
"""
import random
from collections.abc import Iterator

from decode import span
from results import Record, asked_of
from store import IN_BATCH, seconds_over
import wire


def batch(rng: random.Random) -> bytes:
    """Returns ten spans, each of a trace of its own."""
    return wire.batch("orders", [span(rng, rng.getrandbits(62) | 1 << 62, rng.getrandbits(63) | 1, 0) for _ in range(IN_BATCH)])


def script(size: int, limits: int) -> Iterator[str]:
    """Yields the lines that submit `size` traces, then `limits` limits."""
    rng = random.Random(1)
    for _ in range(size // IN_BATCH):
        yield "put 0 " + batch(rng).hex() + "\ntake\n"
    for before in range(limits):
        yield f"limit 0 {10 if before % 2 == 0 else 0}\ntake\n"
    yield "publish\nenter 0\nread 0 /api/services\n"


def run(program: str, size: int, limits: int, runs: int) -> float:
    """Returns the seconds of the script with these numbers of traces and of limits."""
    words = [program, "play", "--batches", "1000000", "--spans", "10000000"]
    return seconds_over(words, script(size, limits), runs)


def main() -> None:
    """Prints a row for each number of traces held."""
    asked = asked_of(__doc__)
    asked.add_argument("--sizes", default="1000,10000,100000", help="traces held")
    asked.add_argument("--limits", type=int, default=100_000, help="how many limits the script has")
    asked.add_argument("--runs", type=int, default=5, help="of which the minimum is taken")
    options = asked.parse_args()
    record = Record(options, "limits", ["traces held", "microseconds a limit"])
    print(f"{'traces':>8} {'seconds':>8} {'with the first limit':>21} {'with all':>9} {'us a limit':>11}")
    for size in [int(s) for s in options.sizes.split(",")]:
        without = run(options.bin, size, 0, options.runs)
        one = run(options.bin, size, 1, options.runs)
        all_of_them = run(options.bin, size, options.limits, options.runs)
        each = (all_of_them - one) / (options.limits - 1) * 1e6
        print(f"{size:>8} {without:>8.3f} {one:>21.3f} {all_of_them:>9.3f} {each:>11.2f}")
        record.row(size, round(each, 1))
    record.save()


if __name__ == "__main__":
    main()
