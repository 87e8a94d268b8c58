#!/usr/bin/env python3
"""What a batch with a seqNo costs beside one without, by how many are sent.

Each row is a run of the built program, `jaeger_one play`, on a script that submits that number of batches of one span:

    new numbers     one process, each batch with the next number
    one number      one number, processes whose 17 tags are the text `1` or the number 1, each another choice of these
    again           one batch, sent again and again

once with the numbers and once without them. With numbers, 'again' stores one batch. Times are processor time of the
program, the minimum of the runs, less those of a script in which nothing is submitted.

    bench/resent.py [--bin PATH] [--sizes 1000,10000,100000] [--runs 5] [--save KIND]
"""
from collections.abc import Callable, Iterator
from typing import NamedTuple

from heavy import span
from results import Record, asked_of
from store import seconds_over
import wire
from wire import field, integer, long, text, text_tag

CHOICES = 17


def tag(key: str, is_number: int) -> bytes:
    """Returns a tag with the number 1, or with the text `1`."""
    if is_number:
        return field(11, 1) + text(key) + integer(2, 3) + long(6, 1) + b"\0"
    return text_tag(key, "1")


def batch(choice: int, number: int | None) -> str:
    """Returns one span of a process with these kinds of tags, under the number if there is one."""
    tags = [tag(f"k{n}", choice >> n & 1) for n in range(CHOICES)]
    return wire.batch("orders", [span(1)], tags, number).hex()


class Sent(NamedTuple):
    """What a batch has: the kinds of its tags, and its number."""
    choice: int
    number: int


WAYS: dict[str, Callable[[int], Sent]] = {
    "new numbers": lambda n: Sent(0, n),
    "one number": lambda n: Sent(n, 1),
    "again": lambda n: Sent(0, 1),
}


def script(way: str, size: int, is_numbered: bool) -> Iterator[str]:
    """Yields the lines that submit this number of batches, with their numbers or without."""
    for sent in range(size):
        it = WAYS[way](sent)
        yield f"put 0 {batch(it.choice, it.number if is_numbered else None)}\ntake\n"
    yield "publish\n"


def run(program: str, way: str, size: int, is_numbered: bool, runs: int) -> float:
    """Returns the seconds of such a script."""
    words = [program, "play", "--batches", "200000", "--spans", "200000"]
    return seconds_over(words, script(way, size, is_numbered), runs)


def main() -> None:
    """Prints a row for each way and each number of batches."""
    asked = asked_of(__doc__)
    asked.add_argument("--sizes", default="1000,10000,100000", help="batches submitted, 131,072 at most")
    asked.add_argument("--runs", type=int, default=5, help="of which the minimum is taken")
    options = asked.parse_args()
    record = Record(options, "resent", ["what", "batches", "microseconds a batch more"])
    empty = run(options.bin, "again", 0, False, options.runs)
    print(f"{'':>12} {'batches':>8} {'without':>8} {'with':>8} {'us a batch more':>16}")
    for way in WAYS:
        for size in [int(s) for s in options.sizes.split(",")]:
            without = run(options.bin, way, size, False, options.runs) - empty
            numbered = run(options.bin, way, size, True, options.runs) - empty
            more = (numbered - without) / size * 1e6
            print(f"{way:>12} {size:>8} {without:>8.3f} {numbered:>8.3f} {more:>16.2f}")
            record.row(way, size, round(more, 1))
    record.save()


if __name__ == "__main__":
    main()
