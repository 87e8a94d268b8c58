#!/usr/bin/env python3
"""Whether a sender of ids can make an arrival costly.

Each measurement is one run of `jaeger_one pipe` that is sent one body of one-span traces, whose ids are of one
kind. What is timed is from the first byte of the request to the last byte of its answer. The kinds:

  random     any ids
  counted    1, 2, 3 and so on
  one half   ids that differ in their upper half alone
  colliding  ids that all have one hash under `std::collections::HashMap` of the kit, which has no key

    bench/ids.py [--bin PATH] [--traces 20000] [--rounds 3] [--save KIND]

The column `of random` is the ratio of the best times.
"""
import random
from typing import NamedTuple

from results import Record, asked_of
from session import Session
import wire

MASK = (1 << 64) - 1
SEED = 0x243F6A8885A308D3
MULTIPLIER = 0x9E3779B97F4A7C15


class Halves(NamedTuple):
    """An id of a trace, in its two halves."""
    high: int
    low: int


def folded(a: int, b: int) -> int:
    """Returns both halves of a product, each bit of one with that of the other."""
    product = a * b
    return (product & MASK) ^ (product >> 64)


def colliding(n: int) -> Halves:
    """Returns an id whose hash without a key is that of each other such id: its lower half undoes what its upper half does."""
    return Halves(n, folded(SEED ^ n, MULTIPLIER ^ 16) ^ 0x5555)


def ids_of(kind: str, count: int) -> list[Halves]:
    """Returns this number of ids of a kind."""
    rng = random.Random(7)
    if kind == "random":
        return [Halves(rng.getrandbits(64), rng.getrandbits(64)) for _ in range(count)]
    if kind == "counted":
        return [Halves(0, n + 1) for n in range(count)]
    if kind == "one half":
        return [Halves(n + 1, 1) for n in range(count)]
    return [colliding(n + 1) for n in range(count)]


def body(ids: list[Halves]) -> bytes:
    """Returns a batch that has a trace of one span for each id."""
    return wire.batch("a", [wire.span(it.high << 64 | it.low, 2) for it in ids])


def measure(binary: str, sent: bytes) -> float:
    """Returns the seconds that a new session takes for this body."""
    session = Session([binary, "pipe"])
    took, _ = session.ask([wire.post(sent)])
    session.close()
    return took


def main() -> None:
    """Prints a row for each kind of ids."""
    asked = asked_of(__doc__)
    asked.add_argument("--traces", type=int, default=20_000, help="in the body")
    asked.add_argument("--rounds", type=int, default=3, help="of which the best is printed")
    words = asked.parse_args()
    kinds = ["random", "counted", "one half", "colliding"]
    bodies = {kind: body(ids_of(kind, words.traces)) for kind in kinds}
    best = {kind: min(measure(words.bin, bodies[kind]) for _ in range(words.rounds)) for kind in kinds}
    print("%d traces of one span in a body of %d bytes" % (words.traces, len(bodies["random"])))
    record = Record(words, "ids", ["ids", "ms", "of random"])
    for kind in kinds:
        print("%-10s %8.1f ms, %6.2f of random" % (kind, best[kind] * 1e3, best[kind] / best["random"]))
        record.row(kind, round(best[kind] * 1e3, 1), round(best[kind] / best["random"], 2))
    record.save()


if __name__ == "__main__":
    main()
