#!/usr/bin/env python3
"""What twice the input costs, for shapes of input that a sender may pick.

One run of `jaeger_one pipe` a shape and size: bodies of that shape are sent over HTTP until that many spans
are held, then questions are asked whose answers grow with them. The shapes:

  traces       ordinary: 10 spans of one trace a body, which call one another across two services
  services     a new service with each body of one span
  operations   a new operation with each span
  one trace    all spans in one trace, each called by the first
  processes    all spans in one trace, each of a process of its own
  chain        all spans in one trace, each called by the one before, across two services
  one span id  all spans in one trace under one span id
  colliding    one-span traces whose ids have one hash under a table without a key

    bench/shapes.py [--bin PATH] [--size 10000] [--rounds 3] [--shapes chain,..] [--save KIND]

What is counted is the processor time of the program (/proc/PID/schedstat), the minimum of the rounds, at the size and
at twice it; `ratio` is their quotient.
"""
from collections.abc import Callable
from typing import NamedTuple

from ids import Halves, colliding
from results import Record, asked_of
from session import Session
import wire
from wire import get, post

LINKS = "/api/dependencies?endTs=9000000000000&lookback=9000000000000"


class Cost(NamedTuple):
    """The seconds of a processor that requests took, and the bytes of the last answer."""
    seconds: float
    length: int


def span(trace: Halves, number: int, parent: int, operation: str = "op") -> bytes:
    """Returns a span of a trace."""
    return wire.span(trace.high << 64 | trace.low, number, parent, operation, 1_000_000 + number)


def body(service: str, spans: list[bytes], host: str | None = None) -> bytes:
    """Returns the request that posts these spans, whose process has the host as a tag if there is one."""
    tags = [] if host is None else [wire.text_tag("host", host)]
    return post(wire.batch(service, spans, tags))


def side(n: int) -> str:
    """Returns one service of two, by turns."""
    return "a" if n % 2 else "b"


def tens(size: int, make: Callable[[int], bytes]) -> list[bytes]:
    """Returns the requests that post this number of spans, ten a batch."""
    return [body("a", [make(n) for n in range(first, first + 10)]) for first in range(1, size + 1, 10)]


ONE = Halves(0, 1)


def bodies(shape: str, size: int) -> list[bytes]:
    """Returns the requests that post this number of spans of a shape."""
    if shape == "traces":
        return [
            body(side(n // 10), [span(Halves(0, n // 20 + 1), n + i, n + i - 1 if i else 0) for i in range(10)])
            for n in range(0, size, 10)
        ]
    if shape == "services":
        return [body("service-%d" % n, [span(Halves(0, n), 1, 0)]) for n in range(1, size + 1)]
    if shape == "operations":
        return tens(size, lambda n: span(Halves(0, n // 10 + 1), n, 0, "operation-%d" % n))
    if shape == "one trace":
        return tens(size, lambda n: span(ONE, n, 0 if n == 1 else 1))
    if shape == "processes":
        return [body("a", [span(ONE, n, 0 if n == 1 else 1)], "host-%d" % n) for n in range(1, size + 1)]
    if shape == "chain":
        return [body(side(n), [span(ONE, n, n - 1)]) for n in range(1, size + 1)]
    if shape == "one span id":
        return tens(size, lambda n: span(ONE, 7, 0))
    return tens(size, lambda n: span(colliding(n), 1, 0))


def questions(shape: str) -> list[tuple[str, str]]:
    """Returns the name and the target of each query."""
    service = "service-1" if shape == "services" else "a"
    trace = colliding(1) if shape == "colliding" else ONE
    rows = [("services", "/api/services"), ("operations", "/api/operations?service=" + service)]
    rows.append(("20 traces", "/api/traces?service=%s&limit=20" % service))
    rows.append(("no such tag", "/api/traces?service=%s&tags=%%7B%%22none%%22%%3A%%22x%%22%%7D" % service))
    rows.append(("a trace", "/api/traces/%x%016x" % trace if trace.high else "/api/traces/%x" % trace.low))
    _, target = rows[-1]
    rows.append(("the trace, raw", target + "?raw=true"))
    rows.append(("dependencies", LINKS))
    return rows


class Timed(Session):
    """A session that tells what processor time it takes."""
    def spent(self) -> float:
        """Returns the seconds of processor time so far."""
        with open("/proc/%d/schedstat" % self.run.pid) as reported:
            return int(reported.read().split()[0]) / 1e9

    def cost(self, requests: list[bytes]) -> Cost:
        """Returns what these requests cost."""
        before = self.spent()
        _, length = self.ask(requests)
        return Cost(self.spent() - before, length)


def measure(binary: str, shape: str, size: int) -> dict[str, Cost]:
    """Returns what the posts and each query cost, by their names."""
    session = Timed([binary, "pipe", "--batches", "1000000", "--spans", "1000000"])
    session.ask([get("/api/services")])
    found = {"posts": session.cost(bodies(shape, size))}
    for name, target in questions(shape):
        session.ask([get(target)])
        found[name] = session.cost([get(target)])
    session.close()
    return found


def least(rounds: list[dict[str, Cost]]) -> dict[str, Cost]:
    """Returns the least cost of the rounds, by what was done."""
    return {name: Cost(min(one[name].seconds for one in rounds), it.length) for name, it in rounds[0].items()}


def main() -> None:
    """Prints what twice the input costs, of each shape."""
    asked = asked_of(__doc__)
    asked.add_argument("--size", type=int, default=10_000, help="spans, and then twice as many")
    asked.add_argument("--rounds", type=int, default=3, help="of which the minimum is printed")
    shapes = "traces,services,operations,one trace,processes,chain,one span id,colliding"
    asked.add_argument("--shapes", default=shapes, help="which shapes")
    words = asked.parse_args()
    record = Record(words, "shapes", ["shape", "what", "milliseconds", "twice of once"])
    print("%-12s %-16s %12s %12s %7s %12s" % ("shape", "what", words.size, words.size * 2, "ratio", "bytes"))
    for shape in words.shapes.split(","):
        once = least([measure(words.bin, shape, words.size) for _ in range(words.rounds)])
        twice = least([measure(words.bin, shape, words.size * 2) for _ in range(words.rounds)])
        for name, (cost, _) in once.items():
            more, length = twice[name]
            row = shape, name, cost * 1e3, more * 1e3, more / cost, length
            print("%-12s %-16s %9.3f ms %9.3f ms %7.2f %12d" % row, flush=True)
            record.row(shape, name, round(more * 1e3, 1), round(more / cost, 1))
    record.save()


if __name__ == "__main__":
    main()
