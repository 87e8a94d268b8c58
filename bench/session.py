#!/usr/bin/env python3
"""What posts and reads cost in a session, by number of spans held.

One run of `jaeger_one pipe` a size: batches of 10 spans are sent over HTTP until that many spans are
held, then each kind of question is asked in turn, and again. Every hundredth batch is of the service
`rare`, the others of `common`; a trace is the spans of one batch, the child spans of each called from
the next. What is timed is from the first byte of a group of requests to the last byte of its answers.

    bench/session.py [--bin PATH] [--sizes 1000,10000,100000] [--asks 20] [--save KIND]
"""
import random
import subprocess
import time

from decode import span
from results import Record, asked_of
from servers import piped
import wire
from wire import get, post

IN_BATCH = 10
EVERY = 100


def batch(rng: random.Random, trace: int, service: str) -> bytes:
    """Returns a batch of one trace, each span the parent of the next."""
    return wire.batch(service, [span(rng, trace, n, n - 1) for n in range(1, IN_BATCH + 1)])


class Session:
    """A run of a program that takes requests on its standard input."""
    def __init__(self, words: list[str]) -> None:
        self.run = subprocess.Popen(words, stdin=subprocess.PIPE, stdout=subprocess.PIPE, bufsize=0)
        self.stdin, self.stdout = piped(self.run.stdin), piped(self.run.stdout)
        self.left = b""

    def close(self) -> None:
        """Ends the input and waits until the program has ended."""
        self.stdin.close()
        self.run.wait()

    def line(self) -> bytes:
        """Returns the next line of the responses."""
        while b"\r\n" not in self.left:
            self.left += self.stdout.read(65536)
        line, self.left = self.left.split(b"\r\n", 1)
        return line

    def answer(self) -> tuple[int, int]:
        """Returns the status and the length of the next response."""
        status = int(self.line().split()[1])
        length = 0
        while (line := self.line()):
            if line.startswith(b"Content-Length: "):
                length = int(line[16:])
        while len(self.left) < length:
            self.left += self.stdout.read(1 << 20)
        self.left = self.left[length:]
        return status, length

    def ask(self, requests: list[bytes]) -> tuple[float, int]:
        """Returns the seconds for these requests, one after the other, and the bytes of the last answer."""
        begin = time.perf_counter()
        for request in requests:
            self.stdin.write(request)
            status, length = self.answer()
            assert status < 300, status
        return time.perf_counter() - begin, length


def measure(binary: str, size: int, asks: int, record: Record) -> None:
    """Posts this number of spans, asks each query, prints the rows and records them."""
    rng = random.Random(7)
    count = size // IN_BATCH
    posts = [post(batch(rng, n + 1, "rare" if n % EVERY == 0 else "common")) for n in range(count)]
    session = Session([binary, "pipe", "--batches", "1000000", "--spans", "10000000"])
    took, _ = session.ask(posts)
    print("%8d spans held: %9.0f posts a second, %7.2f us a span" % (size, count / took, took / size * 1e6))
    record.row("posts a second", size, round(count / took))
    first = ((count - 1) // EVERY * EVERY) + 1
    questions = [
        ("a trace by its id", "/api/traces/%x" % first),
        ("the services", "/api/services"),
        ("search, rare service, 20 traces", "/api/traces?service=rare&limit=20"),
        ("search, rare service, no operation", "/api/traces?service=rare&operation=none"),
        ("search, common service, 20 traces", "/api/traces?service=common&limit=20"),
        ("search, common service, no operation", "/api/traces?service=common&operation=none"),
        ("search, common service, no duration", "/api/traces?service=common&minDuration=900h"),
        ("search, common service, no start", "/api/traces?service=common&start=1&end=2"),
        ("search, common service, no tag", "/api/traces?service=common&tags=%7B%22none%22%3A%22x%22%7D"),
        ("dependencies", "/api/dependencies?endTs=9000000000000&lookback=9000000000000"),
    ]
    for name, target in questions:
        session.ask([get(target)])
        took, length = session.ask([get(target)] * asks)
        print("         %-36s %10.3f ms, %8d bytes" % (name, took / asks * 1e3, length))
        record.row(name, size, float(f"{took / asks * 1e3:.2g}"))
    session.close()


def main() -> None:
    """Prints what posts and queries cost by number of spans held."""
    asked = asked_of(__doc__)
    asked.add_argument("--sizes", default="1000,10000,100000", help="spans held")
    asked.add_argument("--asks", type=int, default=20, help="how often each query is asked")
    words = asked.parse_args()
    record = Record(words, "session", ["what", "spans held", "value"])
    for size in words.sizes.split(","):
        measure(words.bin, int(size), words.asks, record)
    record.save()


if __name__ == "__main__":
    main()
