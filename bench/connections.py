#!/usr/bin/env python3
"""What open connections cost `jaeger_one serve`: senders that stay connected, silent clients, slow clients.

    bench/connections.py [--bin PATH] [--senders 1000] [--silent 10000] [--slow 1000] [--seconds 10] [--only WORD] [--save KIND]

  senders       `--senders` clients that stay connected and post a batch of 10 spans once a second each, with 4 workers: how many POSTs
                got 202, and how long one took (p50, p99)
  silent        `--silent` clients that connect and send nothing: the memory that they take, and processor time in ten seconds
  parked        `--senders` clients that each ask once and stay connected, and then five times as many: the same
  slow senders  a trace by its id beside `--slow` clients that send a body a byte a second, and alone (p50, p99)
  slow readers  a trace by its id beside `--slow` clients that have asked for an answer of 30,000 spans each and don't read it, and alone
                (p50, p99); the memory that these answers take
  full          a server with the most connections that it may have open, while others wait: processor time in ten seconds

Times are those of a client in Python on the same machine, so they include its own work. A figure of one run. Rows are kept only of a run
of all parts.
"""
import argparse
import collections
import resource
import selectors
import statistics
import sys
import time
from collections.abc import Callable
from typing import NamedTuple

from results import Record, asked_of
from servers import Client, Failed, Server, batch, check, get, head, post, post_body
import wire

ROOM = ["--batches", "1000000", "--spans", "10000000"]
IDLE = "s of a processor in ten"
ALL = "/api/traces?service=shop&limit=0"


class Percentiles(NamedTuple):
    """The middle of some times and the one that 99 in 100 don't exceed, in milliseconds."""
    p50: float
    p99: float


class Rows:
    """What is kept: times, and what is held."""

    def __init__(self, options: argparse.Namespace) -> None:
        self.times = Record(options, "connections", ["part", "what", "least", "most"])
        self.held = Record(options, "connections, memory", ["part", "connections", "what", "least", "most"])

    def time(self, part: str, what: str, value: float) -> None:
        """Keeps a time."""
        value = round(value, 2)
        self.times.row(part, what, value, value)

    def looks(self, part: str, what: str, times: list[float]) -> None:
        """Keeps p50 and p99 of some times."""
        for name, value in percentiles(times)._asdict().items():
            self.time(part, f"{what} {name}, ms", value)

    def hold(self, part: str, count: int, what: str, value: float) -> None:
        """Keeps what this number of connections holds."""
        self.held.row(part, count, what, value, value)

    def save(self) -> None:
        """Keeps the rows, if the script was asked to."""
        self.times.save()
        self.held.save()


def started(program: str, connections: int, *more: object) -> Server:
    """Starts a server of four workers that allows this number of open connections."""
    return Server("--workers", 4, "--connections", connections, *ROOM, *more, binary=program)


def ten_spans(trace: int) -> bytes:
    """Returns a request that posts ten spans of a trace."""
    return post_body(wire.batch("shop", [wire.span(trace, number, operation="op") for number in range(1, 11)]))


def percentiles(times: list[float]) -> Percentiles:
    """Returns p50 and p99 of some times."""
    ordered = sorted(times)
    return Percentiles(1000 * statistics.median(ordered), 1000 * ordered[min(len(ordered) - 1, len(ordered) * 99 // 100)])


def said(times: list[float]) -> str:
    """Returns p50 and p99 as text."""
    it = percentiles(times)
    return f"p50 {it.p50:.2f} ms, p99 {it.p99:.2f} ms of {len(times)}"


class Senders:
    """Clients that post once a second each, spread over the second."""

    def __init__(self, port: int, count: int) -> None:
        self.clients = [Client(port) for _ in range(count)]
        self.selector = selectors.DefaultSelector()
        self.sent: list[collections.deque[float]] = [collections.deque() for _ in range(count)]
        self.times: list[float] = []
        self.refused = 0
        for number, client in enumerate(self.clients):
            self.selector.register(client.socket, selectors.EVENT_READ, number)

    def post(self, number: int, trace: int) -> None:
        """Posts a trace by the client with this number."""
        self.sent[number].append(time.perf_counter())
        self.clients[number].send(ten_spans(trace))

    def take(self, number: int) -> None:
        """Takes the responses that have come to a client."""
        client = self.clients[number]
        while True:
            response = client.response()
            self.times.append(time.perf_counter() - self.sent[number].popleft())
            self.refused += response.status != 202
            if not client.input:
                return

    def hear(self, seconds: float) -> None:
        """Takes in what is answered for so long."""
        end = time.perf_counter() + seconds
        while True:
            for key, _ in self.selector.select(max(0, end - time.perf_counter())):
                self.take(key.data)
            if time.perf_counter() >= end:
                return

    def run(self, seconds: float) -> None:
        """Posts for so long, and waits for the last responses."""
        count, begin, trace = len(self.clients), time.perf_counter(), 0
        while time.perf_counter() - begin < seconds:
            self.post(trace % count, trace + 1)
            trace += 1
            self.hear(max(0, begin + trace / count - time.perf_counter()))
        end = time.perf_counter() + 10
        while self.unanswered() and time.perf_counter() < end:
            self.hear(0.1)

    def unanswered(self) -> int:
        """Returns the number of POSTs without a response."""
        return sum(map(len, self.sent))

    def close(self) -> None:
        """Closes all connections."""
        for client in self.clients:
            client.socket.close()


def senders(options: argparse.Namespace, rows: Rows) -> str:
    """Measures senders that stay connected."""
    with started(options.bin, options.senders) as server:
        work = Senders(server.port, options.senders)
        begin = server.processor()
        work.run(options.seconds)
        took = server.processor() - begin
        work.close()
        unanswered = work.unanswered()
        check(not unanswered and not work.refused, f"{unanswered} POSTs were not answered, {work.refused} not by 202")
        rows.looks("senders", "POST", work.times)
        return f"{len(work.times)} POSTs answered 202; {said(work.times)}; {1e6 * took / len(work.times):.0f} us of a processor each"


def resting(rows: Rows, part: str, server: Server, clients: list[Client], before: int) -> str:
    """Measures connections that do nothing, once all of them are open."""
    time.sleep(1)
    count, held = len(clients), server.memory() - before
    took = server.share(10) * 10
    rows.hold(part, count, "MB", round(held / 1000, 1))
    rows.hold(part, count, "bytes a connection", round(1000 * held / count))
    rows.hold(part, count, IDLE, round(took, 2))
    return f"{held / 1000:.1f} MB for {count} connections, {1000 * held / count:.0f} bytes each; {took:.2f} s of a processor in ten"


def silent(options: argparse.Namespace, rows: Rows) -> str:
    """Measures clients that send nothing."""
    with started(options.bin, options.silent + 10) as server:
        before = server.memory()
        clients = [Client(server.port) for _ in range(options.silent)]
        clients[-1].ask(get("/api/services"), 200)
        return resting(rows, "silent", server, clients, before)


def parked_clients(options: argparse.Namespace, rows: Rows, count: int) -> str:
    """Measures this number of clients that asked once."""
    with started(options.bin, count) as server:
        with server.client() as client:
            for trace in range(1, 2 * count):
                client.ask(post(trace), 202)
        before = server.memory()
        clients = [Client(server.port) for _ in range(count)]
        for client in clients:
            client.ask(get("/api/services"), 200)
        return resting(rows, "parked", server, clients, before)


def parked(options: argparse.Namespace, rows: Rows) -> str:
    """Measures clients that asked once, and then five times as many."""
    return "; ".join(parked_clients(options, rows, count) for count in (options.senders, 5 * options.senders))


def full(options: argparse.Namespace, rows: Rows) -> str:
    """Measures a server with ten connections open, for which five more wait."""
    with started(options.bin, 10) as server:
        clients = [Client(server.port) for _ in range(15)]
        for client in clients[:10]:
            client.ask(get("/api/services"), 200)
        took = server.share(10) * 10
        for client in clients:
            client.socket.close()
        rows.time("full", IDLE, took)
        return f"{took:.2f} s of a processor in ten"


def looks(server: Server, count: int = 2000) -> list[float]:
    """Returns how long a trace by its id takes, each time."""
    times = []
    with server.client() as client:
        for _ in range(count):
            begin = time.perf_counter()
            client.ask(get("/api/traces/1"), 200)
            times.append(time.perf_counter() - begin)
    return times


def beside(rows: Rows, part: str, server: Server, alone: list[float], slow: list[Client]) -> str:
    """Measures a trace by its id beside slow clients."""
    times = looks(server)
    rows.looks(part, "a trace", times)
    rows.looks(part, "alone", alone)
    return f"beside {len(slow)} {part} {said(times)}; alone {said(alone)}"


def slow_senders(options: argparse.Namespace, rows: Rows) -> str:
    """Measures a trace by its id beside clients that stop inside a body."""
    with started(options.bin, options.slow + 10, "--idle", 0) as server:
        with server.client() as client:
            client.ask(ten_spans(1), 202)
        alone = looks(server)
        body = batch(2)
        slow = [Client(server.port) for _ in range(options.slow)]
        for number, client in enumerate(slow):
            client.send(head("POST /api/traces HTTP/1.1", "Content-Type: application/x-thrift", f"Content-Length: {len(body)}") + body[:number % 50])
        for client in slow:
            client.send(body[50:51])
        return beside(rows, "slow senders", server, alone, slow)


def slow_readers(options: argparse.Namespace, rows: Rows) -> str:
    """Measures a trace by its id beside clients that don't read, and the memory of their answers."""
    with started(options.bin, options.slow + 10, "--idle", 0) as server:
        with server.client() as client:
            for trace in range(1, 3001):
                client.ask(ten_spans(trace), 202)
            text = len(client.ask(get(ALL), 200).body) / 30_000
        alone = looks(server)
        before = server.memory()
        slow = [Client(server.port, patience=60, room=4096) for _ in range(options.slow)]
        for client in slow:
            client.send(get(ALL))
        for client in slow:
            check(client.socket.recv(1), "no response began")
        held = server.memory() - before
        a_span = 1000 * held / options.slow / 30_000
        for what, value in (("MB", held / 1000), ("bytes a span of an answer", a_span), ("bytes of text a span", text)):
            rows.hold("slow readers", options.slow, what, round(value))
        return f"{beside(rows, 'slow readers', server, alone, slow)}; {held / 1000:.1f} MB, {a_span:.0f} bytes a span of an answer, of {text:.0f} of its text"


PARTS: dict[str, Callable[[argparse.Namespace, Rows], str]] = {
    "senders": senders,
    "silent": silent,
    "parked": parked,
    "slow senders": slow_senders,
    "slow readers": slow_readers,
    "full": full,
}


def main() -> None:
    """Prints a line for each part; ends with status 1 if one failed."""
    asked = asked_of(__doc__)
    asked.add_argument("--senders", type=int, default=1000, help="connections of `senders` and of `parked`")
    asked.add_argument("--silent", type=int, default=10000, help="connections of `silent`")
    asked.add_argument("--slow", type=int, default=1000, help="slow clients")
    asked.add_argument("--seconds", type=float, default=10, help="how long the senders send")
    asked.add_argument("--only", default="", help="the parts whose name has this word")
    options = asked.parse_args()
    most = resource.getrlimit(resource.RLIMIT_NOFILE)[1]
    resource.setrlimit(resource.RLIMIT_NOFILE, (most, most))
    rows, failed = Rows(options), False
    for name, part in PARTS.items():
        if options.only in name:
            try:
                print(f"{name}: {part(options, rows)}", flush=True)
            except (Failed, OSError) as fault:
                failed = True
                print(f"FAILED {name}: {fault}", flush=True)
    if not (options.only or failed):
        rows.save()
    sys.exit(failed)


if __name__ == "__main__":
    main()
