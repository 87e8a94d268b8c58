#!/usr/bin/env python3
"""How long a POST waits beside a query: a query is asked inside a copy of the store, and a publish waits until it has left.

For each shape a server is filled, and one connection posts a span every few milliseconds while another asks the query, one after the
other. Printed are the longest and the middle time of a POST while nobody asks and beside the query, and of the query itself.
The first shapes are bodies that a sender may pick so that two parts of them multiply; of these the whole and half of the parts are
posted, and sizes are the megabytes posted. The last ones are plain stores of each size of `--spans`, filled once for all their queries.

With `--at-once` nothing is posted. Eight connections ask a query at once, as often as `--asks` says, and printed is by how much the
server's memory rises above what it held before: the most of all rounds, and what that is for each byte sent. Of a hundred clients that
don't read, it is also what is held for each of them once all answers have begun.

With `--answers` nothing is posted either. Printed is what the memory of a server rises for each span of an answer, while it is made and until its
client has read it: four connections ask for the same answer at once, and eight in a server of its own. What eight take more than four, for each span
of four answers, doesn't count what a server keeps free of earlier requests, and is judged.

    bench/held.py [--bin PATH] [--parts 1000] [--spans 100000,1000000,10000000] [--asks 5] [--at-once | --answers] [--save KIND] [SHAPE..]

A row is over its bound if its longest POST beside the query takes more than 20 ms, and 100 ms more for each million spans above 100,000, and also
more than twice the longest POST while nobody asks: if POSTs are about as slow without the query, the machine is slow and not the query.
Such a row is measured a second time and counts only if it is over it again: a query that delays POSTs delays them every time.
The latest traces of a service are over theirs if their middle time at 10,000,000 spans is more than 3 times that at 100,000. With `--at-once` a
row is over its bound if the eight connections together take more than 10 bytes for each byte sent; with a few parts fixed costs pass that. With
`--answers` it is if an answer takes more than 100 bytes a span. The last line is `0 over their bounds`, or the number of such rows after a line
for each; the exit status is 1 then.
"""
import argparse
import contextlib
import itertools
import statistics
import sys
import threading
import time
from collections.abc import Callable, Iterable, Iterator, Sequence
from typing import Any, NamedTuple

from results import Record, asked_of
from servers import Client, Failed, Server, check, get, post, post_body
import wire

# The largest store there is. Of 10,000,000 spans a hundredth isn't filled in: a full store refuses the POSTs.
MOST_SPANS, FREE = 10_000_000, 100_000
ROOM = ["--batches", "1000000", "--spans", str(MOST_SPANS)]
WORKERS = 4
IN_BATCH, AT_ONCE = 1000, 20
END = 1 << 60

# The bars: milliseconds for a POST beside a query, and how many times as long a query may take in the larger of two stores.
POST_BAR, POST_BAR_FOR_A_MILLION = 20, 100
LATEST_BAR, LATEST_SIZES = 3, (100_000, 10_000_000)
# The connections that ask at once, each of which may have a worker, and the bytes of memory that all may take for each byte sent; and the
# clients that don't read.
ASKING, SENT_BAR = 8, 10
SLOW = 100
# The bytes of memory that an answer may take for each of its spans, the numbers of answers at once, and the spans of an answer.
SPAN_BAR, ANSWERS, ANSWERED_SPANS = 100, (4, ASKING), (100_000,)
# A short query is asked more often than told, so that some POSTs fall beside it.
ASKED_FOR = 0.5
COLUMNS = ["shape", "size", "unit", "POST alone, ms, longest", "POST alone, ms, middle", "beside, ms, longest", "beside, ms, middle",
           "query, ms, longest", "query, ms, middle"]
COLUMNS_ANSWERS = ["answer", "spans", *(f"bytes a span, {count} at once" for count in ANSWERS), "bytes a span, of the others"]
COLUMNS_AT_ONCE = ["shape", "connections", "MB in", "MB before", "MB more at most", "of bytes sent", "MB held for a slow reader"]

Chosen = Callable[[str], bool]  # whether a shape is asked for


class Shape(NamedTuple):
    """The words of a server, the bodies that fill it, and the query."""
    words: Sequence[object]
    bodies: list[bytes]
    query: bytes


def tag(key: str, value: str = "") -> bytes:
    """Returns a tag with a text."""
    return wire.text_tag(key, value)


def binary_tag(key: str, data: bytes) -> bytes:
    """Returns a binary tag."""
    return wire.field(wire.TEXT, 1) + wire.text(key) + wire.integer(2, 4) + wire.field(wire.TEXT, 7) + wire.binary(data) + b"\0"


def a_trace_each(count: int, first: int = 1) -> list[bytes]:
    """Returns spans, each of a trace of its own."""
    return [wire.span(first + k, 1, start=1_600_000_000_000_000 + k) for k in range(count)]


def search(more: str = "", service: str = "a") -> bytes:
    """Returns a search by a service."""
    return get(f"/api/traces?service={service}&start=1&end={END}{more}")


DEPENDENCIES = get("/api/dependencies?endTs=1700000000000&lookback=1700000000000")


def many_tags(count: int) -> list[bytes]:
    """Returns this number of tags and one with a text."""
    return [tag(f"k{k}") for k in range(count)] + [tag("k", "v")]


def found_by_process_tags(n: int, limit: int) -> Shape:
    """Returns traces whose process has many tags, found by one of them."""
    return Shape([], [wire.batch("a", a_trace_each(n), many_tags(3 * n))], search(f"&tag=k:v&limit={limit}"))


def found_by_a_binary(n: int) -> Shape:
    """Returns traces whose process has a long binary tag."""
    return Shape([], [wire.batch("a", a_trace_each(n), [binary_tag("b", bytes(200 * n))])], search("&tag=b:x&limit=0"))


def requested_tags(n: int) -> Shape:
    """Returns entries with a tag, and a search by many."""
    bodies = [wire.batch("a", [wire.span(k, 1)], [tag("", "")]) for k in range(1, 20 * n)]
    return Shape([], bodies, search("&tag=:" * 1300 + "&tag=x:y"))


def hidden_matches(n: int) -> Shape:
    """Returns traces that matched, left, and were opened anew by a batch without the tag."""
    old = wire.batch("a", a_trace_each(n), [tag("k", "v")])
    away = wire.batch("z", a_trace_each(n, 10_000_000))
    new = wire.batch("a", a_trace_each(n), many_tags(3 * n)[:-1])
    return Shape(["--traces", n], [old, away, new], search("&tag=k:v&limit=1"))


def equal_processes(n: int) -> Shape:
    """Returns batches of the same traces with equal processes."""
    bodies = [wire.batch("a", a_trace_each(n), many_tags(n)) for _ in range(10)]
    return Shape([], bodies, search("&limit=20"))


def spread_traces(n: int, service: str = "a", start: int = 1_600_000_000_000_000, first: int = 1) -> list[bytes]:
    """Returns batches of ten one-span traces, whose starts are a microsecond apart."""
    numbers = range(first, first + 40 * n)
    return [wire.batch(service, [wire.span(k, 1, start=start + k) for k in numbers[at:at + 10]]) for at in range(0, len(numbers), 10)]


def older_than_a_wrong_clock(n: int) -> Shape:
    """Returns traces of a service that all start before some thousands of another service."""
    late = [wire.batch("z", [wire.span(k, 1, start=1 << 59) for k in range(10_000_000, 10_000_000 + 6 * n)])]
    return Shape([], spread_traces(n) + late, search("&limit=20"))


def older_than_a_large_trace(n: int) -> Shape:
    """Returns traces of a service that all start before one trace of another service, which has three in four of the spans."""
    late = [wire.batch("z", [wire.span(10_000_000, at + k, start=1 << 59) for k in range(1, 6 * n + 1)]) for at in range(0, 120 * n, 6 * n)]
    return Shape([], spread_traces(n) + late, search("&limit=20"))


def of_one_start(n: int) -> Shape:
    """Returns traces that all start at one time."""
    bodies = [wire.batch("a", [wire.span(k + at, 1, start=1_600_000_000_000_000) for at in range(10)]) for k in range(1, 40 * n, 10)]
    return Shape([], bodies, search("&limit=20"))


def in_few_batches(n: int) -> Shape:
    """Returns traces of a service that came in ten batches."""
    return Shape([], [wire.batch("a", a_trace_each(4 * n, 1 + 4 * n * k)) for k in range(10)], search("&limit=20"))


def by_duration(n: int, one_in: int) -> Shape:
    """Returns a search that finds one trace in `one_in`, less one. If that is one in 128, a search without tags is just judged inside a copy."""
    return Shape([], spread_traces(n), search(f"&minDuration=1us&limit={40 * n // one_in - 1}"))


def pairs_of_services(n: int) -> Shape:
    """Returns services with long names, each of which calls each other one in one trace."""
    count = max(2, n * 3 // 20)
    name = [f"{k:04}" + "s" * (10 * n) for k in range(count)]
    roots = [wire.batch(name[k], [wire.span(7, 1 + k)]) for k in range(count)]
    calls = [wire.batch(name[k], [wire.span(7, 1000 + k * count + j, 1 + j) for j in range(count)]) for k in range(count)]
    return Shape([], roots + calls, DEPENDENCIES)


# Each gives n thousandths of the whole.
SHAPES: dict[str, Callable[[int], Shape]] = {
    "process tags x traces found by one, limit 0": lambda n: found_by_process_tags(n, 0),
    "process tags x traces found by one, limit 100": lambda n: found_by_process_tags(2 * n, 100),
    "a binary process tag x traces": found_by_a_binary,
    "requested tags x entries": requested_tags,
    "matches that have left the ring": hidden_matches,
    "equal processes x traces": equal_processes,
    "pairs of long services, dependencies": pairs_of_services,
    "the 20 latest of a service, older than traces of a wrong clock": older_than_a_wrong_clock,
    "the 20 latest of a service, older than one trace of most spans": older_than_a_large_trace,
    "the 20 latest of traces of one start": of_one_start,
    "the 20 latest of a service that came in ten batches": in_few_batches,
    "nearly a sixteenth of the traces, by their duration": lambda n: by_duration(n, 16),
    "nearly one in 128 of the traces, by their duration": lambda n: by_duration(n, 128),
}


def many_traces(n: int) -> list[bytes]:
    """Returns a body of traces of one span."""
    return [wire.batch("a", a_trace_each(40 * n))]


def a_large_trace(n: int) -> list[bytes]:
    """Returns a body of one trace."""
    return [wire.batch("a", [wire.span(7, 1 + k, k, start=1_600_000_000_000_000 + k) for k in range(40 * n)])]


class AskedAtOnce(NamedTuple):
    """The bodies that fill a server, for n thousandths of the whole, and the query that some connections ask at once."""
    bodies: Callable[[int], Iterable[bytes]]
    query: bytes
    connections: int = ASKING
    is_read: bool = True


def a_list_with_a_large_trace(n: int) -> list[bytes]:
    """Returns a trace of many spans that starts last, and small ones."""
    large = [wire.span(7, 1 + k, k, start=1_700_000_000_000_000 + k) for k in range(30 * n)]
    return [wire.batch("a", a_trace_each(10 * n, 1000)), wire.batch("a", large)]


ASKED_AT_ONCE = {
    "dependencies of traces without calls": AskedAtOnce(many_traces, DEPENDENCIES),
    "limit=1 among many traces": AskedAtOnce(many_traces, search("&limit=1")),
    "one large trace": AskedAtOnce(a_large_trace, get("/api/traces/7")),
    "a list whose first trace is large": AskedAtOnce(a_list_with_a_large_trace, search("&limit=20")),
    "a list whose first trace is large to slow readers": AskedAtOnce(a_list_with_a_large_trace, search("&limit=20"), SLOW, is_read=False),
    "one large trace to slow readers": AskedAtOnce(a_large_trace, get("/api/traces/7"), SLOW, is_read=False),
}


def plain_bodies(spans: int) -> Iterator[bytes]:
    """Yields traces of ten spans of ten services that call one another, in batches of a service; each tenth trace has an error, and each thousandth a rare
    operation."""
    bad = wire.structs(10, [tag("error", "true")])
    traces = min(spans, MOST_SPANS - FREE) // 10
    for first in range(0, traces, IN_BATCH):
        numbers = range(first, min(first + IN_BATCH, traces))
        for service in range(10):
            yield wire.batch(f"s{service}", [
                wire.span(1 + k, 1 + service, service, "rare" if k % 1000 == 0 else "op", start=1_600_000_000_000_000 + 1000 * k,
                          more=bad if k % 10 == 0 else b"")
                for k in numbers], [tag("ip", f"10.0.0.{service}"), tag("host", "a")])


LATEST = {
    "the 20 latest of a service": search("&limit=20", "s3"),
    "the latest of a service": search("&limit=1", "s3"),
}
PLAIN = {
    "all dependencies": DEPENDENCIES,
    **LATEST,
    "the 100,000 latest of a service": search("&limit=100000", "s3"),
    "the 20 latest of an operation": search("&operation=op&limit=20", "s3"),
    "all of a rare operation": search("&operation=rare&limit=0", "s3"),
    "the 20 latest of a service with a tag": search("&tag=error:true&limit=20", "s3"),
    "all of a service with no such tag": search("&tag=error:maybe&limit=20", "s3"),
    "a trace": get("/api/traces/7"),
    "services": get("/api/services"),
}


# A trace of all the spans of a store of its own. Its text is some 300 MB for each million of them, so that larger ones aren't asked for.
ONE_TRACE, MOST_IN_ONE_TRACE = "one trace of all spans", 1_000_000


def one_trace(spans: int) -> Iterator[bytes]:
    """Yields the bodies of one trace of that many spans."""
    for first in range(0, spans, IN_BATCH):
        yield wire.batch("a", [wire.span(7, 1 + k, start=1_600_000_000_000_000 + k) for k in range(first, min(first + IN_BATCH, spans))])


def in_traces_of(length: int) -> Callable[[int], Iterator[bytes]]:
    """Returns what gives the bodies of that many spans in traces of that length."""
    def bodies(spans: int) -> Iterator[bytes]:
        for first in range(0, spans, IN_BATCH):
            yield wire.batch("a", [wire.span(1 + k // length, 1 + k, start=1_600_000_000_000_000 + k) for k in range(first, min(first + IN_BATCH, spans))])
    return bodies


class Answered(NamedTuple):
    """What gives the bodies of a number of spans, and the query whose answer has all of them."""
    bodies: Callable[[int], Iterable[bytes]]
    query: bytes


ANSWERED: dict[str, Answered] = {
    "traces of one span": Answered(in_traces_of(1), search("&limit=0")),
    "traces of two spans": Answered(in_traces_of(2), search("&limit=0")),
    "traces of ten spans": Answered(in_traces_of(10), search("&limit=0")),
    "one trace": Answered(one_trace, get("/api/traces/7")),
}


class Taken(NamedTuple):
    """By how many bytes the memory of a server rose while a number of answers were made at once, for each number."""
    name: str
    spans: int
    rises: dict[int, int]

    def of_span(self, count: int) -> float:
        """Returns the bytes for each span of this number of answers."""
        return self.rises[count] / (count * self.spans)

    def of_others(self) -> float:
        """Returns what the larger number of answers takes more, for each span of those that are more."""
        few, many = ANSWERS
        return (self.rises[many] - self.rises[few]) / ((many - few) * self.spans)

    def columns(self) -> list[Any]:
        """Returns the values of COLUMNS_ANSWERS."""
        return [self.name, self.spans, *(round(self.of_span(count), 1) for count in ANSWERS), round(self.of_others(), 1)]

    def __str__(self) -> str:
        return "\t".join(f"{it:,}" if isinstance(it, (int, float)) else it for it in self.columns())


class Times(NamedTuple):
    """The longest and the middle of some times, in milliseconds."""
    longest: float
    middle: float

    @classmethod
    def of(cls, times: list[float]) -> "Times":
        """Returns the longest and the middle of these."""
        return cls(max(times), statistics.median(times))

    def __str__(self) -> str:
        return f"{self.longest:.1f} ({self.middle:.2f})"


class Row(NamedTuple):
    """What was measured of a shape: POSTs alone and beside the query, and the query."""
    name: str
    size: float
    unit: str
    alone: Times
    beside: Times
    query: Times

    def bar(self) -> float:
        """Returns how long a POST beside the query may take. What a sender picked is smaller than the smallest plain store."""
        more = max(0, self.size - 100_000) if self.unit == "spans" else 0
        return POST_BAR + POST_BAR_FOR_A_MILLION * more / 1e6

    def is_over_bound(self) -> bool:
        """Returns whether the longest POST beside the query takes too long."""
        return self.beside.longest > max(self.bar(), 2 * self.alone.longest)

    def columns(self) -> list[Any]:
        """Returns the values of COLUMNS."""
        times = [round(value, 1 + at) for pair in (self.alone, self.beside, self.query) for at, value in enumerate(pair)]
        return [self.name, self.size, self.unit, *times]

    def __str__(self) -> str:
        return f"{self.name}\t{self.size:,} {self.unit}\t{self.alone}\t{self.beside}\t{self.query}"


class Rise(NamedTuple):
    """By how many bytes the memory of a server rose while connections asked at once: the most, and while they all waited without reading."""
    name: str
    asked: AskedAtOnce
    sent: int
    before: int
    most: int
    waiting: int

    def of_sent(self) -> float:
        """Returns the bytes of memory for each byte sent."""
        return self.most / self.sent

    def is_over_bound(self) -> bool:
        """Returns whether it takes too much. What slow readers take isn't judged: each holds an answer of its own."""
        return self.asked.is_read and self.of_sent() > SENT_BAR

    def for_each(self) -> float | None:
        """Returns the megabytes that are held for a slow reader."""
        return None if self.asked.is_read else round(self.waiting / self.asked.connections / 1e6, 2)

    def columns(self) -> list[Any]:
        """Returns the values of COLUMNS_AT_ONCE."""
        megabytes = [round(self.sent / 1e6, 2), round(self.before / 1e6, 1), round(self.most / 1e6, 1)]
        return [self.name, self.asked.connections, *megabytes, round(self.of_sent(), 1), self.for_each()]

    def __str__(self) -> str:
        name, connections, sent, before, most, of_sent, each = self.columns()
        held = "" if each is None else f"\t{each} MB for each"
        return f"{name}\t{connections} connections\t{sent} MB\t{before} MB\t{most} MB\t{of_sent}{held}"


class Poster(threading.Thread):
    """Posts a span every few milliseconds until it is told to end."""

    def __init__(self, port: int) -> None:
        super().__init__()
        self.client = Client(port, patience=600)
        self.going = True
        self.times: list[float] = []
        self.fault: Exception | None = None
        self.start()

    def run(self) -> None:
        """Posts until it is told to end or a POST fails."""
        number = 1 << 70
        while self.going and not self.fault:
            begin = time.perf_counter()
            try:
                self.client.ask(post(number, service="poster"), 202)
            except (Failed, OSError) as fault:
                self.fault = fault
            self.times.append(1000 * (time.perf_counter() - begin))
            number += 1
            time.sleep(0.002)

    def ends(self) -> Times:
        """Ends it, and returns the times of its POSTs."""
        self.going = False
        self.join()
        self.client.socket.close()
        if self.fault:
            raise Failed(f"a POST failed: {self.fault}")
        return Times.of(self.times)


def taken(client: Client, query: bytes) -> float:
    """Returns how long the response took, in milliseconds. What comes is counted and dropped."""
    begin = time.perf_counter()
    client.send(query)
    head = b""
    while b"\r\n\r\n" not in head:
        head += client.socket.recv(65536)
    top, _, body = head.partition(b"\r\n\r\n")
    check(top.startswith(b"HTTP/1.1 200 "), f"{query[:60]!r} was answered {top[:40]!r}")
    left = int(top.lower().partition(b"content-length: ")[2].split(b"\r\n")[0]) - len(body)
    room = bytearray(1 << 20)
    while left > 0:
        left -= client.socket.recv_into(room)
    return 1000 * (time.perf_counter() - begin)


def beside(server: Server, query: bytes, asks: int) -> tuple[Times, Times, Times]:
    """Returns the times of a POST alone and beside the query, and of the query."""
    undisturbed = Poster(server.port)
    time.sleep(1)
    alone = undisturbed.ends()
    poster = Poster(server.port)
    times: list[float] = []
    end = time.monotonic() + ASKED_FOR
    with Client(server.port, patience=600) as client:
        while len(times) < asks or time.monotonic() < end:
            times.append(taken(client, query))
    return alone, poster.ends(), Times.of(times)


@contextlib.contextmanager
def filled(program: str, words: Sequence[object], bodies: Iterable[bytes], workers: int = WORKERS) -> Iterator[tuple[Server, int]]:
    """Yields a server that was sent these bodies, and their bytes. Only the bodies of one turn are in memory."""
    sent = 0
    with Server(*ROOM, "--workers", workers, *words, binary=program) as server:
        left = iter(bodies)
        with Client(server.port, patience=600) as client:
            while some := [*itertools.islice(left, AT_ONCE)]:
                client.send(b"".join(map(post_body, some)))
                for body in some:
                    check(client.response().status == 202, f"the body {body[:40]!r} was refused")
                    sent += len(body)
        yield server, sent


def measured(name: str, size: float, unit: str, server: Server, query: bytes, asks: int) -> Row:
    """Measures the row of a shape. One above its bar is measured again, and the better one counts."""
    row = Row(name, size, unit, *beside(server, query, asks))
    if row.is_over_bound():
        print(f"{row}\tabove its bar, measured again", flush=True)
        again = Row(name, size, unit, *beside(server, query, asks))
        row = again if not again.is_over_bound() else min(row, again, key=lambda it: it.beside.longest)
    return row


def rows_of_senders(options: argparse.Namespace, chosen: Chosen) -> Iterator[Row]:
    """Yields the rows of shapes that a sender may pick, each with half of its parts and with the whole."""
    for name, shape in SHAPES.items():
        for n in (options.parts // 2, options.parts):
            if chosen(name):
                it = shape(n)
                with filled(options.bin, it.words, it.bodies) as (server, sent):
                    yield measured(name, round(sent / 1e6, 2), "MB", server, it.query, options.asks)


def rows_of_plain_stores(options: argparse.Namespace, chosen: Chosen) -> Iterator[Row]:
    """Yields the rows of plain stores. A store of millions takes minutes to fill, so it is filled once for all its queries."""
    names = [name for name in PLAIN if chosen(name)]
    for spans in options.spans if names else []:
        begin = time.monotonic()
        with filled(options.bin, [], plain_bodies(spans)) as (server, _):
            print(f"filled with {spans:,} spans in {time.monotonic() - begin:.0f} s, {server.memory() / 1000:.0f} MB", flush=True)
            for name in names:
                yield measured(name, spans, "spans", server, PLAIN[name], options.asks)


def rows_of_one_trace(options: argparse.Namespace, chosen: Chosen) -> Iterator[Row]:
    """Yields the rows of a trace of all spans: collecting it takes each of them by itself."""
    for spans in options.spans if chosen(ONE_TRACE) else []:
        if spans <= MOST_IN_ONE_TRACE:
            with filled(options.bin, [], one_trace(spans)) as (server, _):
                yield measured(ONE_TRACE, spans, "spans", server, get("/api/traces/7"), options.asks)


def asked_at_once(server: Server, asked: AskedAtOnce) -> int:
    """Returns what a server holds after connections asked at once. A client that reads has its whole answer then, a slow one its first byte."""
    with contextlib.ExitStack() as all_open:
        room = None if asked.is_read else 4096
        clients = [all_open.enter_context(Client(server.port, patience=600, room=room)) for _ in range(asked.connections)]
        for client in clients:
            client.send(asked.query)
        for client in clients:
            if asked.is_read:
                check(client.response().status == 200, f"{asked.query[:60]!r} was not answered 200")
            else:
                check(client.socket.recv(1), "no response began")
        held = 1000 * server.memory()
    return held


def rises(options: argparse.Namespace, chosen: Chosen) -> Iterator[Rise]:
    """Yields by how much memory rises for each query that is asked at once."""
    for name, asked in ASKED_AT_ONCE.items():
        if not chosen(name):
            continue
        with filled(options.bin, [], asked.bodies(options.parts), ASKING) as (server, sent):
            before = 1000 * server.memory()
            server.forget_peak()
            held = max(asked_at_once(server, asked) for _ in range(options.asks))
            yield Rise(name, asked, sent, before, 1000 * server.peak() - before, held - before)


def answers_taken(options: argparse.Namespace, chosen: Chosen) -> Iterator[Taken]:
    """Yields what answers take, each number of them in a server of its own, which was asked nothing before."""
    for name, answered in ANSWERED.items():
        for spans in ANSWERED_SPANS if chosen(name) else []:
            rises = {}
            for count in ANSWERS:
                with filled(options.bin, [], answered.bodies(spans), ASKING) as (server, _):
                    before = 1000 * server.memory()
                    server.forget_peak()
                    asked_at_once(server, AskedAtOnce(answered.bodies, answered.query, count))
                    rises[count] = 1000 * server.peak() - before
            yield Taken(name, spans, rises)


def all_answers(options: argparse.Namespace, chosen: Chosen) -> list[str]:
    """Prints the rows of answers by their spans, and returns a line for each over its bound."""
    record = Record(options, "held --answers", COLUMNS_ANSWERS)
    found: list[str] = []
    print("\t".join(COLUMNS_ANSWERS))
    for row in answers_taken(options, chosen):
        record.row(*row.columns())
        print(row, flush=True)
        if row.of_others() > SPAN_BAR:
            found.append(f"{row.name}, {row.spans:,} spans: {row.of_others():.1f} bytes a span, and {SPAN_BAR} is the bar")
    if not options.shapes:
        record.save()
    return found


def all_at_once(options: argparse.Namespace, chosen: Chosen) -> list[str]:
    """Prints the rows of connections that ask at once, and returns a line for each over its bound."""
    record = Record(options, "held --at-once", COLUMNS_AT_ONCE)
    found: list[str] = []
    print("shape\tasking\tsent\theld before\tmore at most\tof bytes sent\theld for a slow reader")
    for row in rises(options, chosen):
        record.row(*row.columns())
        print(row, flush=True)
        if row.is_over_bound():
            found.append(f"{row.name}: {row.of_sent():.1f} bytes of memory for each byte sent, and {SENT_BAR} is the bar")
    if not options.shapes:
        record.save()
    return found


def over_bound(rows: list[Row]) -> Iterator[str]:
    """Yields a line for each row over its bound."""
    for row in rows:
        if row.is_over_bound():
            yield f"{row.name}, {row.size:,} {row.unit}: a POST beside it took {row.beside.longest:.1f} ms, and {row.bar():.0f} ms is the bar"
    middles = {(row.name, row.size): row.query.middle for row in rows if row.unit == "spans"}
    for name in LATEST:
        small, large = (middles.get((name, size)) for size in LATEST_SIZES)
        if small and large:
            print(f"{name}, {LATEST_SIZES[1]:,} spans: {large / small:.1f} times the middle time at {LATEST_SIZES[0]:,}")
            if large > LATEST_BAR * small:
                yield f"{name}, {LATEST_SIZES[1]:,} spans: more than {LATEST_BAR} times the middle time at {LATEST_SIZES[0]:,}"


def beside_posts(options: argparse.Namespace, chosen: Chosen) -> list[str]:
    """Prints the rows of queries beside POSTs, and returns a line for each over its bound."""
    record = Record(options, "held", COLUMNS)
    rows: list[Row] = []
    print("shape\tsent or held\tPOST alone, ms: longest (middle)\tbeside the query\tthe query, ms: longest (middle)")
    for made in (rows_of_senders, rows_of_plain_stores, rows_of_one_trace):
        for row in made(options, chosen):
            record.row(*row.columns())
            rows.append(row)
            print(row, flush=True)
    if not options.shapes:
        record.save()
    return [*over_bound(rows)]


def sizes(text: str) -> list[int]:
    """Returns the numbers of a list."""
    return [int(size) for size in text.split(",")]


def main() -> int:
    """Prints the rows that are asked for; returns 1 if one is over its bound."""
    words = asked_of(__doc__)
    words.add_argument("--parts", type=int, default=1000, help="how many parts the whole has")
    words.add_argument("--spans", type=sizes, default=[100_000], help=f"how many spans the plain stores hold, {MOST_SPANS:,} at most")
    words.add_argument("--asks", type=int, default=5, help="how often each query is asked at least")
    words.add_argument("--at-once", action="store_true", help="what connections take that ask at once, and nothing else")
    words.add_argument("--answers", action="store_true", help="what an answer takes for each of its spans, and nothing else")
    words.add_argument("shapes", nargs="*", help="words of the shapes to run; all if none is given")
    options = words.parse_args()

    def chosen(name: str) -> bool:
        return not options.shapes or any(word in name for word in options.shapes)

    ways = {"at_once": all_at_once, "answers": all_answers}
    judged = next((way for name, way in ways.items() if getattr(options, name)), beside_posts)
    found = judged(options, chosen)
    print("\n".join([*found, f"{len(found)} over their bounds"]))
    return 1 if found else 0


if __name__ == "__main__":
    sys.exit(main())
