#!/usr/bin/env python3
"""How much memory a server needs, by number of spans held and of tags that each span has, and how much an answer takes.

Each row is a run of the built program, `jaeger_one serve`, which is given batches of 10 spans of one trace over one
connection until that number of spans is held. Memory is the program's peak resident size in total; the row of 0 spans is what
it has before the first batch. The tags are those of bench/decode.py, 4 to 40 bytes each if they are text. The last columns are of a search
for all traces: the bytes of its answer, and by how much the peak rises while it is answered.

With `--process-tags 4` each process has the tags that Jaeger's clients send: host name, address, version and an id of its own.
With more it has those of a pod too, as an OpenTelemetry SDK gives them. `--connections` is how many connections take turns, batch
by batch; each has a process of its own. A single one is measured with the first number of process tags alone.

With `--most` the bodies are the worst that were found for each byte sent: spans of nothing but tags of an empty key and no value,
by how many; the same in logs; and spans of nothing, each of a trace of its own. A list of more than 16 items has room for up to
twice as many, so those just above a power of two take most.

    bench/memory.py [--bin PATH] [--sizes 0,10000,100000] [--tags 1,5] [--in-batch 10] [--connections 1] [--process-tags 4,12,20]
                    [--most] [--save KIND]
"""
import argparse
import http.client
import itertools
import math
import random
import socket
from collections.abc import Callable
from typing import NamedTuple

from decode import span
from results import Record, asked_of
from serve import started
from servers import Server
import wire

AT_ONCE = 20
COLUMNS = ["spans held", "tags a span", "MB in", "MB held", "bytes a span", "MB of the answer", "MB more for it"]
COLUMNS_OF_PROCESSES = ["process tags", "tags a span", "spans a batch", "connections", "MB in", "MB held", "bytes a span", "of the bytes in",
                        "MB more for the answer"]
COLUMNS_OF_MOST = ["what", "in a batch", "bytes a batch", "batches", "MB in", "MB more than empty", "of the bytes in"]

# The tags of the process with this number: first those that Jaeger's clients send, then those of a pod.
PROCESS_TAGS = {
    "hostname": "orders-7d9c5b6f4-{:05}", "ip": "10.20.30.{}", "jaeger.version": "Go-2.30.0", "client-uuid": "{:016x}",
    "service.version": "1.24.3", "service.namespace": "shop", "deployment.environment": "production", "telemetry.sdk.name": "opentelemetry",
    "telemetry.sdk.language": "go", "telemetry.sdk.version": "1.17.0", "k8s.pod.name": "orders-7d9c5b6f4-{:05}",
    "k8s.pod.uid": "8f0c6a5e-3d2b-4c1f-9a7e-{:012x}", "k8s.namespace.name": "shop", "k8s.deployment.name": "orders",
    "k8s.node.name": "ip-10-20-30-40.eu-central-1.compute.internal", "container.name": "orders", "container.id": "{:064x}",
    "container.image.name": "registry.example.org/shop/orders", "os.type": "linux", "process.runtime.name": "go"}

# How many empty tags a span has in the bodies that take most: at and just above powers of two, up to the largest body.
EMPTY_TAGS = [1, 16, 17, 32, 33, 64, 65, 128, 129, 1024, 1025, 8192, 8193, 262144, 262145]
EMPTY_SPANS = [1, 1000]
MEGABYTES_OF_MOST = 12

Made = Callable[[int], bytes]  # gives the batch with a number


class Shape(NamedTuple):
    """What a server is filled with: tags of a process, tags a span, spans a batch, connections that take turns, and spans in all."""
    process_tags: int
    tags: int
    in_batch: int
    connections: int
    size: int


class Taken(NamedTuple):
    """The bytes of a body, how many there were, the bytes of all, and by how many bytes a server takes more."""
    size: int
    batches: int
    sent: int
    more: int


def tags_of_process(number: int, count: int) -> list[bytes]:
    """Returns the first `count` tags of a process."""
    return [wire.text_tag(key, value.format(number)) for key, value in itertools.islice(PROCESS_TAGS.items(), count)]


def batch(rng: random.Random, tags: int, in_batch: int, of_process: list[bytes]) -> bytes:
    """Returns spans of which each was called by the one before it, with this number of tags."""
    trace = rng.getrandbits(63) | 1
    return wire.batch("orders", [span(rng, trace, number + 1, number, tags) for number in range(in_batch)], of_process)


def read_accepted(client: socket.socket, count: int) -> None:
    """Reads this number of responses, which all have to be 202."""
    text = b""
    while text.count(b"\r\n\r\n") < count:
        text += client.recv(65536) or b"closed\r\n\r\n" * count
    assert text.count(b"HTTP/1.1 202 ") == count, text[:200]


def fill(server: Server, shape: Shape) -> int:
    """Sends this number of spans; returns the bytes of their bodies."""
    rng = random.Random(3)
    processes = [tags_of_process(number, shape.process_tags) for number in range(shape.connections)]
    clients = [socket.create_connection(("127.0.0.1", server.port)) for _ in processes]
    left, sent = shape.size // shape.in_batch, 0
    while left:
        # A body on each connection; on a single one several, one after the other.
        turn = [number % shape.connections for number in range(min(left, max(shape.connections, AT_ONCE)))]
        for number in turn:
            body = batch(rng, shape.tags, shape.in_batch, processes[number])
            clients[number].sendall(wire.post(body))
            sent += len(body)
        for number, client in enumerate(clients):
            read_accepted(client, turn.count(number))
        left -= len(turn)
    for client in clients:
        client.close()
    return sent


def answered(server: Server) -> tuple[int, int]:
    """Returns the bytes of the answer to a search for all traces, and by how many bytes the greatest size rose for it."""
    before = server.peak()
    client = http.client.HTTPConnection("127.0.0.1", server.port)
    client.request("GET", "/api/traces?service=orders&limit=0")
    answer = client.getresponse()
    assert answer.status == 200, answer.status
    size = len(answer.read())
    client.close()
    return size, (server.peak() - before) * 1024


def empty_tags(count: int) -> list[bytes]:
    """Returns this number of tags of an empty key and no value."""
    return [wire.field(wire.TEXT, 1) + wire.text("") + wire.integer(2, 0) + b"\0"] * count


def with_empty_tags(count: int) -> Made:
    """Returns what makes batches of one span that has nothing but this number of empty tags."""
    tags = wire.structs(10, empty_tags(count))
    return lambda number: wire.batch("a", [wire.span(number, 1, operation="", more=tags)])


def with_empty_logs(count: int, tags: int = 65) -> Made:
    """Returns what makes batches of one span that has nothing but this number of logs of empty tags."""
    logs = wire.structs(11, [wire.long(1, 0) + wire.structs(2, empty_tags(tags)) + b"\0"] * count)
    return lambda number: wire.batch("a", [wire.span(number, 1, operation="", more=logs)])


def of_empty_spans(count: int) -> Made:
    """Returns what makes batches of this number of spans that have nothing, each the only one of its trace."""
    return lambda number: wire.batch("a", [wire.span(number * count + at, 1, operation="") for at in range(count)])


def taken(options: argparse.Namespace, made: Made) -> Taken:
    """Measures what a server takes for such bodies beside an empty one."""
    with started(options.bin, 2) as server, socket.create_connection(("127.0.0.1", server.port)) as client:
        client.sendall(wire.get("/api/services"))
        client.recv(65536)
        before, size = server.peak(), len(made(1))
        batches = math.ceil(MEGABYTES_OF_MOST * 1_000_000 / size)
        for first in range(0, batches, AT_ONCE):
            bodies = [made(number) for number in range(first, min(first + AT_ONCE, batches))]
            client.sendall(b"".join(map(wire.post, bodies)))
            read_accepted(client, len(bodies))
        return Taken(size, batches, size * batches, (server.peak() - before) * 1024)


def most(options: argparse.Namespace) -> None:
    """Prints what a server takes for the bodies that take most for each byte of them, beside an empty one."""
    record = Record(options, "memory, most", COLUMNS_OF_MOST)
    bodies = [("empty tags of one span", count, with_empty_tags(count)) for count in EMPTY_TAGS]
    bodies += [("logs of one span, of 65 empty tags each", 40, with_empty_logs(40))]
    bodies += [("spans of nothing, a trace each", count, of_empty_spans(count)) for count in EMPTY_SPANS]
    for what, count, made in bodies:
        it = taken(options, made)
        of_bytes = it.more / it.sent
        print(f"{it.batches} batches of {it.size} bytes, {count} {what}: {it.sent / 1e6:.1f} MB, {it.more / 1e6:.1f} MB more, {of_bytes:.2f} of the bytes in",
              flush=True)
        record.row(what, count, it.size, it.batches, round(it.sent / 1e6, 1), round(it.more / 1e6, 1), round(of_bytes, 2))
    record.save()


def numbers(text: str) -> list[int]:
    """Returns the numbers of a list."""
    return [int(number) for number in text.split(",")]


def show(options: argparse.Namespace, shape: Shape, record: Record) -> None:
    """Fills a server, asks it for all traces, and prints and records the row."""
    with started(options.bin, 2) as server:
        sent = fill(server, shape)
        held = server.peak() * 1024
        answer, more = answered(server)
    process_tags, tags, in_batch, connections, size = shape
    per = f"{held / size:13.0f} {held / sent:12.2f}" if size else f"{'-':>13} {'-':>12}"
    print(f"{process_tags:>10} {tags:>5} {in_batch:>8} {connections:>6} {size:>9} {sent / 1e6:>7.1f} {held / 1e6:>8.1f} {per} {answer / 1e6:>10.1f} "
          f"{more / 1e6:>8.1f}", flush=True)
    each = [round(sent / 1e6, 1), round(held / 1e6, 1), round(held / size) if size else None]
    if options.process_tags:
        record.row(process_tags, tags, in_batch, connections, *each, round(held / sent, 2) if sent else None, round(more / 1e6, 1))
    else:
        record.row(size, tags, *each, round(answer / 1e6, 1), round(more / 1e6, 1))


def main() -> None:
    """Prints a row for each number of spans and of tags, or the worst bodies."""
    asked = asked_of(__doc__)
    asked.add_argument("--sizes", default="0,10000,100000", help="spans held, 10,000,000 at most")
    asked.add_argument("--tags", default="1,5", help="tags a span, 15 at most")
    asked.add_argument("--in-batch", default="10", help="spans a batch")
    asked.add_argument("--connections", default="1", help="connections that take turns, 250 at most")
    asked.add_argument("--process-tags", help=f"tags of a process, {len(PROCESS_TAGS)} at most; none unless given")
    asked.add_argument("--most", action="store_true", help="the worst bodies that were found, and nothing else")
    options = asked.parse_args()
    if options.most:
        return most(options)
    record = Record(options, *(("memory --process-tags", COLUMNS_OF_PROCESSES) if options.process_tags else ("memory", COLUMNS)))
    print(f"{'of process':>10} {'tags':>5} {'a batch':>8} {'conns':>6} {'spans':>9} {'MB in':>7} {'MB held':>8} {'bytes a span':>13} {'of bytes in':>12} "
          f"{'MB answer':>10} {'MB more':>8}")
    all_process_tags = numbers(options.process_tags or "0")
    others = map(numbers, (options.tags, options.in_batch, options.connections, options.sizes))
    for shape in itertools.starmap(Shape, itertools.product(all_process_tags, *others)):
        if shape.connections > 1 or shape.process_tags == all_process_tags[0]:  # Of one connection all batches have one process: its tags hardly count.
            show(options, shape, record)
    record.save()


if __name__ == "__main__":
    main()
