#!/usr/bin/env python3
"""`jaeger_one serve` over real sockets, as a black box: many clients at once, clients that stall, go away or reset, closing
responses, the ends of the program.

    checks/sockets.py [--bin PATH] [--only WORD]

Each case starts the program anew on a free port, of 127.0.0.1 unless it is a case of `--host`, and looks only at what the sockets, its
standard output and its status say; a case of `--host`, and one whose name begins with `told`, looks at its standard error too. Standard
library alone. One line for each failing case; the last line is `N passed, M failed`.
"""
import contextlib
import functools
import json
import resource
import select
import signal
import socket
import subprocess
import threading
import time
from collections.abc import Callable, Mapping, Sequence

from crates import asked_of
from servers import PATIENCE, THRIFT, Client, Failed, Server, batch, check, get, head, in_url, limited_by, post, post_body, run_cases
import wire

# How the line begins that is told when no more connections may be open.
ALL_TAKEN = "as many connections are open as --connections allows"

# A start that no query of long answers asks for, in microseconds.
LATE = 1_000_000_000


def found(client: Client, trace: int) -> None:
    """Checks that a client finds the trace, and no other."""
    answer = client.ask(get(f"/api/traces/{trace:x}"), 200)
    check(answer.traces() == [f"{trace:016x}"], f"the answer for {trace:x} is {answer.body[:200]!r}")


def all_at_once(calls: Sequence[Callable[[], None]]) -> None:
    """Makes the calls, each in a thread of its own, and raises the first failure."""
    faults: list[Failed | OSError] = []

    def guarded(call: Callable[[], None]) -> None:
        try:
            call()
        except (Failed, OSError) as fault:
            faults.append(fault)

    threads = [threading.Thread(target=guarded, args=(call,)) for call in calls]
    for thread in threads:
        thread.start()
    for thread in threads:
        thread.join()
    if faults:
        raise faults[0]


# The cases.

def own_traces(server: Server, number: int, count: int, accepted: list[int]) -> None:
    """Submits this number of batches, each with a trace of its own, and finds each trace that was accepted."""
    with server.client() as client:
        for place in range(1, count + 1):
            trace = number << 32 | place
            client.send(post(trace, service=f"s{number}"))
            status = client.response().status
            check(status in (202, 503), f"a batch was answered {status}")
            if status == 202:
                found(client, trace)
                accepted.append(trace)


def eight_clients(workers: int) -> None:
    """Checks that eight clients at once find what they submitted."""
    accepted: list[int] = []
    with Server("--port", 0, "--workers", workers) as server:
        all_at_once([functools.partial(own_traces, server, n, 50, accepted) for n in range(1, 9)])
        with server.client() as client:
            for trace in accepted:
                found(client, trace)
            services = json.loads(client.ask(get("/api/services"), 200).body)["data"]
        check(services == [f"s{n}" for n in range(1, 9)], f"the services are {services}")
    check(len(accepted) == 400, f"{len(accepted)} of 400 batches were accepted: the others were answered 503")


def stalled_heads() -> None:
    """Checks that clients that stall in a head are cut, and others are served meanwhile."""
    with Server("--port", 0, "--workers", 4, "--idle", 1) as server, contextlib.ExitStack() as stack:
        stalled = [stack.enter_context(server.client()) for _ in range(3)]
        for client in stalled:
            client.send(b"GET /api/serv")
        begin = time.monotonic()
        time.sleep(0.2)
        server.is_well()
        for client in stalled:
            with contextlib.suppress(ConnectionResetError):
                client.reads_end()
        took = time.monotonic() - begin
        check(0.7 < took < 4, f"the clients that stalled were cut after {took:.1f} s")
        server.is_well(0xE12)


def stalled_body() -> None:
    """Checks that a client that stalls in a body is cut, and its batch isn't found."""
    with Server("--port", 0, "--workers", 2, "--idle", 1) as server, server.client() as client:
        client.send(post(1)[:-20])
        begin = time.monotonic()
        server.is_well()
        with contextlib.suppress(ConnectionResetError):
            client.reads_end()
        took = time.monotonic() - begin
        check(0.7 < took < 4, f"the client that stalled was cut after {took:.1f} s")
        with server.client() as other:
            other.ask(get("/api/traces/1"), 404)


def stalled_everywhere() -> None:
    """Checks that a client is served while one stalls at each worker."""
    with Server("--port", 0, "--workers", 2, "--idle", 1) as server, contextlib.ExitStack() as stack:
        for _ in range(2):
            stack.enter_context(server.client()).send(b"GET /api/serv")
        time.sleep(0.2)
        begin = time.monotonic()
        with server.client() as client:
            client.ask(post(1), 202)
        check(time.monotonic() - begin < 5, "with a stalled client at each worker the next one waited for more than 5 s")


def idle_between_requests() -> None:
    """Checks that a connection stays between requests, and is closed after the idle time."""
    with Server("--port", 0, "--workers", 1, "--idle", 1) as server, server.client() as client:
        client.ask(post(1), 202)
        time.sleep(0.5)
        found(client, 1)
        time.sleep(0.7)
        found(client, 1)
        begin = time.monotonic()
        rest = client.reads_end()
        took = time.monotonic() - begin
        check(rest == b"" or rest.startswith(b"HTTP/1.1 "), f"an idle client was sent {rest!r}")
        check(0.5 < took < 4, f"an idle client was cut after {took:.1f} s")


def slow_sender() -> None:
    """Checks that pauses below the idle time end no session."""
    with Server("--port", 0, "--workers", 1, "--idle", 2) as server, server.client() as client:
        request = post(1)
        for place in range(0, len(request), 40):
            client.send(request[place:place + 40])
            time.sleep(0.6)
        status = client.response().status
        check(status == 202, f"a client with pauses below the idle time was answered {status}")


def no_idle_limit() -> None:
    """Checks that `--idle 0` closes no connection."""
    with Server("--port", 0, "--workers", 1, "--idle", 0) as server, server.client() as client:
        client.ask(post(1), 202)
        time.sleep(2.5)
        found(client, 1)


def goes_away_in_a_body(leave: Callable[[Client], None]) -> None:
    """Checks that a client that goes away in a body does no harm."""
    with Server("--port", 0, "--workers", 2) as server:
        with server.client() as before:
            before.ask(post(1), 202)
            for _ in range(5):
                client = server.client()
                client.send(post(2)[:-20])
                leave(client)
            found(before, 1)
            before.ask(get("/api/traces/2"), 404)
        server.is_well()


def goes_away_unread() -> None:
    """Checks that clients that leave answers unread do no harm."""
    with Server("--port", 0, "--workers", 2) as server:
        with server.client() as client:
            client.ask(post(1), 202)
        for _ in range(5):
            client = server.client()
            client.send(get("/api/traces/1") * 200)
            client.reset()
        server.is_well()


def sessions_end() -> None:
    """Checks that the program ends after its sessions, one after the other."""
    with Server("--port", 0, "--sessions", 3) as server:
        for trace in (1, 2, 3):
            with server.client() as client:
                client.ask(post(trace), 202)
                found(client, 1)
        server.served(3, 3)


def sessions_end_at_once() -> None:
    """Checks that the program ends after its sessions, which are there at once."""
    with Server("--port", 0, "--workers", 2, "--sessions", 8) as server:
        accepted: list[int] = []
        all_at_once([functools.partial(own_traces, server, n, 5, accepted) for n in range(1, 9)])
        server.served(8, len(accepted))


def last_session_is_whole() -> None:
    """Checks that the program ends only when the last session has ended."""
    with Server("--port", 0, "--workers", 4, "--sessions", 2) as server:
        with server.client() as first:
            first.ask(post(1), 202)
            with server.client() as second:
                found(second, 1)
            time.sleep(0.5)
            first.ask(post(2), 202)
            found(first, 2)
        server.served(2, 2)


def one_session() -> None:
    """Checks that the program ends after one session."""
    with Server("--port", 0, "--workers", 1, "--sessions", 1) as server:
        with server.client() as client:
            client.ask(post(1), 202)
        server.served(1, 1)


def is_sent_bytes(client: Client) -> bool:
    """Returns whether bytes come; not if the connection is closed or reset instead."""
    with contextlib.suppress(ConnectionResetError):
        return client.more()
    return False


def more_clients_than_sessions() -> None:
    """Checks that of six clients at once three are served. Nothing comes to the others, which are closed when the program ends."""
    with Server("--port", 0, "--workers", 2, "--sessions", 3) as server, contextlib.ExitStack() as stack:
        clients = [stack.enter_context(server.client()) for _ in range(6)]
        for trace, client in enumerate(clients, 1):
            client.send(post(trace))
        others = {client.socket: client for client in clients}
        served: list[Client] = []
        while len(served) < 3:
            ready, _, _ = select.select(list(others), [], [], PATIENCE)
            check(ready, f"{len(served)} of 6 clients were answered, and not 3")
            served += [client for client in map(others.pop, ready) if is_sent_bytes(client)]
        for client in served:
            status = client.response().status
            check(status == 202, f"a batch was answered {status}")
            found(client, clients.index(client) + 1)
        time.sleep(0.5)
        ready, _, _ = select.select(list(others), [], [], 0)
        more = len(served) + sum(is_sent_bytes(others[each]) for each in ready)
        check(more == 3, f"{more} of 6 clients were answered, and not 3")
        for client in served:
            client.socket.close()
        server.served(3, 3)
        for client in others.values():
            check(not is_sent_bytes(client), f"a client beyond the three was sent {client.input!r}")


def full_store() -> None:
    """Checks that a full store refuses batches, and that the books say so."""
    with Server("--port", 0, "--workers", 1, "--sessions", 1, "--batches", 2) as server:
        with server.client() as client:
            for trace, status in ((1, 202), (2, 202), (3, 503), (4, 503), (5, 503)):
                client.ask(post(trace), status)
        server.served(1, 2, 3)


def has_ipv6() -> bool:
    """Returns whether this machine has IPv6."""
    try:
        socket.create_server(("::1", 0), family=socket.AF_INET6).close()
    except OSError:
        return False
    return True


def maps_ipv4() -> bool:
    """Returns whether a socket of every IPv6 address takes connections to IPv4 addresses too."""
    with open("/proc/sys/net/ipv6/bindv6only") as file:
        return file.read().strip() == "0"


def reached_by(host: str) -> tuple[list[str], list[str]]:
    """Returns the loopback addresses by which a client reaches a server of this host, and those by which it doesn't."""
    ipv4, ipv6 = ["127.0.0.1", "127.0.0.2"], ["::1"]
    if host == "127.0.0.1":
        return ipv4[:1], ipv4[1:] + ipv6
    if host == "0.0.0.0":
        return ipv4, ipv6
    if host == "::1":
        return ipv6, ipv4
    return (ipv6 + ipv4, []) if maps_ipv4() else (ipv6, ipv4)


def is_reached(server: Server, address: str) -> bool:
    """Returns whether a server is reached by an address."""
    try:
        server.client(host=address).socket.close()
    except OSError:
        return False
    return True


def listens_on(host: str, is_exposed: bool) -> str | None:
    """Checks that a server is reached by the addresses of its host alone, and warns if other machines have one of them."""
    if ":" in host and not has_ipv6():
        return "not tried: this machine has no IPv6"
    reached, unreached = reached_by(host)
    with Server("--port", 0, host=host) as server:
        for address in reached:
            with server.client(host=address) as client:
                client.ask(post(1), 202)
                found(client, 1)
        for address in unreached:
            check(not is_reached(server, address), f"it is reached by {address}")
        warnings = [line for line in server.told() if "other machines" in line]
        check(len(warnings) == is_exposed, f"of other machines it says {warnings}")
        check(all(line.startswith(f"{in_url(host)} ") for line in warnings), f"it says {warnings}")
    return None


def port_in_use(host: str) -> str | None:
    """Checks that the program says that a port is in use, and ends."""
    if ":" in host and not has_ipv6():
        return "not tried: this machine has no IPv6"
    with socket.create_server((host, 0), family=socket.AF_INET6 if ":" in host else socket.AF_INET) as taken:
        port = taken.getsockname()[1]
        words = [Server.binary, "serve", "--host", host, "--port", str(port)]
        try:
            done = subprocess.run(words, stdin=subprocess.DEVNULL, stdout=subprocess.PIPE, stderr=subprocess.STDOUT, timeout=PATIENCE)
        except subprocess.TimeoutExpired:
            raise Failed("it does not end") from None
    lines = done.stdout.decode().splitlines()
    check(done.returncode == 4, f"the status is {done.returncode}, and it printed {lines}")
    check(len(lines) == 1 and lines[0].startswith(f"cannot listen on {in_url(host)}:{port}: "), f"it printed {lines}")
    return None


def closing(request: bytes, status: int, rest: bytes = b"", workers: int = 1) -> None:
    """Checks that a client that has sent everything before it reads, and one that reads meanwhile, get the response whole and then the end."""
    with Server("--port", 0, "--workers", workers) as server:
        with server.client() as client:
            try:
                client.send(request + rest)
                time.sleep(0.3)
                response = client.response()
                end = client.reads_end()
            except (ConnectionError, TimeoutError) as fault:
                raise Failed(f"a client that first sends and then reads: {fault}") from None
        check(response.status == status and response.closes(), f"it was answered {response.status}, {response.fields}")
        check(end == b"", f"after the closing response came {end[:80]!r}")
        check(json.loads(response.body)["errors"][0]["code"] == status, f"the body is {response.body!r}")
        with server.client() as client:
            client.send(request)
            sender = threading.Thread(target=drip, args=(client, rest))
            sender.start()
            try:
                again = client.response()
            except ConnectionError as fault:
                raise Failed(f"a client that reads while it sends: {fault}") from None
            finally:
                with contextlib.suppress(OSError):
                    client.socket.shutdown(socket.SHUT_RDWR)
                sender.join()
        check(again.body == response.body, f"the second client was answered {again.body!r}")
        server.is_well()


def drip(client: Client, rest: bytes) -> None:
    """Sends bytes with pauses, until the connection ends."""
    with contextlib.suppress(OSError):
        for place in range(0, len(rest), 100_000):
            client.send(rest[place:place + 100_000])
            time.sleep(0.01)


def body_too_large() -> None:
    """Checks the response to a body that is too large."""
    line = head("POST /api/traces HTTP/1.1", f"Content-Type: {THRIFT}", "Content-Length: 5000000")
    closing(line, 413, bytes(5_000_000))


def bad_head() -> None:
    """Checks the response to a head that can't be read."""
    closing(b"GET /api/services\r\n\r\n", 400)
    closing(b"\x16\x03\x01\x02\x00\x01\x00\x01\xfc\x03\x03 not HTTP at all\r\n\r\n", 400, bytes(100_000))


def head_too_long() -> None:
    """Checks the response to a head that is too long."""
    closing(b"GET /api/services HTTP/1.1\r\n", 400, b"".join(b"X-%d: %s\r\n" % (n, b"y" * 500) for n in range(200)) + b"\r\n")


def method_not_allowed() -> None:
    """Checks the response to methods that a target doesn't have."""
    body = batch(1)
    closing(head("DELETE /api/traces HTTP/1.1", f"Content-Length: {len(body)}") + body, 405)
    closing(head("PUT /api/services HTTP/1.1"), 405, get("/api/services") * 2000)


def asked_to_close() -> None:
    """Checks that nothing follows the response after which the client asked to close."""
    request = head("GET /api/services HTTP/1.1", "Connection: close")
    for asked in (request, b"GET /api/services HTTP/1.0\r\n\r\n"):
        with Server("--port", 0, "--workers", 1) as server, server.client() as client:
            client.send(asked + get("/api/services") * 3)
            response = client.response()
            check(response.status == 200 and response.closes(), f"it was answered {response.status}, {response.fields}")
            check(client.reads_end() == b"", "something follows a closing response")


def half_closed() -> None:
    """Checks that a client that has ended its side gets its responses."""
    with Server("--port", 0, "--workers", 1) as server, server.client() as client:
        client.send(post(1) + get("/api/traces/1"))
        client.socket.shutdown(socket.SHUT_WR)
        check([client.response().status, client.response().status] == [202, 200], "a client that has ended its side was answered otherwise")
        check(client.reads_end() == b"", "something follows the last response")


def pipelined() -> None:
    """Checks that pipelined requests are answered in turn."""
    with Server("--port", 0, "--workers", 1) as server, server.client() as client:
        client.send(b"".join(post(trace) + get(f"/api/traces/{trace:x}") + get("/api/x") for trace in range(1, 101)))
        for trace in range(1, 101):
            statuses = []
            for _ in range(3):
                response = client.response()
                statuses.append(response.status)
                if response.status == 200:
                    check(response.traces() == [f"{trace:016x}"], f"trace {trace} is answered by {response.traces()}")
            check(statuses == [202, 200, 404], f"the requests of trace {trace} were answered {statuses}")


def pipelined_while_answered() -> None:
    """Checks a third request that comes while the second one, which came with the first, is being answered."""
    request = get("/api/services")
    with Server("--port", 0, "--workers", 1) as server, server.client() as client:
        for number in range(20_000):
            client.send(request + request)
            for _ in range(number % 200):
                pass
            client.send(request)
            for _ in range(3):
                check(client.response().status == 200, "not answered 200")


def pipelined_in_pieces() -> None:
    """Checks that pipelined requests that come in pieces are answered in turn."""
    with Server("--port", 0, "--workers", 1) as server, server.client() as client:
        requests = b"".join(post(trace) + get(f"/api/traces/{trace:x}") for trace in range(1, 4))
        for byte in requests:
            client.send(bytes([byte]))
        statuses = [client.response().status for _ in range(6)]
        check(statuses == [202, 200] * 3, f"the requests were answered {statuses}")
        for place in range(0, len(requests), 7):
            client.send(requests[place:place + 7])
        statuses = [client.response().status for _ in range(6)]
        check(statuses == [202, 200] * 3, f"the requests were answered {statuses}")


def large_answers_unread() -> None:
    """Checks a client that asks for much before it reads, so that the server's writes have to wait."""
    with Server("--port", 0, "--workers", 2, "--idle", 5) as server, server.client() as client:
        for _ in range(100):
            client.ask(post(1, operation="o" * 2000), 202)
        client.send(get("/api/traces/1") * 60)
        time.sleep(1)
        server.is_well()
        lengths = {len(client.response().body) for _ in range(60)}
        check(len(lengths) == 1 and min(lengths) > 200_000, f"the answers have {lengths} bytes")


def in_turn_at_two_workers() -> None:
    """Checks 200 connections at two workers, each with requests of its own, all under way at once."""
    with Server("--port", 0, "--workers", 2) as server, contextlib.ExitStack() as stack:
        clients = [stack.enter_context(server.client()) for _ in range(200)]
        for turn in range(5):
            for number, client in enumerate(clients):
                trace = 1000 * (number + 1) + turn
                client.send(post(trace) + get(f"/api/traces/{trace:x}"))
            for number, client in enumerate(clients):
                status = client.response().status
                check(status == 202, f"a batch was answered {status}")
                check(client.response().traces() == [f"{1000 * (number + 1) + turn:016x}"], "another trace was answered")


def cut_at_each_byte() -> None:
    """Checks a request with a pause at each of its bytes, during which the one worker answers another client."""
    requests = [post(1), get("/api/traces/1"), post(2) + get("/api/traces/2")]
    with Server("--port", 0, "--workers", 1) as server, server.client() as other:
        for request in requests:
            for cut in range(1, len(request)):
                with server.client() as client:
                    client.send(request[:cut])
                    other.ask(get("/api/x"), 404)
                    client.send(request[cut:])
                    statuses = [client.response().status for _ in range(request.count(b"HTTP/1.1"))]
                    check(set(statuses) <= {200, 202}, f"cut at {cut}, {request[:30]!r} was answered {statuses}")


def large_store(server: Server, count: int = 100) -> bytes:
    """Makes a trace whose answer has this number of spans with a long operation each, and returns that answer."""
    with server.client() as client:
        for _ in range(count):
            client.ask(post(1, operation="o" * 50_000), 202)
        return client.ask(get("/api/traces/1"), 200).body


def slow_readers() -> None:
    """Clients that don't read their answers hold no worker, and get them whole later."""
    with Server("--port", 0, "--workers", 2) as server, contextlib.ExitStack() as stack:
        whole = large_store(server)
        slow = [stack.enter_context(server.client(room=4096)) for _ in range(20)]
        for client in slow:
            client.send(get("/api/traces/1") * 2)
        with server.client() as quick:
            for trace in range(2, 102):
                quick.ask(post(trace), 202)
                found(quick, trace)
        for client in slow:
            for _ in range(2):
                check(client.response().body == whole, "the answer that was read late is another one")


def many_spans(server: Server, count: int = 200_000) -> None:
    """Fills a store with this number of traces with a span each, in bodies of a thousand."""
    with server.client() as client:
        for first in range(1, count, 1000):
            client.ask(post_body(wire.batch("many", [wire.span(first + k, 1) for k in range(1000)])), 202)


class Counting(threading.Thread):
    """Asks for all traces of `many_spans`, and counts the bytes of the answer as fast as they come."""

    def __init__(self, client: Client) -> None:
        super().__init__()
        self.client = client
        self.taken, self.size, self.ended = 0, 0, False
        self.start()

    def run(self) -> None:
        """Asks and counts."""
        self.client.send(get("/api/traces?service=many&limit=0"))
        head = b""
        while b"\r\n\r\n" not in head:
            head += self.client.socket.recv(4096)
        top, _, body = head.partition(b"\r\n\r\n")
        self.size = int(top.lower().partition(b"content-length: ")[2].split(b"\r\n")[0])
        self.taken, room = len(body), bytearray(1 << 20)
        while self.taken < self.size:
            count = self.client.socket.recv_into(room)
            if not count:
                return
            self.taken += count
        self.ended = True


ROOM_FOR_MANY = ["--batches", 1000, "--spans", 200_000]


def quick_reader() -> str:
    """Checks that while a client takes a large answer as fast as it comes, the one worker answers another client before that answer ends."""
    with Server("--port", 0, "--workers", 1, *ROOM_FOR_MANY) as server, server.client() as quick, server.client() as other:
        other.ask(get("/api/x"), 404)
        many_spans(server)
        reader = Counting(quick)
        while not reader.taken and reader.is_alive():
            time.sleep(0.001)
        other.ask(get("/api/x"), 404)
        taken = reader.taken
        reader.join()
        check(reader.ended, "the large answer was cut")
        check(taken < reader.size // 2, f"the other client was answered after {taken:,} of {reader.size:,} bytes")
        return f"answered after {taken:,} of {reader.size:,} bytes"


def store_with_long_names(server: Server, count: int = 300) -> None:
    """Fills a store so that each kind of answer is long: services that each call the next, and operations of one service."""
    def name(kind: str, number: int) -> str:
        return f"{kind}{number % count}" + "-" * 2000

    with server.client() as client:
        for number in range(count):
            caller = wire.batch(name("s", number), [wire.span(number + 1, 1)])
            callee = wire.batch(name("s", number + 1), [wire.span(number + 1, 2, parent=1)])
            one = wire.batch("many", [wire.span(1000 + number, 1, operation=name("o", number)), wire.span(5000, 2 + number, parent=1)])
            for body in (caller, callee, one):
                client.ask(post_body(body), 202)
        client.ask(post_body(wire.batch("late", [wire.span(6000, 1, start=LATE)])), 202)


def each_kind_read_slowly() -> None:
    """Checks that a client that reads slowly while batches come gets each kind of answer whole, as it was when it was asked for."""
    asked = ["/api/traces/1388", "/api/traces?service=many&limit=0&start=0&end=100000", "/api/services", "/api/services/many/operations",
             "/api/operations?service=many", "/api/dependencies?endTs=100&lookback=100"]
    with Server("--port", 0, "--workers", 2, "--batches", 10_000) as server, contextlib.ExitStack() as stack:
        store_with_long_names(server)
        writer = stack.enter_context(server.client())
        whole = [writer.ask(get(target), 200).body for target in asked]
        slow = [stack.enter_context(server.client(room=4096)) for _ in asked]
        for client, target in zip(slow, asked):
            client.send(get(target))
        for number in range(1, 101):
            writer.ask(post_body(wire.batch("late", [wire.span(6000 + number, 1, start=LATE)])), 202)
            for client in slow:
                client.input += client.socket.recv(200)
        for client, target, body in zip(slow, asked, whole):
            check(len(body) > 20_000, f"the answer to {target} is short")
            check(client.response().body == body, f"the answer to {target} that was read slowly is another one")


def byte_at_a_time() -> None:
    """Checks a response that is taken a byte at a time, while the one worker answers others."""
    with Server("--port", 0, "--workers", 1) as server, server.client(room=1024) as slow, server.client() as quick:
        whole = large_store(server)
        slow.send(get("/api/traces/1") + get("/api/services"))
        for number in range(3000):
            slow.input += slow.socket.recv(1)
            if number % 100 == 0:
                quick.ask(get("/api/x"), 404)
        check(slow.response().body == whole, "the answer is another one")
        check(slow.response().status == 200, "the request behind it was not answered")


def read_late(request: bytes, responses: int) -> None:
    """Checks a client that asks for much, says that it sends no more, and reads late."""
    with Server("--port", 0, "--workers", 1) as server, server.client(room=4096) as client:
        whole = large_store(server)
        client.send(request)
        if b"close" not in request:
            client.socket.shutdown(socket.SHUT_WR)
        time.sleep(0.5)
        server.is_well()
        for _ in range(responses):
            check(client.response().body == whole, "the answer is another one")
        check(client.reads_end() == b"", "something follows the last response")


def goes_away_while_answered(leave: Callable[[Client], None]) -> None:
    """Clients that go while their answers wait; the server goes on."""
    with Server("--port", 0, "--workers", 1) as server:
        whole = large_store(server)
        for _ in range(10):
            client = server.client(room=4096)
            client.send(get("/api/traces/1") * 3)
            time.sleep(0.05)
            leave(client)
        with server.client() as client:
            check(client.ask(get("/api/traces/1"), 200).body == whole, "the answer is another one")


def silent_reader() -> None:
    """Checks that a client that takes nothing of its response for --idle seconds is closed."""
    with Server("--port", 0, "--workers", 1, "--idle", 1) as server, server.client(room=4096) as client:
        whole = large_store(server)
        client.send(get("/api/traces/1"))
        time.sleep(4.5)
        got = b""
        with contextlib.suppress(OSError):
            while data := client.socket.recv(65536):
                got += data
        check(len(got) < len(whole), "the whole answer came")


def seen_elsewhere() -> None:
    """Checks that a batch that was acknowledged here is found there."""
    with Server("--port", 0, "--workers", 4) as server, server.client() as early, server.client() as writer:
        early.ask(get("/api/traces/1"), 404)
        for trace in range(1, 101):
            writer.ask(post(trace), 202)
            found(early, trace)
            with server.client() as late:
                found(late, trace)


def reset_at_once() -> None:
    """Checks that clients that reset right after connecting do no harm."""
    with Server("--port", 0, "--workers", 2, "--sessions", 12) as server:
        with server.client() as client:
            client.ask(post(1), 202)
            for _ in range(10):
                server.client().reset()
            found(client, 1)
        with server.client() as client:
            found(client, 1)
        server.served(12, 1)


def closed_at_once() -> None:
    """Checks that clients that close right after connecting do no harm."""
    with Server("--port", 0, "--workers", 2, "--sessions", 11) as server:
        for _ in range(10):
            server.client().socket.close()
        with server.client() as client:
            client.ask(post(1), 202)
        server.served(11, 1)


def stop(server: Server, seconds: float) -> None:
    """Stops a server for these seconds, and lets it go on."""
    server.run.send_signal(signal.SIGSTOP)
    time.sleep(seconds)
    server.run.send_signal(signal.SIGCONT)
    time.sleep(0.1)


def many_at_once() -> None:
    """Checks that 500 clients that connect and post while the server is stopped are all answered when it goes on."""
    with Server("--port", 0, "--workers", 2) as server:
        server.run.send_signal(signal.SIGSTOP)
        clients = [Client(server.port) for _ in range(500)]
        for number, client in enumerate(clients, 1):
            client.send(post(number))
        server.run.send_signal(signal.SIGCONT)
        for client in clients:
            status = client.response().status
            check(status == 202, f"a batch was answered {status}")
        for client in clients:
            client.socket.close()


def a_long_answer() -> None:
    """Checks that while the one worker makes an answer for longer than `--idle`, neither the client that asked nor another one counts as silent."""
    count = 1_000_000
    with Server("--port", 0, "--workers", 1, "--idle", 2, "--batches", 1000, "--spans", count) as server:
        many_spans(server, count)
        with server.client() as asking, server.client() as other:
            other.ask(get("/api/x"), 404)
            reader = Counting(asking)
            time.sleep(0.05)
            stop(server, 4)
            check(not reader.taken, "the answer began before the server was stopped: this case needs more spans")
            other.ask(get("/api/x"), 404)
            reader.join()
            check(reader.ended, f"the long answer was cut after {reader.taken:,} of {reader.size:,} bytes")


def stopped_and_continued(idle: int) -> None:
    """Checks that a server that is stopped now and then loses nothing."""
    with Server("--port", 0, "--workers", 2, "--idle", idle, "--sessions", 2) as server:
        stop(server, 0.2)
        with server.client() as client:
            client.ask(post(1), 202)
            for _ in range(3):
                time.sleep(0.1)
                stop(server, 0.2)
            found(client, 1)
            request = post(2)
            client.send(request[:30])
            time.sleep(0.1)
            stop(server, 0.2)
            client.send(request[30:-20])
            time.sleep(0.1)
            stop(server, 0.2)
            client.send(request[-20:])
            status = client.response().status
            check(status == 202, f"a batch during whose body it was stopped was answered {status}")
        stop(server, 0.2)
        with server.client() as client:
            found(client, 2)
        server.served(2, 2)


def told_since(server: Server, known: list[str]) -> list[str]:
    """Returns what it has told since these lines; each is written before the response that it goes with."""
    return server.told()[len(known):]


def told_of_taken(server: Server) -> list[str]:
    """Returns its lines that say that all connections are taken."""
    return [line for line in server.told() if line.startswith(ALL_TAKEN)]


def spans_of(trace: int, count: int) -> bytes:
    """Returns a request that hands in this number of spans of a trace."""
    return post_body(wire.batch("shop", [wire.span(trace, number) for number in range(1, count + 1)]))


def told_at_the_start() -> None:
    """Checks the lines that docs/operating.md has, to the letter; with a host that others reach, the one about it comes first."""
    exposed = "takes connections from other machines: anyone who reaches it may read all traces and send spans, with no password and no TLS"
    size = "that may take 42 MB with one tag a span, 71 MB with five; more if tags are long, up to 8 times with one span a batch and twenty process tags"
    held = "holds at most 1000 batches and 100000 spans, and shows"
    for words, host, wanted in (((), None, [f"{held} every trace", size]),
                                (("--traces", 1), None, [f"{held} the newest 1 trace", size]),
                                (("--traces", 7), "0.0.0.0", [f"0.0.0.0 {exposed}", f"{held} the newest 7 traces", size])):
        with Server("--port", 0, *words, host=host) as server, server.client() as client:
            client.ask(get("/api/services"), 200)
            check(server.told() == wanted, f"at the start it told {server.told()}")


def told_of_few_files() -> None:
    """Checks that it warns below one file for each connection, one for each worker and 4 more, and has enough with these."""
    with Server("--port", 0, files=256) as server, server.client() as client:
        client.ask(get("/api/services"), 200)
        wanted = "the system lets 256 files be open (ulimit -n), and --connections 1024 needs 1032: raise it, or give fewer"
        check(server.told()[2:] == [wanted], f"with 256 files it told {server.told()}")
    with Server("--port", 0, "--workers", 3, "--connections", 20, files=27) as server, contextlib.ExitStack() as stack:
        for _ in range(20):
            stack.enter_context(server.client()).ask(get("/api/services"), 200)
        more = [line for line in server.told()[2:] if not line.startswith(ALL_TAKEN)]
        check(not more, f"with a file for all that it may open it told {more}")


def told_why_it_cannot_start() -> None:
    """Checks what is told with less address space than the store needs, and with less than a thread needs."""
    largest = ("--batches", 1_000_000, "--spans", 10_000_000)
    for words, space, wanted in ((largest, 1 << 30, "no memory for a store with these limits: give smaller ones"),
                                 ((), 6 << 20, "no thread can be made")):
        done = subprocess.run([Server.binary, "serve", "--port", "0", *map(str, words)], stdin=subprocess.DEVNULL, capture_output=True,
                              timeout=PATIENCE, preexec_fn=limited_by({resource.RLIMIT_AS: space}))
        check(done.returncode == 5 and not done.stdout, f"with {space} bytes the status is {done.returncode}, and it printed {done.stdout!r}")
        told = done.stderr.decode().splitlines()
        check(told == [f"ends with status 5: {wanted}"], f"with {space} bytes it told {told}")


def told_how_full() -> None:
    """Checks what is told as the batches come near their limit."""
    with Server("--port", 0, "--workers", 2, "--batches", 10, "--spans", 1000) as server, server.client() as client:
        client.ask(get("/api/services"), 200)
        begin = server.told()
        for trace in range(1, 11):
            client.ask(post(trace), 202)
        levels = [(50, 5), (75, 8), (90, 9)]
        wanted = [f"at least {level}% full: {held} of 10 batches (--batches)" for level, held in levels]
        check(told_since(server, begin) == wanted, f"up to 10 of 10 batches it told {told_since(server, begin)}")


def told_of_spans() -> None:
    """Checks what is told as the spans come near their limit."""
    with Server("--port", 0, "--workers", 2, "--batches", 1000, "--spans", 100) as server, server.client() as client:
        client.ask(get("/api/services"), 200)
        begin = server.told()
        for trace, count in ((1, 49), (2, 1), (3, 45)):
            client.ask(spans_of(trace, count), 202)
        wanted = [f"at least {level}% full: {held} of 100 spans (--spans)" for level, held in ((50, 50), (90, 95))]
        check(told_since(server, begin) == wanted, f"up to 95 of 100 spans it told {told_since(server, begin)}")


def told_a_repeat_once() -> None:
    """Checks that a batch that is sent again is held once."""
    body = post_body(wire.batch("shop", [wire.span(1, 7)], number=4))
    with Server("--port", 0, "--workers", 2, "--batches", 2) as server, server.client() as client:
        begin = server.told()
        for _ in range(3):
            client.ask(body, 202)
        told = [line for line in server.told() if "full" in line]
        check(told == ["at least 50% full: 1 of 2 batches (--batches)"], f"for one batch sent three times it told {told} after {begin}")


def told_that_it_is_full() -> None:
    """Checks what is told of batches that don't fit."""
    with Server("--port", 0, "--workers", 1, "--batches", 2, "--spans", 10) as server, server.client() as client:
        client.ask(spans_of(1, 9), 202)
        begin = server.told()
        for _ in range(2):
            client.ask(spans_of(2, 2), 503)
            client.ask(spans_of(2, 11), 503)
        client.ask(spans_of(3, 1), 202)
        for _ in range(2):
            client.ask(spans_of(4, 1), 503)
        more = "what doesn't fit is answered 503; restart with a larger"
        wanted = [
            f"full: 1 of 2 batches and 9 of 10 spans: {more} --spans",
            "a batch of 11 spans never fits: --spans 10",
            "at least 90% full: 2 of 2 batches (--batches)",
            f"full: 2 of 2 batches and 10 of 10 spans: {more} --batches",
        ]
        check(told_since(server, begin) == wanted, f"it told {told_since(server, begin)}")


def told_that_all_are_taken() -> None:
    """Checks the line that all connections are taken, which the other worker may tell before the second client waits."""
    with Server("--port", 0, "--workers", 2, "--connections", 1) as server:
        with server.client() as first, server.client() as second:
            first.ask(get("/api/services"), 200)
            second.send(get("/api/services"))
            ends = time.monotonic() + 10
            while not told_of_taken(server) and time.monotonic() < ends:
                time.sleep(0.05)
            first.socket.close()
            check(second.response().status == 200, "the one that waited isn't served")
        told = told_of_taken(server)
        wanted = f"{ALL_TAKEN}: the next ones wait until one closes; a larger --connections or a shorter --idle helps"
        check(told == [wanted], f"it told {told}")


def told_what_is_counted() -> None:
    """Checks the lines of `--report`."""
    with Server("--port", 0, "--workers", 2, "--batches", 2, "--report", 1, "--sessions", 1) as server:
        with server.client() as client:
            for trace, status in ((1, 202), (2, 202), (3, 503)):
                client.ask(post(trace), status)
            client.ask(get("/api/services"), 200)
            time.sleep(2.5)
            counted = [line for line in server.told() if " held, " in line]
        server.served(1, 2, 1)
        check(len(counted) in (2, 3), f"in 2.5 seconds it told {counted}")
        check(counted[-1] == "2 of 2 batches and 2 of 100000 spans held, 2 acknowledged, 1 query, 1 refused 20", f"it told {counted[-1]!r}")


def told_nothing_unless_asked() -> None:
    """Checks that no counts are told without `--report`."""
    with Server("--port", 0, "--workers", 1) as server:
        time.sleep(1.5)
        check(not any(" held, " in line for line in server.told()), f"without --report it told {server.told()}")


def told_why_it_ends() -> None:
    """Checks what is told last."""
    with Server("--port", 0, "--workers", 1) as server:
        time.sleep(0.2)
        server.shut_listener()
        status, _ = server.ends()
        check(status == 4, f"the status is {status}")
        check(server.told()[-1] == "ends with status 4: a worker could accept no more connections", f"it told {server.told()}")
    with Server("--port", 0, "--workers", 1, "--sessions", 1) as server:
        server.stdout.close()
        with server.client() as client:
            client.ask(post(1), 202)
        status = server.run.wait(PATIENCE)
        check(status == 4, f"with its output shut the status is {status}")
        check(server.told()[-1] == "ends with status 4: the output failed", f"it told {server.told()}")


CASES: Mapping[str, Callable[[], str | None]] = {
    "8 clients at once, 8 workers": lambda: eight_clients(8),
    "8 clients at once, 2 workers": lambda: eight_clients(2),
    "clients that stall in a head": stalled_heads,
    "a client that stalls in a body": stalled_body,
    "a stalled client at each worker": stalled_everywhere,
    "idle between requests": idle_between_requests,
    "pauses below the idle time": slow_sender,
    "no idle limit": no_idle_limit,
    "goes away in a body": lambda: goes_away_in_a_body(lambda client: client.socket.close()),
    "reset in a body": lambda: goes_away_in_a_body(Client.reset),
    "reset with answers unread": goes_away_unread,
    "--sessions, one after the other": sessions_end,
    "--sessions, at once": sessions_end_at_once,
    "--sessions, the first ends last": last_session_is_whole,
    "--sessions 1": one_session,
    "--sessions 3, six clients": more_clients_than_sessions,
    "books of a full store": full_store,
    "--host 127.0.0.1": lambda: listens_on("127.0.0.1", False),
    "--host 0.0.0.0": lambda: listens_on("0.0.0.0", True),
    "--host ::1": lambda: listens_on("::1", False),
    "--host ::": lambda: listens_on("::", True),
    "told at the start": told_at_the_start,
    "told of few files": told_of_few_files,
    "told why it can't start": told_why_it_cannot_start,
    "told how full it is": told_how_full,
    "told how full it is of spans": told_of_spans,
    "told of a repeat": told_a_repeat_once,
    "told that it is full": told_that_it_is_full,
    "told that all connections are taken": told_that_all_are_taken,
    "told what is counted": told_what_is_counted,
    "told no counts": told_nothing_unless_asked,
    "told why it ends": told_why_it_ends,
    "a port in use": lambda: port_in_use("127.0.0.1"),
    "a port in use, ::1": lambda: port_in_use("::1"),
    "closing: body too large": body_too_large,
    "closing: bad head": bad_head,
    "closing: head too long": head_too_long,
    "closing: method not allowed": method_not_allowed,
    "closing: asked to close": asked_to_close,
    "half-closed": half_closed,
    "pipelined": pipelined,
    "pipelined in pieces": pipelined_in_pieces,
    "pipelined while another is answered": pipelined_while_answered,
    "large answers that are read late": large_answers_unread,
    "200 connections, 2 workers": in_turn_at_two_workers,
    "a pause at each byte": cut_at_each_byte,
    "slow readers hold no worker": slow_readers,
    "a quick reader of a large answer holds no worker": quick_reader,
    "a response taken a byte at a time": byte_at_a_time,
    "each kind of answer read slowly": each_kind_read_slowly,
    "half-closed, read late": lambda: read_late(get("/api/traces/1") * 2, 2),
    "asked to close, read late": lambda: read_late(head("GET /api/traces/1 HTTP/1.1", "Connection: close"), 1),
    "goes away while answered": lambda: goes_away_while_answered(lambda client: client.socket.close()),
    "reset while answered": lambda: goes_away_while_answered(Client.reset),
    "takes no response": silent_reader,
    "acknowledged here, found there": seen_elsewhere,
    "reset right after connecting": reset_at_once,
    "closed right after connecting": closed_at_once,
    "500 clients connect at once": many_at_once,
    "an answer that takes longer than --idle": a_long_answer,
    "stopped and continued": lambda: stopped_and_continued(10),
    "stopped and continued, no idle limit": lambda: stopped_and_continued(0),
}


def main() -> None:
    """Runs the cases."""
    asked = asked_of(__doc__)
    asked.add_argument("--only", default="", help="the cases whose name has this word")
    options = asked.parse_args()
    Server.binary = options.bin
    run_cases(CASES, options.only)


if __name__ == "__main__":
    main()
