"""The clients of checks/history.py: batches, queries, connections, and what each client keeps of them."""
import collections
import hashlib
import itertools
import json
import random
import re
import socket
import time
import traceback
from array import array
from collections.abc import Iterable, Sequence
from typing import Any, NamedTuple, Protocol

import servers
import wire
from servers import THRIFT, head, post_body
from wire import field

PATIENCE = 30
PER_PAGE = 50
PAGES_OF_SERVICE = 20
RECORD = 0
RECORD_READABLE = 10_000
TOLD = 10


class Violation(Exception):
    """What a client saw that no history explains, as it came."""


class Parted(Exception):
    """The server ended the connection."""


# Batches, by docs/using.md (The wire format). A batch is known by a number: its writer, and which of the writer's batches it is.

def batch_of(writer: int, number: int) -> int:
    """Returns the batch of a writer that has this number."""
    return writer << 24 | number


def batch_name(batch: int) -> str:
    """Returns a batch's name."""
    return f"{batch >> 24}-{batch & 0xFFFFFF:06d}"


def service_of(batch: int, page: int) -> int:
    """Returns the service of a batch of this page."""
    return (batch >> 24) << 24 | page // PAGES_OF_SERVICE


def service_name(service: int) -> str:
    """Returns a service's name."""
    return f"w{service >> 24}.{service & 0xFFFFFF:04d}"


def from_name(name: str) -> int | None:
    """Returns the batch or the service of a name; None for what no client sent."""
    parts = re.fullmatch(r"w?(\d{1,3})[-.](\d{4,7})", name)
    return int(parts[1]) << 24 | int(parts[2]) if parts else None


def from_names(names: Iterable[str]) -> list[int] | None:
    """Returns the batches or the services of names; None if no client sent one of them."""
    found = [from_name(name) for name in names]
    known = [it for it in found if it is not None]
    return known if len(known) == len(found) else None


def trace_id(page: int) -> int:
    """Returns the id of a page's trace."""
    return 0x1000 + page


def span(trace: int, span_id: int, operation: str) -> bytes:
    """Returns the bytes of a span."""
    return wire.span(trace, span_id, operation=operation, start=trace, duration=1)


def body_of(batch: int, page: int) -> bytes:
    """Returns a batch's bytes. Its span is first in the record, and has another operation: a search for the batch finds its page alone."""
    spans = [span(trace_id(RECORD), batch << 2 | 2, "record")]
    spans += [span(trace_id(page), batch << 2 | part, batch_name(batch)) for part in (0, 1)]
    return wire.batch(service_name(service_of(batch, page)), spans)


def damaged(rng: random.Random, body: bytes) -> bytes:
    """Returns bytes that are no batch."""
    last_name = body.rindex(field(11, 5)) + 7
    last_flags = body.rindex(field(8, 7))
    size = body.index(field(15, 2)) + 4
    return rng.choice([
        lambda: body[:rng.randrange(1, len(body))],
        lambda: body + b"\0",
        lambda: b"\x10" + body[1:],
        lambda: body[:last_name] + b"\xff" + body[last_name + 1:],
        lambda: body[:last_flags] + field(8, 99) + body[last_flags + 3:],
        lambda: body[:size] + b"\xff" + body[size + 1:],
    ])()


# Requests.

def in_chunks(rng: random.Random, body: bytes) -> bytes:
    """Returns a body in chunks of several sizes."""
    parts = []
    while body:
        size = rng.choice([1, 7, 64, 4096])
        extension = rng.choice([b"", b"", b";a=b", b" "])
        parts.append(b"%x%s\r\n%s\r\n" % (len(body[:size]), extension, body[:size]))
        body = body[size:]
    return b"".join(parts) + b"0\r\n" + rng.choice([b"", b"", b"X-Sum: 1\r\n"]) + b"\r\n"


def post(rng: random.Random, body: bytes, chunked: bool = False, kind: str = THRIFT) -> bytes:
    """Returns a request that hands in a body."""
    if chunked:
        return head("POST /api/traces HTTP/1.1", f"Content-Type: {kind}", "Transfer-Encoding: chunked") + in_chunks(rng, body)
    return post_body(body, kind)


# What a query is for. A subject is one number: its kind, and which page, service or batch.

PAGE, OPERATIONS, SERVICES, ABSENT, ACKNOWLEDGED = range(5)
PLACE = 40


class Subject(NamedTuple):
    """The kind of a subject, and which page, service or batch it is."""

    kind: int
    which: int


class Seen(NamedTuple):
    """What a query shows: the number of its subject, and what was found of it."""

    subject: int
    items: list[int]


class Query(Protocol):
    """A query: its target, and how its answer is read."""

    @property
    def target(self) -> str:
        """Returns the target of its request."""

    def read(self, status: int, body: bytes) -> Seen:
        """Returns what the answer shows; raises Violation if no history explains it."""


def subject(kind: int, which: int = 0) -> int:
    """Returns the number of a subject."""
    return kind << PLACE | which


def parts_of(number: int) -> Subject:
    """Returns the kind of a subject, and which it is."""
    return Subject(number >> PLACE, number & (1 << PLACE) - 1)


def told_subject(number: int) -> str:
    """Returns how a subject is called."""
    kind, which = parts_of(number)
    if kind == PAGE:
        return "the record" if which == RECORD else f"page {which} (trace {trace_id(which):x})"
    return {OPERATIONS: f"the operations of {service_name(which)}", SERVICES: "the services",
            ABSENT: f"a search for {batch_name(which)}"}[kind]


def digest(items: Sequence[int]) -> int:
    """Returns a sum of numbers."""
    return int.from_bytes(hashlib.blake2b(array("Q", items).tobytes(), digest_size=8).digest(), "big")


def listed(status: int, body: bytes) -> Any:
    """Returns the data of an answer, which has to be 200."""
    if status != 200:
        raise Violation(f"a query was answered {status} {body[:120]!r}")
    return json.loads(body)["data"]


def batches_shown(trace: Any, page: int) -> list[int]:
    """Returns the batches of a trace's spans, in order; each is whole."""
    ids = [int(item["spanID"], 16) for item in trace["spans"]]
    parts = (2,) if page == RECORD else (0, 1)
    batches = [number >> 2 for number in ids[::len(parts)]]
    whole = [batch << 2 | part for batch in batches for part in parts]
    if ids != whole:
        place = next(place for place, (one, other) in enumerate(itertools.zip_longest(ids, whole)) if one != other)
        batch = batch_name(whole[place] >> 2)
        raise Violation(f"{told_subject(subject(PAGE, page))} does not show the whole of {batch}, from span {place + 1} on")
    return batches


class PageLook:
    """A query for a page."""

    def __init__(self, page: int, raw: bool = False) -> None:
        self.page = page
        self.target = f"/api/traces/{trace_id(page):x}" + ("?raw=1" if raw else "")

    def read(self, status: int, body: bytes) -> Seen:
        """Returns the batches that the page has."""
        if status == 404:
            return Seen(subject(PAGE, self.page), [])
        return Seen(subject(PAGE, self.page), batches_shown(listed(status, body)[0], self.page))


class OperationsLook:
    """A query for the operations of a service, of which each is one batch."""

    def __init__(self, service: int, kinds: bool = False) -> None:
        self.service = service
        name = service_name(service)
        self.kinds = kinds
        self.target = f"/api/operations?service={name}" if kinds else f"/api/services/{name}/operations"

    def read(self, status: int, body: bytes) -> Seen:
        """Returns the batches that the service has."""
        items = listed(status, body)
        names = [item["name"] for item in items] if self.kinds else items
        batches = from_names(name for name in names if name != "record")
        if batches is None or bool(batches) != ("record" in names):
            raise Violation(f"the operations of {service_name(self.service)} are {names[:20]}")
        return Seen(subject(OPERATIONS, self.service), sorted(batches))


class ServicesLook:
    """A query for the services."""

    target = "/api/services"

    def read(self, status: int, body: bytes) -> Seen:
        """Returns the services."""
        names = listed(status, body)
        services = from_names(names)
        if services is None:
            raise Violation(f"the services are {names[:20]}")
        return Seen(subject(SERVICES), sorted(services))


class SearchLook:
    """A search for one batch: it finds the batch's page, or shows that the batch isn't there."""

    def __init__(self, batch: int, page: int) -> None:
        self.batch = batch
        self.service = service_of(batch, page)
        self.target = f"/api/traces?service={service_name(self.service)}&operation={batch_name(batch)}"

    def read(self, status: int, body: bytes) -> Seen:
        """Returns the batches of the page, or that the batch is absent."""
        traces = listed(status, body)
        if not traces:
            return Seen(subject(ABSENT, self.batch), [self.service])
        page = int(traces[0]["traceID"], 16) - trace_id(0)
        batches = batches_shown(traces[0], page)
        if len(traces) > 1 or self.batch not in batches:
            raise Violation(f"a search for {batch_name(self.batch)} finds {len(traces)} traces, or one without it")
        return Seen(subject(PAGE, page), batches)


# What a client keeps.

WHOLE, KEPT, OPEN, REFUSED = range(4)


class Sent(NamedTuple):
    """A batch that was sent, on which connection, what came of it, and when."""

    connection: int
    batch: int
    outcome: int
    moment: float


class Told(NamedTuple):
    """What no history explains, on which connection, and when."""

    moment: float
    connection: int
    what: str


class Log:
    """What one client sent and was answered, in order. An event is a query or an acknowledgement: a few numbers each."""

    def __init__(self, name: str) -> None:
        self.name = name
        self.opened: array[float] = array("d")
        self.first_event: array[int] = array("Q")
        self.subjects: array[int] = array("Q")
        self.counts: array[int] = array("Q")
        self.digests: array[int] = array("Q")
        self.begins: array[float] = array("d")
        self.ends: array[float] = array("d")
        self.sent: list[Sent] = []
        self.pages: dict[int, int] = {}
        self.seen_last: dict[int, list[int]] = {}
        self.violations: list[Told] = []
        self.troubles: collections.Counter[str] = collections.Counter()

    def opens(self) -> None:
        """Begins a connection."""
        self.opened.append(time.monotonic())
        self.first_event.append(len(self.subjects))

    def connection(self) -> int:
        """Returns the number of the present connection."""
        return len(self.opened) - 1

    def event(self, subject_seen: int, count: int, items_digest: int, begin: float) -> None:
        """Keeps a query or an acknowledgement."""
        self.subjects.append(subject_seen)
        self.counts.append(count)
        self.digests.append(items_digest)
        self.begins.append(begin)
        self.ends.append(time.monotonic())

    def looked(self, subject_seen: int, items: list[int], begin: float) -> None:
        """Keeps what a query showed."""
        if subject_seen >> PLACE == ABSENT:
            self.event(subject_seen, 0, items[0], begin)
            return
        self.event(subject_seen, len(items), digest(items), begin)
        self.compare(subject_seen, items)

    def compare(self, subject_seen: int, items: list[int]) -> None:
        """Keeps two queries of this client of which neither is a prefix of the other, while both are at hand."""
        before = self.seen_last.get(subject_seen, [])
        shorter, longer = sorted((before, items), key=len)
        agree = longer[:len(shorter)] == shorter if subject_seen >> PLACE == PAGE else set(shorter) <= set(longer)
        if not agree:
            self.violates(f"it is shown of {told_subject(subject_seen)} {told_difference(before, items)}")
        if len(self.seen_last) > 100:
            self.seen_last.clear()
        self.seen_last[subject_seen] = items

    def submitted(self, batch: int, outcome: int) -> None:
        """Keeps what came of a batch."""
        self.sent.append(Sent(self.connection(), batch, outcome, time.monotonic()))

    def violates(self, what: str) -> None:
        """Keeps what no history explains."""
        if len(self.violations) < TOLD:
            self.violations.append(Told(time.monotonic(), self.connection(), what))


def told_difference(before: list[int], items: list[int]) -> str:
    """Returns in words where two queries differ."""
    place = next((place for place, (one, other) in enumerate(zip(before, items)) if one != other), 0)
    earlier, now = (" ".join(batch_name(item) for item in shown[place:place + 3]) or "nothing" for shown in (before, items))
    return f"{now} from place {place + 1} on, where an earlier query of this client showed {earlier}"


# Connections.

class Connection(servers.Client):
    """A connection of a client that may send in pieces, and may read slowly."""

    def __init__(self, port: int, rng: random.Random, log: Log, narrow: bool = False) -> None:
        self.rng = rng
        self.log = log
        self.open = True
        self.narrow = narrow
        log.opens()
        super().__init__(port, PATIENCE, 4096 if narrow else None)

    def __exit__(self, *_: object) -> None:
        self.leave()

    def send(self, data: bytes) -> None:
        """Sends these bytes at once, or in pieces."""
        if len(data) < 2 or self.rng.random() < 0.8:
            super().send(data)
            return
        cuts = sorted(self.rng.randrange(1, len(data)) for _ in range(3))
        for begin, end in zip([0, *cuts], [*cuts, len(data)]):
            super().send(data[begin:end])
            time.sleep(self.rng.choice([0, 0.001]))

    def more(self) -> bool:
        """Reads some bytes, a slow client few at a time."""
        if self.narrow:
            time.sleep(0.0005)
        try:
            data = self.socket.recv(2048 if self.narrow else 65536)
        except ConnectionError:
            data = b""
        if not data:
            raise Parted
        self.input += data
        return True

    def response(self) -> servers.Response:
        """Returns the next response."""
        response = super().response()
        self.open = self.open and not response.closes()
        return response

    def ends_sending(self) -> None:
        """Ends its side of the connection."""
        self.socket.shutdown(socket.SHUT_WR)

    def leave(self) -> None:
        """Closes the connection, or resets it."""
        self.open = False
        if self.socket.fileno() >= 0 and self.rng.random() < 0.4:
            self.reset()
        else:
            self.socket.close()


# Requests that wait for their answers.

class Look:
    """A query that waits for its answer."""

    def __init__(self, look: Query) -> None:
        self.look = look
        self.bytes = head(f"GET {look.target} HTTP/1.1")

    def answered(self, log: Log, status: int, body: bytes, begin: float) -> None:
        """Keeps what the answer shows."""
        if status >= 500:
            log.troubles[f"queries answered {status}"] += 1
            return
        try:
            seen = self.look.read(status, body)
            log.looked(seen.subject, seen.items, begin)
        except Violation as fault:
            log.violates(str(fault))
        except (ValueError, LookupError, TypeError, ArithmeticError) as fault:
            log.violates(f"{self.look.target} was answered {status} {body[:120]!r}: {fault!r}")

    def unanswered(self, log: Log) -> None:
        """Keeps nothing."""
        pass


class HandIn:
    """A batch that is submitted; `wanted` is what a body that is none, or of another type, has to be answered."""

    def __init__(self, batch: int, request: bytes, wanted: int = 202) -> None:
        self.batch = batch
        self.bytes = request
        self.wanted = wanted

    def answered(self, log: Log, status: int, body: bytes, begin: float) -> None:
        """Keeps what came of the batch."""
        if status != self.wanted and status < 500:
            log.violates(f"{batch_name(self.batch)} was answered {status} {body[:120]!r} and not {self.wanted}")
        outcome = self.outcome(status, body)
        log.submitted(self.batch, outcome)
        if outcome == WHOLE:
            log.event(subject(ACKNOWLEDGED, self.batch), 0, 0, begin)

    def outcome(self, status: int, body: bytes) -> int:
        """Returns what a response says of the batch."""
        if self.wanted != 202:
            return REFUSED
        if b"deferred" in body:
            return KEPT
        if b"internal error" in body:
            return OPEN
        return WHOLE if status == 202 else REFUSED

    def unanswered(self, log: Log) -> None:
        """Keeps that the batch has no answer."""
        log.submitted(self.batch, OPEN if self.wanted == 202 else REFUSED)


# Clients.

class Client:
    """What writers and readers share: sessions, one after the other, until the end."""

    steps: list[int]

    def __init__(self, number: int, writers: int, port: int, seed: str, end: float, least: int, tickets: Any, pace: float) -> None:
        self.number = number
        self.writers = writers
        self.port = port
        self.rng = random.Random(f"{seed} {type(self).__name__} {number}")
        self.end = end
        self.least = least
        self.tickets = tickets
        self.pause = 1 / pace if pace else 0
        self.due = time.monotonic()
        self.log = Log(f"{type(self).__name__.lower()} {number}")
        self.known: collections.deque[tuple[int, int]] = collections.deque(maxlen=20)
        self.record_next = time.monotonic() + self.rng.random() * 5

    def run(self) -> None:
        """Makes sessions until the end."""
        while not self.is_over():
            try:
                self.session()
            except Parted:
                self.log.troubles["connections that the server ended unasked"] += 1
            except TimeoutError:
                self.log.troubles[f"waits of {PATIENCE} s for an answer"] += 1
            except ConnectionError as fault:
                self.log.troubles[f"connections that failed: {type(fault).__name__}"] += 1
                time.sleep(0.1)

    def is_over(self) -> bool:
        """Returns whether it is the end, on a slow machine only once there were enough batches, or a minute later."""
        late = time.monotonic() - self.end
        return late > 60 or late > 0 and self.handed_out() >= self.least

    def handed_out(self) -> int:
        """Returns how many batches all writers have begun, read without the lock."""
        return self.tickets.get_obj().value

    def waits_its_turn(self, count: int = 1) -> None:
        """Waits so that this number of turns come in its pace, some of them at once."""
        self.due = max(self.due + count * self.pause, time.monotonic() - 1)
        ahead = self.due - time.monotonic()
        if ahead > 0 and self.rng.random() < 0.8:
            time.sleep(min(ahead, 0.5))

    def session(self) -> None:
        """Makes one connection, and as many steps on it as one of `steps`."""
        with self.connects() as connection:
            for _ in range(self.rng.choice(self.steps)):
                if self.is_over() or not self.step(connection):
                    return

    def step(self, connection: Connection) -> bool:
        """Makes one step of a session; returns whether the connection is open still."""
        raise NotImplementedError

    def connects(self) -> Connection:
        """Opens a connection."""
        return Connection(self.port, self.rng, self.log, narrow=self.rng.random() < 0.1)

    def ask(self, connection: Connection, *requests: Look | HandIn) -> bool:
        """Sends the requests, pipelined, and reads their answers; returns whether the connection is open still."""
        waiting = collections.deque(requests)
        begin = time.monotonic()
        try:
            data = b"".join(request.bytes for request in requests)
            if data:
                connection.send(data)
            while waiting and connection.open:
                response = connection.response()
                waiting.popleft().answered(self.log, response.status, response.body, begin)
        finally:
            for request in waiting:
                request.unanswered(self.log)
        return connection.open

    def page(self) -> int:
        """Returns a page, most often the one that is written, or the one before."""
        newest = 1 + self.handed_out() // PER_PAGE
        oldest = self.rng.choice([newest, newest, newest, newest - 1, newest - 5, 1])
        return self.rng.randint(max(1, oldest), newest)

    def look(self) -> Look:
        """Returns a query for something that may be there."""
        kind = self.rng.random()
        if kind < 0.6 or not self.known:
            return Look(PageLook(self.page(), raw=kind < 0.1))
        batch, page = self.rng.choice(self.known)
        if kind < 0.75:
            return Look(OperationsLook(service_of(batch, page), kinds=kind < 0.66))
        if kind < 0.8:
            return Look(ServicesLook())
        if kind < 0.9:
            return Look(SearchLook(batch, page))
        return Look(PageLook(page))

    def looks(self, count: int) -> list[Look]:
        """Returns this number of queries."""
        return [self.look() for _ in range(count)]

    def record(self) -> list[Look]:
        """Returns a query for the record while it is short, now and then; else nothing."""
        if time.monotonic() < self.record_next or self.handed_out() > RECORD_READABLE:
            return []
        self.record_next = time.monotonic() + 5
        return [Look(PageLook(RECORD, raw=True))]

    def cut(self, connection: Connection, data: bytes, least: int, most: int) -> bool:
        """Sends the first bytes of a request, and then nothing more."""
        with_pause = self.rng.random() < 0.5
        connection.send(data[:self.rng.randint(least, most)])
        if with_pause:
            time.sleep(0.001)
        connection.leave()
        return False


class Reader(Client):
    """Asks, and now and then leaves in the middle."""

    steps = [1, 10, 100, 300]

    def step(self, connection: Connection) -> bool:
        """Makes one step of a session."""
        self.guess()
        kind = self.rng.random()
        if kind < 0.90:
            self.waits_its_turn()
            return self.ask(connection, *(self.record() or self.looks(1)))
        if kind < 0.98:
            self.waits_its_turn(5)
            return self.ask(connection, *self.looks(5))
        if kind < 0.985:
            request = self.look().bytes
            return self.cut(connection, request, 1, len(request) - 1)
        if kind < 0.99:
            return self.leaves_in_answer(connection)
        return self.asks_for_the_end(connection)

    def guess(self) -> None:
        """Takes in a batch that may be there, or may not be yet."""
        newest = self.handed_out()
        writer = self.rng.randint(1, self.writers)
        number = max(1, newest // self.writers + self.rng.randint(-20, 5))
        self.known.append((batch_of(writer, number), 1 + newest // PER_PAGE))

    def leaves_in_answer(self, connection: Connection) -> bool:
        """Leaves within an answer."""
        connection.send(self.look().bytes)
        connection.socket.recv(self.rng.randint(1, 100))
        connection.leave()
        return False

    def asks_for_the_end(self, connection: Connection) -> bool:
        """Asks for the end of the connection."""
        look = self.look()
        ends: list[tuple[str, list[str]]] = [("1.0", []), ("1.1", ["Connection: close"])]
        version, fields = self.rng.choice(ends)
        look.bytes = head(f"GET {look.look.target} HTTP/{version}", *fields)
        return self.ask(connection, look)


class Writer(Client):
    """Submits batches, some of them damaged or cut."""

    steps = [1, 5, 20, 60]

    def __init__(self, *given: Any) -> None:
        super().__init__(*given)
        self.last = 0
        self.again: list[int] = []

    def step(self, connection: Connection) -> bool:
        """Makes one step of a session."""
        self.waits_its_turn()
        steps = [self.submits, self.pipelines, self.damages, self.mistypes, self.cuts_in_head, self.cuts_in_body,
                 self.closes_in_body, self.cuts_before_answer, self.cuts_in_answer]
        weights = [70, 12, 6, 1, 2, 3, 1, 3, 2]
        return self.rng.choices(steps, weights)[0](connection)

    def batch(self) -> tuple[int, int]:
        """Returns the next batch and its page: one that has to be sent again, or a new one."""
        if self.again:
            batch = self.again.pop()
            return batch, self.log.pages[batch]
        self.last += 1
        with self.tickets.get_lock():
            page = 1 + self.tickets.value // PER_PAGE
            self.tickets.value += 1
        batch = batch_of(self.number, self.last)
        self.log.pages[batch] = page
        self.known.append((batch, page))
        return batch, page

    def request(self, batch: int, page: int) -> bytes:
        """Returns a request that hands in a batch."""
        return post(self.rng, body_of(batch, page), chunked=self.rng.random() < 0.3)

    def next_submission(self) -> tuple[int, int, HandIn]:
        """Returns the next batch and its page, and the request."""
        batch, page = self.batch()
        return batch, page, HandIn(batch, self.request(batch, page))

    def may_send_again(self, batch: int) -> None:
        """Lets a batch be sent again, or not."""
        if self.rng.random() < 0.6:
            self.again.append(batch)

    def own_look(self, batch: int, page: int) -> Look:
        """Returns a query for a batch of its own."""
        kind = self.rng.random()
        if kind < 0.5:
            return Look(PageLook(page))
        if kind < 0.7:
            return Look(SearchLook(batch, page))
        return Look(OperationsLook(service_of(batch, page), kinds=kind < 0.8)) if kind < 0.9 else self.look()

    def submits(self, connection: Connection) -> bool:
        """Submits a batch and asks for it."""
        batch, page, request = self.next_submission()
        is_open = self.ask(connection, request)
        for _ in range(self.rng.randint(0, 3)):
            is_open = is_open and self.ask(connection, self.own_look(batch, page))
        return is_open

    def pipelines(self, connection: Connection) -> bool:
        """Submits batches and asks for them without waiting."""
        requests: list[Look | HandIn] = []
        for _ in range(self.rng.randint(1, 3)):
            batch, page, request = self.next_submission()
            requests += [request, self.own_look(batch, page)]
        return self.ask(connection, *requests)

    def damages(self, connection: Connection) -> bool:
        """Submits a damaged batch and asks for it."""
        batch, page = self.batch()
        body = damaged(self.rng, body_of(batch, page))
        request = post(self.rng, body, chunked=self.rng.random() < 0.3)
        self.may_send_again(batch)
        return self.ask(connection, HandIn(batch, request, 400), self.own_look(batch, page))

    def mistypes(self, connection: Connection) -> bool:
        """Submits a batch as another type."""
        batch, page = self.batch()
        self.may_send_again(batch)
        return self.ask(connection, HandIn(batch, post(self.rng, body_of(batch, page), kind="text/plain"), 415))

    def cuts(self, connection: Connection, in_body: bool) -> bool:
        """Sends a request that is never whole."""
        batch, page = self.batch()
        data = self.request(batch, page)
        self.log.submitted(batch, REFUSED)
        self.may_send_again(batch)
        body = data.index(b"\r\n\r\n") + 4
        return self.cut(connection, data, body if in_body else 1, len(data) - 1 if in_body else body - 1)

    def cuts_in_head(self, connection: Connection) -> bool:
        """Leaves within a head."""
        return self.cuts(connection, in_body=False)

    def cuts_in_body(self, connection: Connection) -> bool:
        """Leaves within a body."""
        return self.cuts(connection, in_body=True)

    def closes_in_body(self, connection: Connection) -> bool:
        """Ends its own side inside the body, and reads what comes of it."""
        batch, page = self.batch()
        data = self.request(batch, page)
        refused = HandIn(batch, data[:self.rng.randrange(data.index(b"\r\n\r\n") + 4, len(data))], 400)
        self.may_send_again(batch)
        connection.send(refused.bytes)
        connection.ends_sending()
        refused.bytes = b""
        return self.ask(connection, refused)

    def cuts_before_answer(self, connection: Connection) -> bool:
        """Leaves before the answer."""
        batch, page, request = self.next_submission()
        self.log.submitted(batch, OPEN)
        self.may_send_again(batch)
        return self.cut(connection, request.bytes, len(request.bytes), len(request.bytes))

    def cuts_in_answer(self, connection: Connection) -> bool:
        """Leaves within the answer."""
        batch, page, request = self.next_submission()
        self.log.submitted(batch, OPEN)
        self.may_send_again(batch)
        connection.send(request.bytes + self.look().bytes)
        connection.socket.recv(self.rng.randint(1, 30))
        connection.leave()
        return False


def run_client(kind: type[Client], pipe: Any, *given: Any) -> None:
    """Runs a client in its process, and sends its log."""
    client = kind(*given)
    try:
        client.run()
    except Exception:
        client.log.troubles[traceback.format_exc()] += 1
    client.log.seen_last.clear()
    pipe.send(client.log)
    pipe.close()
