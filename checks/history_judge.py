"""The judge of checks/history.py: whether one growing history explains all that the clients were answered."""
import bisect
import collections
import heapq
from array import array
from collections.abc import Iterable, Iterator
from typing import NamedTuple

from history_clients import (ABSENT, ACKNOWLEDGED, KEPT, OPEN, OPERATIONS, PAGE, RECORD, REFUSED, SERVICES, WHOLE, Log, Sent, batch_name,
                             digest, parts_of, service_of, subject, told_subject)

NEVER = 1 << 62


# The judge. A position is that of a batch in the history, counted from 0; what isn't there has the position NEVER.

class Shown:
    """What a subject shows as the history grows: its items, and the position by which each is there."""

    def __init__(self, in_order: bool) -> None:
        self.in_order = in_order
        self.items: list[int] = []
        self.positions: list[int] = []
        self.digests: dict[int, int] = {}

    def add(self, item: int, position: int) -> None:
        """Adds an item that is there from this position on."""
        self.items.append(item)
        self.positions.append(position)

    def digest(self, count: int) -> int:
        """Returns the sum of the first items."""
        if count not in self.digests:
            items = self.items[:count]
            self.digests[count] = digest(items if self.in_order else sorted(items))
        return self.digests[count]

    def is_beginning(self, count: int, items_digest: int) -> bool:
        """Returns whether this number of items has this sum."""
        return count <= len(self.items) and self.digest(count) == items_digest

    def last_in(self, count: int) -> int:
        """Returns the position by which this number of items is there."""
        return self.positions[count - 1] if count else -1

    def first_out(self, count: int) -> int:
        """Returns the position by which one more is there."""
        return self.positions[count] if count < len(self.positions) else NEVER


class Reached:
    """How far the history was known to have come at some moment."""

    def __init__(self, pairs: Iterable[tuple[float, int]]) -> None:
        """Takes in moments, in order, each with a position that was known then."""
        self.moments: array[float] = array("d")
        self.positions: array[int] = array("q")
        furthest = -1
        for moment, position in pairs:
            furthest = max(furthest, position)
            self.moments.append(moment)
            self.positions.append(furthest)

    def before(self, moment: float) -> int:
        """Returns the furthest position that was known before a moment."""
        place = bisect.bisect_left(self.moments, moment)
        return self.positions[place - 1] if place else -1


class Violated(NamedTuple):
    """What the history doesn't explain, and when it came."""

    moment: float
    what: str


class Judge:
    """Judges what the clients were answered by the history that was read last."""

    def __init__(self, logs: list[Log], history: list[int], start: float, strict: bool) -> None:
        self.logs = logs
        self.history = history
        self.start = start
        self.strict = strict
        self.violations: list[Violated] = []
        self.counts: collections.Counter[str] = collections.Counter()
        self.first: dict[int, int] = {}
        self.last: dict[int, int] = {}
        self.pages = {batch: page for log in logs for batch, page in log.pages.items()}
        self.shown: dict[int, Shown] = collections.defaultdict(lambda: Shown(True))
        for position, batch in enumerate(history):
            self.first.setdefault(batch, position)
            self.last[batch] = position
            self.add(batch, position)
        self.acknowledged = Reached(heapq.merge(*(self.acknowledgements(log) for log in logs)))
        self.looked = Reached(heapq.merge(*(self.looks(log) for log in logs)))

    def add(self, batch: int, position: int) -> None:
        """Adds a batch of the history to what each subject shows."""
        self.shown[subject(PAGE, RECORD)].add(batch, position)
        if batch not in self.pages:
            return
        page = self.pages[batch]
        self.shown[subject(PAGE, page)].add(batch, position)
        if self.first[batch] == position:
            service = service_of(batch, page)
            operations = self.shown.setdefault(subject(OPERATIONS, service), Shown(False))
            if not operations.items:
                self.shown.setdefault(subject(SERVICES), Shown(False)).add(service, position)
            operations.add(batch, position)

    def acknowledgements(self, log: Log) -> Iterator[tuple[float, int]]:
        """Yields when each batch of a log was acknowledged, and its position."""
        for number, end in zip(log.subjects, log.ends):
            kind, batch = parts_of(number)
            if kind == ACKNOWLEDGED:
                yield end, self.first.get(batch, -1)

    def looks(self, log: Log) -> Iterator[tuple[float, int]]:
        """Yields when each query of a log was answered, and the position that it shows to be there."""
        for number, count, end in zip(log.subjects, log.counts, log.ends):
            if parts_of(number).kind < ABSENT and count <= len(self.shown[number].items):
                yield end, self.shown[number].last_in(count)

    def violates(self, moment: float, what: str) -> None:
        """Keeps what the history doesn't explain."""
        self.violations.append(Violated(moment, what))

    def judge(self) -> None:
        """Judges all."""
        for log in self.logs:
            for told in log.violations:
                self.violates(told.moment, f"{log.name}, connection {told.connection}: {told.what}")
        self.judge_batches()
        for log in self.logs:
            self.judge_order(log)
            for connection in range(len(log.opened)):
                self.judge_connection(log, connection)
        self.violations.sort()

    def service(self, batch: int) -> int | None:
        """Returns the service of a batch."""
        return service_of(batch, self.pages[batch]) if batch in self.pages else None

    def judge_batches(self) -> None:
        """Judges whether each batch is there as often as its answers say."""
        outcomes: dict[int, collections.Counter[int]] = collections.defaultdict(collections.Counter)
        moments: dict[int, float] = {}
        for log in self.logs:
            for sent in log.sent:
                outcomes[sent.batch][sent.outcome] += 1
                moments[sent.batch] = sent.moment
        times = collections.Counter(self.history)
        for batch in times.keys() - outcomes.keys():
            self.violates(self.start, f"{batch_name(batch)} is in the history and was never sent")
        for batch, outcome in outcomes.items():
            self.judge_times(batch, times[batch], outcome, moments[batch])
            self.counts.update({"sent": 1, "again": outcome.total() > 1, "open": outcome[OPEN]})
            self.counts.update({"refused": outcome[REFUSED], "acknowledged": outcome[WHOLE]})
            stand = times[batch] - outcome[WHOLE] - outcome[KEPT]
            self.counts["open that stand"] += min(max(0, stand), outcome[OPEN])

    def judge_times(self, batch: int, times: int, outcome: collections.Counter[int], moment: float) -> None:
        """Judges how often a batch is there."""
        least = outcome[WHOLE] + outcome[KEPT]
        if not least <= times <= least + outcome[OPEN]:
            told = ", ".join(f"{TOLD_OUTCOME[name]} {told_times(count)}" for name, count in outcome.items())
            self.violates(moment, f"{batch_name(batch)} {told_presence(times)}; it was {told}")

    def judge_order(self, log: Log) -> None:
        """Judges whether the batches of each connection are in order."""
        before: Sent | None = None
        for sent in log.sent:
            if sent.outcome == REFUSED or sent.batch not in self.first:
                continue
            if before and before.connection == sent.connection and self.first[before.batch] > self.last[sent.batch]:
                names = f"{batch_name(sent.batch)} is before {batch_name(before.batch)}"
                self.violates(sent.moment, f"{log.name}, connection {sent.connection}: {names}, which was submitted first")
            before = sent

    def judge_connection(self, log: Log, connection: int) -> None:
        """Judges whether no query of a connection is from before what the connection has to count in. `floor` is the position that each
        query has to show, and `cause` the event by which it has to; none at first."""
        ends = log.first_event[connection + 1] if connection + 1 < len(log.opened) else len(log.subjects)
        floor = self.acknowledged.before(log.opened[connection])
        cause: int | None = None
        for event in range(log.first_event[connection], ends):
            bounds = self.bounds(log, event)
            if bounds is None:
                look = self.told_look(log, connection, event)
                self.violates(log.ends[event], f"{look}, which is no prefix of the history")
                continue
            least, most = bounds
            if most <= floor:
                self.violates(log.ends[event], self.told_behind(log, connection, event, most, floor, cause))
            elif parts_of(log.subjects[event]).kind != ACKNOWLEDGED:
                self.count_elsewhere(log, connection, event, most)
            if least > floor:
                floor, cause = least, event

    def bounds(self, log: Log, event: int) -> tuple[int, int] | None:
        """Returns the last position that the event shows to be there, and the first that it shows not to be; None if it shows no
        prefix of the history."""
        number = log.subjects[event]
        kind, which = parts_of(number)
        if kind == ACKNOWLEDGED:
            return self.first.get(which, -1), NEVER
        if kind == ABSENT and log.digests[event] != self.service(which):
            return -1, NEVER
        self.counts[told_kind(kind, which)] += 1
        if kind == ABSENT:
            return -1, self.first.get(which, NEVER)
        shown, count = self.shown[number], log.counts[event]
        if not shown.is_beginning(count, log.digests[event]):
            return None
        return shown.last_in(count), shown.first_out(count)

    def count_elsewhere(self, log: Log, connection: int, event: int, most: int) -> None:
        """Counts a query that is from before what another connection had been told."""
        begin = log.begins[event]
        for what, reached in (("acknowledged elsewhere", self.acknowledged), ("shown elsewhere", self.looked)):
            if most <= reached.before(begin):
                self.counts[what] += 1
                if self.strict:
                    look, missing = self.told_look(log, connection, event), batch_name(self.history[most])
                    self.violates(log.ends[event], f"{look} and not {missing}, which was {what} before")

    # What is told.

    def at(self, moment: float) -> str:
        """Returns a moment in words."""
        return f"{moment - self.start:.4f} s"

    def told_look(self, log: Log, connection: int, event: int) -> str:
        """Returns a query in words."""
        what = told_subject(log.subjects[event])
        span_of_time = f"{self.at(log.begins[event])} to {self.at(log.ends[event])}"
        return f"{log.name}, connection {connection}, {span_of_time}: of {what} it is shown {log.counts[event]}"

    def told_behind(self, log: Log, connection: int, event: int, most: int, floor: int, cause: int | None) -> str:
        """Returns in words what a query lacks, and why it had to be there."""
        missing, known = batch_name(self.history[most]), batch_name(self.history[floor])
        which = "which" if most == floor else f"which is before {known}, which"
        if cause is None:
            why = f"was acknowledged before the connection was opened at {self.at(log.opened[connection])}"
        elif parts_of(log.subjects[cause]).kind == ACKNOWLEDGED:
            why = f"was acknowledged on this connection at {self.at(log.ends[cause])}"
        else:
            why = f"this connection was shown at {self.at(log.ends[cause])} in {told_subject(log.subjects[cause])}"
        return f"{self.told_look(log, connection, event)} and not {missing}, {which} {why}"


TOLD_OUTCOME = {WHOLE: "acknowledged", KEPT: "answered `deferred`", OPEN: "sent without an answer", REFUSED: "refused or cut"}


def told_times(count: int) -> str:
    """Returns a number of times in words."""
    return {1: "once", 2: "twice"}.get(count, f"{count} times")


def told_presence(count: int) -> str:
    """Returns in words how often a batch is there."""
    return f"is in the history {told_times(count)}" if count else "isn't in the history"


def told_kind(kind: int, which: int) -> str:
    """Returns what kind of query it was."""
    names = {PAGE: "at pages", OPERATIONS: "at operations", SERVICES: "at services", ABSENT: "searches that find nothing"}
    return "at the record" if kind == PAGE and which == RECORD else names[kind]
