#!/usr/bin/env python3
"""What bodies cost in which two parts could multiply: process tags and spans, a long text and the spans that share
it, tags and requested tags, and more.

Each shape is a session of the built program, `jaeger_one pipe`, with a quarter of each part, with half and with the
whole; each size is compared with the one before. If a shape costs what its bytes cost, twice the parts take twice
the seconds and twice the memory; if two parts multiply it takes four times. Seconds are processor time of the
program, the minimum of the runs, less those of a session in which nothing is sent; `--count` replaces them by its
instructions, in millions, which callgrind counts and which are the same on a busy machine (Debian: `valgrind`). Memory is the
program's greatest resident size, less that of the same.

    bench/heavy.py [--bin PATH] [--runs 3] [--parts 1000] [--count] [--save KIND] [SHAPE..]

A row is over its limit if the memory or, with `--count`, the instructions grow by more than 2.2 times for twice the
parts on the average of both steps (4.84 times from a quarter to the whole), or by more than 2.64 times in one of them,
or if the whole takes more than 10 bytes of memory for each byte sent. One step may have more, since a table that doubles
its room does so in one of them. Seconds aren't judged: they vary too much. If the bytes in and out together more than
double in a step, the limit is 1.1 times their growth instead of 2.2, and the line says so. The last line is
`0 over their limits`, or the number of such rows after a line for each; the exit status is 1 then. Fixed costs count
too, so with a few parts the memory for each byte is above its limit.
"""
import argparse
import contextlib
import json
import math
import os
import re
import subprocess
import sys
import tempfile
import time
from collections.abc import Callable, Iterable, Iterator
from typing import Any, NamedTuple, NoReturn

from decode import counted
from results import Record, asked_of
from servers import piped
import wire
from wire import get, integer, long, post, structs, text_tag

WORDS = ["pipe", "--max-skew", "1000", "--batches", "100000", "--spans", "1000000"]
TRACE = 7
START = 1_600_000_000_000_000

# The limits: of twice the parts, of twice the parts for each time that the bytes grow, of one step for each time that the limit of the average allows, and of
# the memory for each byte sent.
GROWTH_BAR, BAR_OF_BYTES, ONE_STEP, SENT_BAR = 2.2, 1.1, 1.2, 10
COLUMNS = ["body, then what is asked", "MB in", "MB out", "million instructions, quarter", "million instructions, half", "million instructions, whole",
           "instructions, ratio, half", "instructions, ratio, whole", "MB of memory, quarter", "MB of memory, half", "MB of memory, whole",
           "memory, ratio, half", "memory, ratio, whole", "of bytes sent", "bar, half", "bar, whole"]


def tags(count: int, key: str = "k") -> list[bytes]:
    """Returns this number of tags without a text."""
    return [text_tag(f"{key}{n}", "") for n in range(count)]


def reference(span: int) -> bytes:
    """Returns a reference to a span of the trace."""
    return integer(1, 0) + long(2, TRACE) + long(3, 0) + long(4, span) + b"\0"


def span(number: int, parent: int = 0, trace: int = TRACE, operation: str = "op", more: bytes = b"") -> bytes:
    """Returns a span that starts by its number; `more` are fields after the others, as wire.py has them."""
    return wire.span(trace, number, parent, operation, START + number, more=more)


def batch(service: str, process_tags: list[bytes], spans: list[bytes]) -> bytes:
    """Returns a batch of a service that has these tags."""
    return wire.batch(service, spans, process_tags)


def chain(count: int, first: int = 1) -> list[bytes]:
    """Returns spans, each the parent of the next."""
    return [span(n, n - 1 if n > first else 0) for n in range(first, first + count)]


def log(fields: list[bytes]) -> bytes:
    """Returns a log with these fields."""
    return long(1, START) + structs(2, fields) + b"\0"


def asked(pairs: int, service: str = "a") -> bytes:
    """Returns a search by this number of tags, which no span has all of."""
    tags = "".join(f"&tag=x{n}:y" for n in range(pairs))
    return get(f"/api/traces?service={service}&start=1&end={1 << 60}{tags}")


THE_TRACE = get(f"/api/traces/{TRACE:x}")
DEPENDENCIES = get("/api/dependencies?endTs=1700000000000&lookback=1700000000000")


def finds(more: str) -> bytes:
    """Returns a search by service `a`."""
    return get(f"/api/traces?service=a&start=1&end={1 << 60}{more}")


def binary_tag(key: str, data: bytes) -> bytes:
    """Returns a binary tag."""
    return wire.field(wire.TEXT, 1) + wire.text(key) + integer(2, 4) + wire.field(wire.TEXT, 7) + wire.binary(data) + b"\0"


def a_trace_each(count: int, first: int = 0) -> list[bytes]:
    """Returns spans, each of a trace of its own."""
    return [span(k, trace=first + k + 1) for k in range(count)]


def family(logs: int, children: int) -> list[bytes]:
    """Returns a span that is moved by its clock, with logs, and its children, each of which is compared with where it is moved to."""
    parent = span(2, 1, more=structs(11, [log([])] * logs))
    return [span(1), parent, *(span(k, 2) for k in range(3, 3 + children))]


def hidden_matches(count: int) -> list[bytes]:
    """Returns traces that matched, were hidden, and were opened again by a batch without the tag."""
    matching = batch("a", [text_tag("k", "v")], a_trace_each(count))
    others = batch("z", [], a_trace_each(count, 10_000_000))
    return [post(matching), post(others), post(batch("a", tags(count), a_trace_each(count)))]


def pairs_of_services(count: int, size: int) -> list[bytes]:
    """Returns services with names of this number of bytes, each of which calls each other one in one trace."""
    names = [f"{k:04}" + "s" * size for k in range(count)]
    roots = [post(batch(name, [], [span(1 + k)])) for k, name in enumerate(names)]
    calls = [post(batch(name, [], [span(1000 + k * count + j, 1 + j) for j in range(count)])) for k, name in enumerate(names)]
    return roots + calls


def by_turns(count: int, name: int) -> list[bytes]:
    """Returns two batches of two services whose spans call one another."""
    one = [span(n, n - 1) for n in range(1, count, 2)]
    other = [span(n, n - 1) for n in range(2, count, 2)]
    return [post(batch("a" * name, [], one)), post(batch("b" * name, [], other))]


# Each gives the requests of a session in which the parts have n thousandths of their whole size.
SHAPES: dict[str, Callable[[int], list[bytes]]] = {
    "process tags, spans; the trace":
        lambda n: [post(batch("a", tags(12 * n), chain(3 * n))), THE_TRACE],
    "a long ip, spans in a chain; the trace":
        lambda n: [post(batch("a", [text_tag("ip", "1" * (120 * n))], chain(3 * n))), THE_TRACE],
    "a span with tags, then spans, one a body":
        lambda n: [post(batch("a", [], [span(1, more=structs(10, tags(24 * n)))]))]
        + [post(batch("a", [], [s])) for s in chain(6 * n, 2)],
    "the same in one body":
        lambda n: [post(batch("a", [], [span(1, more=structs(10, tags(24 * n)))] + chain(6 * n, 2)))],
    "a long service, spans":
        lambda n: [post(batch("a" * (800 * n), [], chain(8 * n)))],
    "a long service, spans of an operation each":
        lambda n: [post(batch("a" * (800 * n), [], [span(k, operation=f"op{k}") for k in range(8 * n)]))],
    "a long service, spans; the trace":
        lambda n: [post(batch("a" * (400 * n), [], chain(4 * n))), THE_TRACE],
    "two long services, calls; dependencies":
        lambda n: by_turns(4 * n, 400 * n) + [DEPENDENCIES],
    "process tags, spans; a search by a tag":
        lambda n: [post(batch("a", tags(8 * n), chain(4 * n))), asked(1)],
    "tags of a span; a search by pairs":
        lambda n: [post(batch("a", [], [span(1, more=structs(10, tags(40 * n, "x")))])), asked(n * 2 // 5)],
    "log fields of a span; a search by pairs":
        lambda n: [post(batch("a", [], [span(1, more=structs(11, [log(tags(40 * n, "x"))]))])), asked(n * 2 // 5)],
    "process tags, spans; a search by pairs":
        lambda n: [post(batch("a", tags(8 * n, "x"), chain(4 * n))), asked(n * 2 // 5)],
    "references of a span; the trace":
        lambda n: [post(batch("a", [], [span(1, more=structs(6, [reference(k) for k in range(20 * n)]))])), THE_TRACE],
    "logs of a span, its children; the trace":
        lambda n: [post(batch("a", [], family(20 * n, 8 * n))), THE_TRACE],
    "a text of control characters; the trace":
        lambda n: [post(batch("a", [], [span(1, more=structs(10, [text_tag("k", "\x01" * (1000 * n))]))])), THE_TRACE],
    "spans of one id; the trace":
        lambda n: [post(batch("a", [], [span(1, 1) for _ in range(8 * n)])), THE_TRACE],
    "a chain, last span first; the trace":
        lambda n: [post(batch("a", [], chain(8 * n)[::-1])), THE_TRACE],
    "equal processes of batches; the trace":
        lambda n: [post(batch("a", tags(n), [s])) for s in chain(n // 5)] + [THE_TRACE],
    "a body in chunks of one byte":
        lambda n: [wire.post_in_chunks(batch("a", [], chain(4 * n)), 1)],
    "a service each; the services":
        lambda n: [post(batch(f"s{k}", [], [span(k)])) for k in range(4 * n)] + [get("/api/services")],
    "an operation each; the operations":
        lambda n: [post(batch("a", [], [span(k, operation=f"op{k}") for k in range(20 * n)])), get("/api/operations?service=a")],
    "a trace each; a search by a tag":
        lambda n: [post(batch("a", tags(4 * n), a_trace_each(8 * n))), asked(1)],
    "process tags, a trace each; a search that finds one":
        lambda n: [post(batch("a", tags(4 * n) + [text_tag("k", "v")], a_trace_each(8 * n))), finds("&tag=k:v&limit=1")],
    "a binary process tag, a trace each; a search by its key":
        lambda n: [post(batch("a", [binary_tag("b", bytes(200 * n))], a_trace_each(8 * n))), finds("&tag=b:x&limit=0")],
    "requested tags, entries; a search":
        lambda n: [post(batch("a", [text_tag("", "")], [span(k)])) for k in range(1, 4 * n)] + [finds("&tag=:" * (n * 13 // 10) + "&tag=x:y")],
    "requested tags that each process has, entries; a search for all":
        lambda n: [post(batch("a", tags(n * 2 // 5, "x"), [span(k)])) for k in range(1, n // 10)]
        + [finds("".join(f"&tag=x{k}:" for k in range(n * 2 // 5)) + "&limit=0")],
    "equal processes, a trace each; a search for 20":
        lambda n: [post(batch("a", tags(n), a_trace_each(n))) for _ in range(10)] + [finds("&limit=20")],
    "equal processes, a trace each; a search for all":
        lambda n: [post(batch("a", tags(n // 4), a_trace_each(n))) for _ in range(4)] + [finds("&limit=0")],
    "a trace each; a search for one":
        lambda n: [post(batch("a", [], a_trace_each(40 * n))), finds("&limit=1")],
    "a trace each; dependencies":
        lambda n: [post(batch("a", [], a_trace_each(40 * n))), DEPENDENCIES],
    "pairs of long services; dependencies":
        lambda n: pairs_of_services(max(2, n // 10), 10 * n) + [DEPENDENCIES],
    "pairs of services; dependencies":
        lambda n: pairs_of_services(max(2, n * 3 // 20), 0) + [DEPENDENCIES],
    "process tags, a trace each; a search for all by one":
        lambda n: [post(batch("a", tags(n // 4) + [text_tag("k", "v")], a_trace_each(4 * n))), finds("&tag=k:v&limit=0")],
    "process tags, a trace each; a search for 100 by one":
        lambda n: [post(batch("a", tags(4 * n) + [text_tag("k", "v")], a_trace_each(4 * n))), finds("&tag=k:v&limit=100")],
    "matches that have left the ring; a search":
        lambda n: hidden_matches(4 * n) + [finds("&tag=k:v&limit=1")],
}
# The words of a session beside WORDS.
MORE_WORDS: dict[str, Callable[[int], list[str]]] = {"matches that have left the ring; a search": lambda n: ["--traces", str(4 * n)]}


class Refused(Exception):
    """The program refused a request: its body or its head is too large."""


class Seen(NamedTuple):
    """What a session took: seconds or million instructions, and megabytes of memory, sent and answered."""
    took: float
    memory: float
    sent: float
    answered: float


class Step(NamedTuple):
    """How many times as much a session took as one with half of its parts."""
    took: float
    memory: float
    bar: float

    @classmethod
    def of(cls, half: Seen, whole: Seen) -> "Step":
        """Returns the step from half of the parts to the whole."""
        in_and_out = (whole.sent + whole.answered) / (half.sent + half.answered)
        took, memory = (max(new, 1e-3) / max(old, 1e-3) for old, new in ((half.took, whole.took), (half.memory, whole.memory)))
        return cls(took, memory, max(GROWTH_BAR, BAR_OF_BYTES * in_and_out))


class Row:
    """A shape with a quarter of its parts, with half and with the whole."""

    def __init__(self, name: str, seen: list[Seen]) -> None:
        self.name = name
        self.seen = seen
        self.steps = [Step.of(half, whole) for half, whole in zip(seen, seen[1:])]
        self.of_bytes = seen[-1].memory / seen[-1].sent

    def __str__(self) -> str:
        def numbers(values: Iterable[float], form: str) -> str:
            return ", ".join(format(value, form) for value in values)

        whole, steps = self.seen[-1], self.steps
        took, memory = numbers([it.took for it in self.seen], ".2f"), numbers([it.memory for it in self.seen], ".1f")
        bars = numbers([it.bar for it in steps], ".1f")
        told = "" if bars == numbers([GROWTH_BAR] * len(steps), ".1f") else f"  by the growth of its bytes: limits {bars}"
        return (f"{self.name:55} {whole.sent:6.2f} {whole.answered:7.2f} {took:>24} {numbers([it.took for it in steps], '.1f'):>9} {memory:>16}"
                f" {numbers([it.memory for it in steps], '.1f'):>9} {self.of_bytes:6.1f}{told}")

    def columns(self) -> list[Any]:
        """Returns the values of COLUMNS."""
        whole, steps = self.seen[-1], self.steps
        took = [*(round(it.took) for it in self.seen), *(round(it.took, 1) for it in steps)]
        memory = [*(round(it.memory, 1) for it in self.seen), *(round(it.memory, 1) for it in steps)]
        bars = [round(it.bar, 1) for it in steps]
        return [self.name, round(whole.sent, 2), round(whole.answered, 2), *took, *memory, round(self.of_bytes, 1), *bars]

    def faults(self, counted: bool) -> Iterator[str]:
        """Yields what is above its limit; seconds never are."""
        bars = [step.bar for step in self.steps]
        judged = [("instructions", [step.took for step in self.steps]), ("memory", [step.memory for step in self.steps])][0 if counted else 1:]
        for what, ratios in judged:
            grown, most = math.prod(ratios), math.prod(bars)
            if grown > most:
                yield f"{grown:.2f} times the {what} from a quarter to the whole, and {most:.2f} is the limit"
            for parts, ratio, bar in zip(("half", "the whole"), ratios, bars):
                if ratio > ONE_STEP * bar:
                    yield f"{ratio:.2f} times the {what} for {parts}, and {ONE_STEP * bar:.2f} is the limit"
        if self.of_bytes > SENT_BAR:
            yield f"{self.of_bytes:.1f} bytes of memory for each byte sent, and {SENT_BAR} is the limit"


class Ended(NamedTuple):
    """How a program ended: its exit status, processor seconds and the greatest resident size in kilobytes."""
    status: int
    seconds: float
    peak: int


class Session(NamedTuple):
    """What a session took: processor seconds, the greatest resident size in megabytes, and the bytes of all answers."""
    seconds: float
    megabytes: float
    answered: int


class Runner:
    """Runs programs from a process of its own that holds next to nothing: a program's greatest resident size is
    never told to be less than that of the process that started it."""

    def __init__(self) -> None:
        to_read, self.to = os.pipe()
        self.back, to_write = os.pipe()
        if os.fork() == 0:
            os.close(self.to)
            os.close(self.back)
            serve(to_read, to_write)
        os.close(to_read)
        os.close(to_write)

    def run(self, words: list[str], stdin: str, stdout: str) -> Ended:
        """Runs a program on this input."""
        os.write(self.to, json.dumps([words, stdin, stdout]).encode() + b"\n")
        return Ended(*json.loads(os.read(self.back, 1000)))


def serve(to_read: int, to_write: int) -> NoReturn:
    """Runs the programs that are asked for, and ends with the one that asks."""
    for line in os.fdopen(to_read):
        words, stdin, stdout = json.loads(line)
        with open(stdin, "rb") as given, open(stdout, "wb") as got:
            program = subprocess.Popen(words, stdin=subprocess.PIPE, stdout=got)
            to_program = piped(program.stdin)
            with contextlib.suppress(BrokenPipeError):  # of a program that refused a request and ended
                to_program.write(given.read())
                to_program.flush()
            peak = peak_at_rest(program.pid, got.fileno())
            with contextlib.suppress(BrokenPipeError):
                to_program.close()
        _, status, used = os.wait4(program.pid, 0)
        program.returncode = os.waitstatus_to_exitcode(status)
        os.write(to_write, json.dumps([program.returncode, used.ru_utime + used.ru_stime, peak]).encode())
    os._exit(0)


def peak_at_rest(pid: int, output: int) -> int:
    """Returns the greatest resident size once the program waits for more input, and 0 for one that has ended. (What the system keeps of an ended one
    counts this script's own memory too.)"""
    seen: tuple[object, ...] = ()
    still = 0
    while still < 4:
        time.sleep(0.01)
        with open(f"/proc/{pid}/stat") as file:
            state = file.read().rpartition(")")[2].split()
        now = state[0], state[11], state[12], os.fstat(output).st_size
        still = still + 1 if now == seen and state[0] in "SZ" else 0
        seen = now
    with open(f"/proc/{pid}/status") as file:
        return next((int(line.split()[1]) for line in file if line.startswith("VmHWM")), 0)


def run(runner: Runner, command: list[str], requests: list[bytes]) -> Session:
    """Runs a session."""
    with tempfile.TemporaryDirectory() as room:
        stdin, stdout = f"{room}/stdin", f"{room}/stdout"
        with open(stdin, "wb") as file:
            file.writelines(requests)
        ended = runner.run(command, stdin, stdout)
        with open(stdout, "rb") as file:
            answers = file.read()
    if refused := re.search(rb"HTTP/1.1 (4\d\d) ", answers):
        raise Refused(refused[1].decode())
    assert ended.status == 0 and b"HTTP/1.1 5" not in answers, (ended.status, answers[:400])
    return Session(ended.seconds, ended.peak / 1024, len(answers))


def least(runner: Runner, command: list[str], requests: list[bytes], options: argparse.Namespace) -> Seen:
    """Returns the least of the runs of a session."""
    taken = [run(runner, command, requests) for _ in range(options.runs)]
    took = instructions(command, requests) / 1e6 if options.count else min(it.seconds for it in taken)
    return Seen(took, min(it.megabytes for it in taken), sum(map(len, requests)) / 1e6, taken[0].answered / 1e6)


def instructions(command: list[str], requests: list[bytes]) -> int:
    """Returns the instructions of a session."""
    with tempfile.TemporaryFile() as stdin:
        stdin.writelines(requests)
        stdin.seek(0)
        return counted(command, stdin)


def rows(options: argparse.Namespace, left_out: list[str]) -> Iterator[Row]:
    """Yields a row for each shape that is wanted, less a session in which nothing is sent. A shape that the program refuses is added to `left_out`."""
    runner, command = Runner(), [options.bin, *WORDS]
    rest = least(runner, command, [], options)
    for name, shape in SHAPES.items():
        if options.shapes and not any(word in name for word in options.shapes):
            continue
        more, seen = MORE_WORDS.get(name), []
        try:
            for n in (options.parts // 4, options.parts // 2, options.parts):
                found = least(runner, command + (more(n) if more else []), shape(n), options)
                seen.append(found._replace(took=found.took - rest.took, memory=found.memory - rest.memory))
        except Refused as refused:
            print(f"{name:55} left out: a body or a head of that many parts is too large ({refused})", flush=True)
            left_out.append(name)
            continue
        yield Row(name, seen)


def main() -> int:
    """Prints a row for each shape; returns 1 if one is over its limit."""
    words = asked_of(__doc__)
    words.add_argument("--runs", type=int, default=3, help="of which the minimum is printed")
    words.add_argument("--parts", type=int, default=1000, help="how many parts the whole has")
    words.add_argument("--count", action="store_true", help="count instructions in place of seconds, in millions")
    words.add_argument("shapes", nargs="*", help="words of the shapes to run; all if none is given")
    options = words.parse_args()
    record = Record(options, "heavy", COLUMNS)
    over: list[str] = []
    left_out: list[str] = []
    unit = "instructions" if options.count else "seconds"
    print(f"{'':55} {'MB in':>6} {'MB out':>7} {unit:>24} {'ratios':>9} {'MB of memory':>16} {'ratios':>9} {'of sent':>6}")
    for row in rows(options, left_out):
        print(row, flush=True)
        record.row(*row.columns())
        if faults := [*row.faults(options.count)]:
            over.append(f"{row.name}: {'; '.join(faults)}")
    if options.count and not options.shapes:
        record.save()
    print("\n".join([*over, f"{len(over)} over their limits" + (f", {len(left_out)} left out" if left_out else "")]))
    return 1 if over else 0


if __name__ == "__main__":
    sys.exit(main())
