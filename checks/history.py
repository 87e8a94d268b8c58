#!/usr/bin/env python3
"""`jaeger_one serve` from outside: does one growing history of batches explain every answer?

    checks/history.py [--bin PATH] [--seconds 60] [--workers 20] [--strict]
    checks/history.py --port N           drives a server that listens on 127.0.0.1 already and holds nothing
    checks/history.py --self-test        finds each fault of checks/broken_server.rs, and none if there is none

Writers and readers, each a process of its own, work over real sockets at once. A query is one GET and its answer, which shows
exactly which batches were in the store at one point. Each batch puts a span into one trace for the whole run, the *record*,
and two into a trace that 50 batches share, its *page*; a service has the batches of one writer in 20 pages, and an operation
is one batch. So a query for a page, for the services, for the operations of a service, or a search for one batch shows how far
the history had come, and at the end the record is the history itself, in order. Of each answer a length and a hash are kept.

Connections are cut in a head, in a body, before an answer and inside it; bodies are damaged (and must be refused) and sent
again; bodies come in chunks and in pieces; requests are pipelined; some clients read slowly, or ask for the end.

Judged, as docs/using.md and docs/architecture.md promise it:

  each batch        sent whole and acknowledged (202): is in the history once. Sent again after an answer that never came:
                    at least as often as it was acknowledged, at most as often as it was sent whole. Refused, damaged or cut
                    before its end: never. It is whole: no answer shows one of its spans without the others.
  each answer       shows a prefix of the history, as far as its query lets it be seen. So of any two answers one shows a
                    prefix of the other, and nothing is shown that was never sent.
  each connection   its batches are in the order in which they were submitted. No answer is from before an earlier answer of
                    the same connection, a batch acknowledged on it, or a batch whose 202 had come, to whichever client,
                    before the connection was opened.

Counted and not judged, since no contract says it (docs/ASSURANCE.md names the test that shows it): queries that begin after a
202, or after an answer that showed more, had come on another connection while their own was open already, and whose answer is
from before that. `--strict` judges these too.

It prints how many queries and acknowledgements it judged. Status 0: all holds. 1: it doesn't; the first violations are told. 2:
it could not run, or a connection ended in a way that no client asked for. Standard library alone; `--self-test` needs rustc.
"""
import argparse
import collections
import contextlib
import multiprocessing
import random
import subprocess
import sys
import tempfile
import time
import traceback
from collections.abc import Iterator
from typing import NoReturn

from history_clients import (RECORD, TOLD, Client, Connection, Log, Look, OperationsLook, PageLook, Parted, Query, Reader,
                             ServicesLook, Violation, Writer, run_client, service_of)
from history_judge import Judge
from crates import asked_of
from servers import Failed, Server, rust_program

BROKEN = "checks/broken_server.rs"


class CannotRun(Exception):
    """Why nothing could be judged."""


@contextlib.contextmanager
def telling(server: Server) -> Iterator[None]:
    """Prints, at the end, what the server wrote to standard error."""
    try:
        yield
    finally:
        for line in server.told():
            print(f"the server told: {line}", flush=True)


def run_clients(options: argparse.Namespace, port: int, start: float) -> list[Log]:
    """Runs the clients, each in a process of its own, and returns their logs."""
    context = multiprocessing.get_context("fork")
    tickets = context.Value("Q")
    end = start + options.seconds
    kinds: list[tuple[type[Client], int, float]] = [(Writer, n, options.pace) for n in range(1, options.writers + 1)]
    kinds += [(Reader, n, options.queries) for n in range(1, options.readers + 1)]
    runs = []
    for kind, number, pace in kinds:
        ours, theirs = context.Pipe(duplex=False)
        given = (kind, theirs, number, options.writers, port, options.seed, end, options.least, tickets, pace)
        process = context.Process(target=run_client, args=given, daemon=True)
        process.start()
        theirs.close()
        runs.append((process, ours))
    logs = []
    for process, ours in runs:
        try:
            logs.append(ours.recv())
        except EOFError:
            raise CannotRun("a client ended without its log") from None
        process.join()
    return logs


def wants_empty(port: int) -> None:
    """Makes the first query: a server that holds something already can't be judged."""
    try:
        with Connection(port, random.Random(0), Log("the first query")) as connection:
            first = connection.answer(Look(ServicesLook()).bytes)
    except (Parted, OSError) as fault:
        raise CannotRun(f"port {port} is not answered: {type(fault).__name__} {fault}") from None
    if first.status != 200 or b'"data":[]' not in first.body:
        raise CannotRun(f"the server holds something already: {first.status} {first.body[:120]!r}")


def look_at_all(port: int, logs: list[Log]) -> tuple[Log, list[int]]:
    """Makes the last connection, and returns its log, and the history: the record, all services, each page and each service are asked, and
    the record again, which is the history."""
    log = Log("the last query")
    pages = sorted({page for each in logs for page in each.pages.values()})
    services = sorted({service_of(batch, page) for each in logs for batch, page in each.pages.items()})
    record = PageLook(RECORD, raw=True)
    queries: list[Query] = [record, ServicesLook(), *map(PageLook, pages), *map(OperationsLook, services)]
    with Connection(port, random.Random(0), log) as connection:
        for look in map(Look, queries):
            begin = time.monotonic()
            response = connection.answer(look.bytes)
            look.answered(log, response.status, response.body, begin)
        last = connection.answer(Look(record).bytes)
    if last.status >= 500:
        raise CannotRun(f"the record can't be read: {last.status} {last.body[:120]!r}")
    return log, record.read(last.status, last.body).items


def report(judge: Judge, logs: list[Log], options: argparse.Namespace, seconds: float) -> None:
    """Prints what was judged, and the violations."""
    counts = judge.counts
    kinds = ["at pages", "at operations", "at services", "searches that find nothing", "at the record"]
    looks = sum(counts[kind] for kind in kinds)
    connections = sum(len(log.opened) for log in logs)
    print(f"{looks} queries and {counts['acknowledged']} acknowledgements judged, on {connections} connections of "
          f"{options.writers} writers and {options.readers} readers in {seconds:.0f} s")
    print("queries: " + ", ".join(f"{counts[kind]} {kind}" for kind in kinds))
    print(f"batches: {counts['sent']} sent, {counts['again']} of them again; {counts['refused']} times refused, damaged or cut, "
          f"{counts['open']} times without answer, of which {counts['open that stand']} are in the history")
    print(f"counted{' and judged' if options.strict else ' only'}: {counts['acknowledged elsewhere']} queries from before a "
          f"batch acknowledged, and {counts['shown elsewhere']} of a batch shown, on another connection before")
    for what, count in troubles(logs).items():
        print(f"{count} {what}")
    for violated in judge.violations[:TOLD]:
        print(f"VIOLATION {violated.what}")
    if judge.violations:
        print(f"{len(judge.violations)} violations")
    else:
        print(f"one growing history of {len(judge.history)} batches explains every answer")


def troubles(logs: list[Log]) -> collections.Counter[str]:
    """Returns what went wrong beside the promises, with counts."""
    return sum((log.troubles for log in logs), collections.Counter())


def drive(options: argparse.Namespace, binary: str, *words: object, port: int | None = None) -> tuple[list[str], bool]:
    """Drives a server and judges it; returns what violates a promise, and whether something went wrong beside that."""
    start = time.monotonic()
    with Server(*words, binary=binary, port=port) as server, telling(server):
        wants_empty(server.port)
        logs = run_clients(options, server.port, start)
        if not server.is_there():
            raise CannotRun(f"the server ended by itself: {dict(troubles(logs))}")
        time.sleep(0.5)
        try:
            last, history = look_at_all(server.port, logs)
        except Violation as seen:
            print(f"VIOLATION the last query: {seen}")
            return [str(seen)], False
        except (Parted, OSError) as fault:
            raise CannotRun(f"the last query failed: {type(fault).__name__} {fault}") from None
    logs.append(last)
    judge = Judge(logs, history, start, options.strict)
    judge.judge()
    report(judge, logs, options, time.monotonic() - start)
    return [it.what for it in judge.violations], bool(troubles(logs))


# What is told of each fault of the plain server.
FAULTS = {
    "lost": "isn't in the history; it was acknowledged once",
    "twice": "is in the history twice; it was acknowledged once",
    "half": "does not show the whole of",
    "refused": "is in the history once; it was refused or cut once",
    "reordered": "which was submitted first",
    "stale": "which was acknowledged on this connection",
    "swapped": "which is no prefix of the history",
    "late": "was acknowledged before the connection was opened",
}


def build(folder: str) -> str:
    """Builds the plain server, and returns it."""
    try:
        return rust_program(folder, BROKEN)
    except (OSError, subprocess.CalledProcessError) as fault:
        raise CannotRun(f"{BROKEN} can't be built: {fault}") from None


def self_test(options: argparse.Namespace) -> int:
    """Drives the plain server without a fault, and with each of them; returns the status to end with."""
    failed = 0
    with tempfile.TemporaryDirectory() as folder:
        program = build(folder)
        for fault in ["none", *FAULTS]:
            print(f"-- a plain server, fault: {fault}", flush=True)
            violations, troubled = drive(options, program, "--workers", options.workers, "--fault", fault)
            is_seen = any(FAULTS[fault] in what for what in violations) if fault in FAULTS else not violations
            if troubled or not is_seen:
                failed += 1
                print(f"FAILED fault {fault}")
    print(f"{1 + len(FAULTS) - failed} passed, {failed} failed")
    return 1 if failed else 0


def parsed() -> argparse.Namespace:
    """Returns what the script is asked."""
    asked = asked_of(__doc__)
    asked.add_argument("--port", type=int, help="a server that listens already and holds nothing")
    asked.add_argument("--seconds", type=float, help="60, or 5 with --self-test")
    asked.add_argument("--writers", type=int, default=8)
    asked.add_argument("--readers", type=int, default=8)
    asked.add_argument("--workers", type=int, default=20, help="of the server")
    asked.add_argument("--queue", type=int, default=256, help="of the server; with 1 some batches are answered `busy`")
    asked.add_argument("--batches", type=int, default=300_000, help="how many the server keeps; then it answers `journal full`")
    asked.add_argument("--pace", type=float, help="steps a second of each writer; 25, or 120 with --self-test; 0: no limit")
    asked.add_argument("--queries", type=float, default=300, help="queries a second of each reader; 0: no limit")
    asked.add_argument("--seed", default=str(random.randrange(10**6)), help="of what the clients choose")
    asked.add_argument("--strict", action="store_true", help="judge queries on connections that were open already too")
    asked.add_argument("--self-test", action="store_true")
    options = asked.parse_args()
    if options.seconds is None:
        options.seconds = 5 if options.self_test else 60
    options.least = 3500 if options.self_test else 0
    if options.pace is None:
        options.pace = 120 if options.self_test else 25
    return options


def main() -> NoReturn:
    """Drives a server, or the plain one with its faults."""
    options = parsed()
    print(f"seed {options.seed}", flush=True)
    try:
        if options.self_test:
            sys.exit(self_test(options))
        limits = ["--queue", options.queue, "--batches", options.batches, "--spans", 3 * options.batches]
        violations, troubled = drive(options, options.bin, "--idle", 60, "--workers", options.workers, *limits, port=options.port)
        sys.exit(1 if violations else 2 if troubled else 0)
    except (CannotRun, Failed) as fault:
        print(fault)
    except Exception:
        traceback.print_exc()
    sys.exit(2)


if __name__ == "__main__":
    main()
