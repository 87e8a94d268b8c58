#!/usr/bin/env python3
"""Each allocation of the built program, and of some built tests, refused in turn.

For `get` over the sample batches, and for `play` over a script: the run ends with status 5, and what it wrote is a prefix of what
it writes with ample memory; or nothing has changed.

For `pipe` over a session of batches and queries: the run ends with status 5, and what it wrote are the
first responses; or one request gets 500, and every other response is that of a session without the request, so a
batch that was refused is nowhere and a batch that was accepted is found. The same for batches in chunks, which get the
responses of those by Content-Length.

For each test of TESTS: it passes, or ends with the error that memory was short for what it needs itself. Each makes a
call that finds no memory once more and compares what comes then, so a test that passes has seen either an answer or that
memory ran out, and the right answer after that. A pair of tests takes the same count of allocations: what the first
one does beyond the second takes none.

    checks/allocations.py [--bin PATH] [--tests FOLDER] [--every N] [--only WORD]

It needs Python 3.10, a C compiler, the built program, and the tests built by `rt test` in the folders of their crates. The
last line is `N passed, M failed`.
"""
import collections
import functools
import itertools
import os
import subprocess
import sys
import tempfile
from collections.abc import Callable, Iterator
from typing import NamedTuple

from crates import ROOT, asked_of
from wire import get, post, post_in_chunks

WANT = b'{"data":null,"errors":[{"code":500,"msg":"out of memory"}],"limit":0,"offset":0,"total":0}'
QUERIES = [
    "/api/services",
    "/api/services/shop/operations",
    "/api/operations?service=shop",
    "/api/traces/1",
    "/api/traces/1?raw=true",
    "/api/traces?service=shop&start=0&end=9000000000000000",
    "/api/traces?service=shop&tags=%7B%22a%22%3A%22b%22%7D",
    "/api/dependencies?endTs=9000000000000&lookback=9000000000000",
    "/api/traces?service=shop&limit=x",
    "/api/nothing",
]


class Test(NamedTuple):
    """A test of a crate, and one that takes as many allocations."""

    crate: str
    name: str
    as_many: str | None = None


class Ran(NamedTuple):
    """A run of a program: its status, its output, and how many allocations it made."""

    status: int
    output: bytes
    allocations: int


class Ended(NamedTuple):
    """How a test ended, and how many allocations it made."""

    how: str
    allocations: int


class Case(NamedTuple):
    """What is run, how many allocations it makes, and a call that says how a run ends in which the allocation of this number is refused."""

    name: str
    allocations: int
    ends: Callable[[int], str]


TESTS = [
    Test("wire_tests", "tests::batch_bytes::memory_for_a_batch"),
    Test("wire_tests", "tests::piece_faults::memory_for_pieces"),
    Test("wire_tests", "tests::piece_faults::sizes_beyond_the_bytes"),
    Test("store_tests", "tests::stores::apply_without_memory", "tests::stores::a_store_is_opened"),
    Test("store_tests", "tests::stores::memory_for_answers"),
    Test("session_tests", "tests::answers::memory_for_a_tree"),
    Test("session_tests", "tests::answers::memory_for_a_response"),
    Test("session_tests", "tests::answers::memory_for_parts", "tests::answers::parts_are_made"),
    Test("session_tests", "tests::pipes::memory_for_a_session"),
    Test("read_side_tests", "tests::rows::admit_all_or_nothing"),
    Test("read_side_tests", "tests::sent_again::the_one_batch_sent_again"),
    Test("intake_tests", "tests::rows::closed_before_no_memory"),
]

# What a test prints that could not go on itself since an allocation was refused: the error that its call gave, by `Debug`.
SHORT_OF_MEMORY = {b"error: AllocError", b"error: NoMemory", b"error: Memory", b"error: OutOfMemory"}

SCRIPT_END = ["publish", "learn 1 1", "enter 0", "publish", "publish", "leave 0", "enter 0", "leave 9", "bad", ""]


class Program:
    """A built program with the shim that refuses allocations."""

    def __init__(self, path: str, folder: str) -> None:
        self.path = path
        self.shim = os.path.join(folder, "refuse.so")
        self.count = os.path.join(folder, "count")
        source = os.path.join(ROOT, "checks", "refuse.c")
        if not os.path.exists(self.shim):
            subprocess.run(["cc", "-O2", "-shared", "-fPIC", "-o", self.shim, source, "-ldl"], check=True)

    def run(self, words: list[str], stdin: bytes, refuse: int = 0, stderr: int | None = None) -> Ran:
        """Runs the program with one allocation refused, or none."""
        env = dict(os.environ, LD_PRELOAD=self.shim, REFUSE_AT=str(refuse), REFUSE_COUNT=self.count)
        done = subprocess.run([self.path, *words], input=stdin, stdout=subprocess.PIPE, stderr=stderr, env=env)
        with open(self.count) as file:
            return Ran(done.returncode, done.stdout, int(file.read()))


def sample(name: str) -> bytes:
    """Returns the text of a sample."""
    with open(os.path.join(ROOT, "samples", name), "rb") as file:
        return file.read()


def responses(output: bytes) -> list[bytes] | None:
    """Returns the output as whole responses, each by its Content-Length; None if one is cut."""
    parts = []
    while output:
        head, found, rest = output.partition(b"\r\n\r\n")
        lengths = [line.split(b":")[1] for line in head.split(b"\r\n") if line.lower().startswith(b"content-length")]
        size = int(lengths[0]) if lengths else 0
        if not found or len(rest) < size:
            return None
        parts.append(head + found + rest[:size])
        output = rest[size:]
    return parts


def script(batches: list[bytes]) -> bytes:
    """Returns steps of `play`: each batch is put, taken and published while a reader comes and goes, and then every query is asked."""
    lines = []
    for batch in batches:
        lines += ["enter 1", "put 0 " + batch.decode(), "take", "publish", "read 1 /api/services", "leave 1"]
    lines += SCRIPT_END + [f"read 0 {target}" for target in QUERIES]
    return "".join(line + "\n" for line in lines).encode()


def is_want(response: bytes) -> bool:
    """Returns whether a response says that memory ran out."""
    return response.startswith(b"HTTP/1.1 500 ") and response.endswith(WANT)


def lines_end(program: Program, words: list[str], stdin: bytes, whole: Ran, number: int) -> str:
    """Returns how a run of `get` or `play` ends: "status 5", "same" or "wrong"."""
    status, output, _ = program.run(words, stdin, number)
    if status == 5:
        return "status 5" if whole.output.startswith(output) else "wrong"
    return "same" if (status, output) == (whole.status, whole.output) else "wrong"


def pipe_ends(program: Program, requests: list[bytes], whole: Ran, number: int) -> str:
    """Returns how a session ends: "status 5", "a response 500", "same" or "wrong"."""
    status, output, _ = program.run(["pipe"], b"".join(requests), number)
    got = responses(output)
    if got is None or status not in (0, 5):
        return "wrong"
    refused = [place for place, response in enumerate(got) if is_want(response)]
    wanted = responses(whole.output)
    if refused:
        left = [request for place, request in enumerate(requests) if place != refused[0]]
        wanted = responses(program.run(["pipe"], b"".join(left)).output)
        assert wanted is not None
        wanted.insert(refused[0], got[refused[0]])
    assert wanted is not None
    if len(refused) > 1 or got != (wanted if status == 0 else wanted[: len(got)]):
        return "wrong"
    return "status 5" if status == 5 else "a response 500" if refused else "same"


def test_ends(tests: Program, name: str, number: int = 0) -> Ended:
    """Returns how a test ends: "passed", "an error" (it could not go on itself for want of memory, and says so) or "wrong", and how many
    allocations it made."""
    status, output, count = tests.run([name], b"", number, subprocess.STDOUT)
    if status == 0:
        return Ended("passed" if b"test result: ok" in output else "wrong", count)
    is_expected = b"its result gives status" in output and SHORT_OF_MEMORY & set(output.splitlines())
    return Ended("an error" if is_expected else "wrong", count)


def how_by(tests: Program, name: str) -> Callable[[int], str]:
    """Returns a call that says how a test ends in which the allocation of a number is refused."""
    return lambda number: test_ends(tests, name, number).how


def test_cases(folder: str, only: str, built: str | None) -> Iterator[Case]:
    """Yields what cases() yields, of each test; the counts of a pair are compared by one run more."""
    for crate, name, as_many in TESTS:
        if only not in f"{crate}::{name}":
            continue
        path = f"{built}/{crate}_tests" if built else f"{ROOT}/crates/{crate}/out/{crate}_tests"
        tests = Program(path, folder)
        ends, count = test_ends(tests, name)
        assert ends == "passed", (crate, name, ends)
        yield Case(f"{crate} {name}", count, how_by(tests, name))
        if as_many:
            other = test_ends(tests, as_many)
            kind = "as many" if other == ("passed", count) else "wrong"
            print(f"{crate} {as_many}: {other.allocations} allocations, {kind}")
            if kind == "wrong":
                yield Case(f"{crate} {as_many}", 1, lambda n: "wrong")


def cases(program: Program) -> Iterator[Case]:
    """Yields the runs of the program."""
    for name in ["first.hex", "shop.hex", "apache.hex", "faults.hex"]:
        stdin = sample(name)
        words = ["get", "--traces", "2", "1"]
        whole = program.run(words, stdin)
        yield Case(f"get {name}", whole.allocations, functools.partial(lines_end, program, words, stdin, whole))
    stdin = script([line for name in ["first.hex", "shop.hex", "faults.hex"] for line in sample(name).split()])
    words = ["play", "--traces", "2"]
    played = program.run(words, stdin)
    yield Case("play", played.allocations, functools.partial(lines_end, program, words, stdin, played))
    bodies = [bytes.fromhex(line.decode()) for name in ["first.hex", "shop.hex", "apache.hex"] for line in sample(name).split()]
    requests = [part for body in bodies for part in (post(body), get("/api/traces/1"))] + [get(target) for target in QUERIES]
    whole = program.run(["pipe"], b"".join(requests))
    assert whole.status == 0 and len(responses(whole.output) or []) == len(requests), whole
    yield Case("pipe", whole.allocations, functools.partial(pipe_ends, program, requests, whole))
    chunked = [part for body in bodies for part in (post_in_chunks(body, 7, b";a=b", b"A: b\r\n"), get("/api/traces/1"))]
    answered = program.run(["pipe"], b"".join(chunked))
    assert answered[:2] == program.run(["pipe"], b"".join(requests[: len(chunked)]))[:2], answered
    yield Case("pipe in chunks", answered.allocations, functools.partial(pipe_ends, program, chunked, answered))


def main() -> None:
    """Refuses each allocation of each run in turn, and prints how they ended."""
    asked = asked_of(__doc__)
    asked.add_argument("--every", type=int, default=1, help="only each N-th allocation")
    asked.add_argument("--tests", help="the folder of the built tests, if not those of their crates")
    asked.add_argument("--only", default="", help="only tests whose name has this word, and nothing of the program")
    options = asked.parse_args()
    passed = failed = 0
    with tempfile.TemporaryDirectory() as folder:
        of_program = [] if options.only else cases(Program(options.bin, folder))
        for name, count, ends in itertools.chain(of_program, test_cases(folder, options.only, options.tests)):
            seen = collections.Counter(ends(number) for number in range(1, count + 1, options.every))
            print(f"{name}: {count} allocations;", ", ".join(f"{kind} {seen[kind]}" for kind in sorted(seen)))
            failed += seen["wrong"]
            passed += seen.total() - seen["wrong"]
    print(f"{passed} passed, {failed} failed")
    sys.exit(1 if failed else 0)


if __name__ == "__main__":
    main()
