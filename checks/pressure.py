#!/usr/bin/env python3
"""`jaeger_one serve` when memory or room is short, as a black box.

    checks/pressure.py [--bin PATH] [--posts N]

  memory    a server under a limit of address space (as `ulimit -v` sets it) is posted to until it refuses: each POST gets an answer, 202
            or 500 or 503, in time; left alone it takes less than a tenth of a core; queries are answered; once the limit is lifted a
            batch is accepted again
  refusals  a server whose journal is full refuses N batches (`--posts`, a million unless told otherwise), and the memory that it
            holds stays as it was after the first ten thousand
  idle      a server that nobody asks takes less than a hundredth of a core
  told      the lines on standard error, each of them once: at the start how much is held at most, that the journal is full, and
            of each worker that can accept no more why (the listening socket is shut from outside)
  files     a server at its limit of open files says so once and takes less than a tenth of a core; once the limit is lifted it accepts
            who waits; the same a second time
  waits     a worker whose clients read nothing of answers of 100,000 spans: beyond 2 GB of text it closes the next such connections, says
            so once, and serves others; it takes 300 MB and some twenty seconds
  texts     the same of answers that are one span of 25 MB of text, which is in memory as text: beyond 268 MB
  answers   a server without memory for an answer (its data may not grow) answers 500 and says so once, with the refusal's number and how
            many there were; once the limit is lifted the same query gets 200
  opening   a server without memory for a store with its limits ends with status 5 and says why

Standard library alone, Linux. One line for each part; the last line is `N passed, M failed`.
"""
import contextlib
import os
import resource
import select
import subprocess
import time

from crates import asked_of
from servers import Client, Failed, Server, check, get, limited_by, post, post_body, run_cases
import wire


def posted_until_refused(server: Server) -> tuple[int, list[int | str]]:
    """Posts large batches until some are refused; returns how many were accepted, and the statuses of the others."""
    accepted = 0
    others: list[int | str] = []
    client = Client(server.port)
    for number in range(1, 200_000):
        try:
            status: int | None = client.answer(post(number, operation="x" * 20_000)).status
        except Failed:
            # A head or a body for which there is no memory ends its session.
            others.append("ended")
            client = Client(server.port)
            status = None
        if status == 202:
            accepted += 1
        elif status:
            others.append(status)
        if len(others) == 50:
            break
    return accepted, others


def memory() -> str:
    """Posts to a server under a limit of address space."""
    limit = 730 << 20
    with Server("--batches", 1_000_000, "--spans", 1_000_000, "--workers", 4, "--idle", 0, address_space=limit) as server:
        accepted, others = posted_until_refused(server)
        check(accepted > 0, "nothing was accepted")
        check(len(others) == 50, f"no more than {len(others)} of the POSTs were refused")
        check(set(others) <= {500, 503, "ended"}, f"other answers: {sorted(set(map(str, others)))}")
        share = server.share(3)
        check(share < 0.1, f"left alone it takes {share:.2f} of a core")
        resource.prlimit(server.run.pid, resource.RLIMIT_AS, (resource.RLIM_INFINITY, resource.RLIM_INFINITY))
        with Client(server.port) as client:
            client.ask(post(7, operation="again"), 202)
            body = client.ask(get("/api/services/shop/operations"), 200).body
            check(b'"again"' in body, "with memory again a batch is answered 202 and not found")
        ended = others.count("ended")
        return f"{accepted} accepted, then 50 refused ({ended} of them by the end of the session), {share:.3f} of a core alone, accepted again"


def refusals(posts: int) -> str:
    """Lets a full server refuse this number of batches."""
    at_once = 200
    requests = b"".join(post(number) for number in range(at_once))
    with Server("--batches", 1, "--workers", 2, "--idle", 0) as server, server.client() as client:
        client.ask(post(1), 202)
        held = []
        for turn in range(max(2, posts // at_once)):
            client.send(requests)
            for _ in range(at_once):
                status = client.response().status
                check(status == 503, f"a batch that does not fit is answered {status}")
            if turn == 50:
                held.append(server.memory())
        held.append(server.memory())
        check(held[-1] <= held[0] + 256, f"{held[0]} kB after ten thousand refusals, {held[-1]} kB after {posts}")
        return f"{posts} refusals; {held[0]} kB after the first ten thousand, {held[-1]} kB after all"


def idle() -> str:
    """Leaves a server alone."""
    with Server("--workers", 4) as server:
        with server.client() as client:
            client.ask(post(1), 202)
            share = server.share(3)
        check(share < 0.01, f"it takes {share:.3f} of a core")
        return f"{share:.3f} of a core"


def told() -> str:
    """Reads the lines on standard error."""
    with Server("--batches", 1, "--workers", 2) as server:
        with server.client() as client:
            client.ask(post(1), 202)
            begin = server.told()
            for number in range(2, 5):
                client.ask(post(number), 503)
        full = server.told()[len(begin):]
        check(len(begin) == 3 and begin[0].startswith("holds at most 1 batch and") and begin[2].startswith("at least 90% full: 1 of 1 batch ("),
              f"it began with {begin}")
        check(len(full) == 1 and full[0].startswith("full: 1 of 1 batch and"), f"when it was full it said {full}")
        server.shut_listener()
        status, output = server.ends()
        more = server.told()[len(begin) + len(full):]
        check(status == 4 and output.splitlines()[1:] == ["served 1", "books 1 3 0"], f"it ended with {status}: {output!r}")
        wanted = [f"worker {worker} accepts no more connections: " for worker in (0, 1)]
        is_told = all(line.startswith(start) and line.endswith("; a restart brings it back") for line, start in zip(sorted(more[:2]), wanted))
        check(len(more) == 3 and is_told, f"two workers ended and said {more}")
        check(more[2] == "ends with status 4: a worker could accept no more connections", f"it ended and said {more[2]!r}")
    return "; ".join([*begin, *full, *more])


def short_of_files(server: Server) -> float:
    """Brings a server of two workers that wait to its limit of open files and lifts it again; returns the share of a core that it took."""
    limit = resource.prlimit(server.run.pid, resource.RLIMIT_NOFILE)
    files = len(os.listdir(f"/proc/{server.run.pid}/fd"))
    resource.prlimit(server.run.pid, resource.RLIMIT_NOFILE, (files + 2, limit[1]))
    with server.client() as one, server.client() as other, server.client() as late:
        one.ask(get("/api/services"), 200)
        other.ask(get("/api/services"), 200)
        late.send(get("/api/services"))
        share = server.share(2)
        check(not select.select([late.socket], [], [], 0)[0], "it serves a connection beyond its limit")
        resource.prlimit(server.run.pid, resource.RLIMIT_NOFILE, limit)
        check(late.response().status == 200, "it serves nobody once the limit is lifted")
    return share


def files() -> str:
    """Brings a server to its limit of open files, twice."""
    with Server("--workers", 2, "--sessions", 6) as server:
        time.sleep(0.5)  # both workers wait by then, and the limits are said
        begin = server.told()
        shares = [short_of_files(server)]
        time.sleep(0.5)
        shares.append(short_of_files(server))
        server.served(6, 0)
        told = server.told()[len(begin):]
        check(max(shares) < 0.1, f"at the limit it takes {max(shares):.2f} of a core")
        start, end = "no connection can be accepted for now: ", "; more memory or open files (ulimit -n) help"
        check(len(told) == 2 and all(line.startswith(start) and line.endswith(end) for line in told), f"it said {told}")
    return f"{told[0]}; {max(shares):.3f} of a core"


def waits() -> str:
    """Leaves answers of many spans unread."""
    many, all_of_them = 10_000, get("/api/traces?service=shop&limit=0")
    with Server("--workers", 1, "--spans", 200_000, "--idle", 0) as server, contextlib.ExitStack() as stack:
        with server.client() as client:
            for trace in range(10):
                client.ask(post_body(wire.batch("shop", [wire.span(trace + 1, number + 1) for number in range(many)])), 202)
            text = len(client.ask(all_of_them, 200).body)
        begin = server.told()
        slow: list[Client] = []
        while server.told() == begin and len(slow) * text < 3 << 30:
            slow.append(stack.enter_context(server.client(patience=60, room=4096)))
            slow[-1].send(all_of_them)
            check(slow[-1].more(), "no response began")
        told = server.told()[len(begin):]
        wanted = "too much waits for clients that don't read: further connections of such clients are closed; queries with a limit help"
        check(told == [wanted], f"with {len(slow)} answers of {text} bytes it said {told}")
        check(len(slow) * text > 2 << 30, f"it said so of {len(slow)} answers of {text} bytes")
        check(slow[0].more(), "a client that came before gets no more of its answer")
        server.is_well()
        check(server.told()[len(begin):] == told, f"then it said {server.told()[len(begin):]}")
        held = f"{len(slow)} answers of {text / 1e6:.1f} MB, {server.memory() / 1000:.0f} MB held; {wanted}"
    return held


def texts() -> str:
    """Leaves answers of long texts unread."""
    with Server("--workers", 1, "--idle", 0) as server, contextlib.ExitStack() as stack:
        with server.client() as client:
            tags = wire.structs(10, [wire.text_tag("controls", "\x01" * 4_190_000)])
            client.ask(post_body(wire.batch("shop", [wire.span(1, 1, more=tags)])), 202)
            text = len(client.ask(get("/api/traces/1"), 200).body)
        begin = server.told()
        slow: list[Client] = []
        while server.told() == begin and len(slow) * text < 1 << 30:
            slow.append(stack.enter_context(server.client(patience=60, room=4096)))
            slow[-1].send(get("/api/traces/1"))
            check(slow[-1].more(), "no response began")
        told = server.told()[len(begin):]
        wanted = "too much waits for clients that don't read: further connections of such clients are closed; queries with a limit help"
        check(told == [wanted], f"with {len(slow)} answers of {text} bytes it said {told}")
        check(0 < len(slow) * text - (256 << 20) < 2 * text, f"it said so of {len(slow)} answers of {text} bytes")
        check(slow[0].more(), "a client that came before gets no more of its answer")
        server.is_well()
        held = f"{len(slow)} answers of {text / 1e6:.1f} MB, {server.memory() / 1000:.0f} MB held; {wanted}"
    return held


def answers() -> str:
    """Asks a server that has no memory for the answer."""
    many, all_of_them = 10_000, get("/api/traces?service=shop&limit=0")
    with Server("--workers", 1, "--spans", 400_000, "--idle", 0) as server, server.client(patience=60) as client:
        for trace in range(10):
            client.ask(post_body(wire.batch("shop", [wire.span(trace + 1, number + 1) for number in range(many)])), 202)
        begin = server.told()
        data = server.kilobytes("VmData") << 10
        resource.prlimit(server.run.pid, resource.RLIMIT_DATA, (data, resource.RLIM_INFINITY))
        for _ in range(2):
            client.ask(all_of_them, 500)
        told = server.told()[len(begin):]
        wanted = "answered 500 for 22 NoMemory; requests that were answered 500 so far: 1"
        check(told == [wanted], f"after two answers it said {told}")
        resource.prlimit(server.run.pid, resource.RLIMIT_DATA, (resource.RLIM_INFINITY, resource.RLIM_INFINITY))
        client.ask(all_of_them, 200)
        return f"{wanted}; then 200"


def opening() -> str:
    """Starts a server without memory for its store."""
    words = [Server.binary, "serve", "--workers", "1", "--batches", "1000000"]
    run = subprocess.run(words, stdin=subprocess.DEVNULL, capture_output=True, timeout=20, preexec_fn=limited_by({resource.RLIMIT_AS: 30 << 20}))
    wanted = "ends with status 5: no memory for a store with these limits: give smaller ones"
    check(run.returncode == 5 and not run.stdout, f"it ended with {run.returncode}: {run.stdout!r}")
    check(run.stderr.decode().splitlines() == [wanted], f"it said {run.stderr!r}")
    return wanted


def main() -> None:
    """Runs the parts."""
    asked = asked_of(__doc__)
    asked.add_argument("--posts", type=int, default=1_000_000)
    asked.add_argument("--only", default="", help="the parts whose name has this word")
    options = asked.parse_args()
    Server.binary = options.bin
    cases = {"memory": memory, "refusals": lambda: refusals(options.posts), "idle": idle, "told": told, "files": files, "waits": waits,
             "texts": texts, "answers": answers, "opening": opening}
    run_cases(cases, options.only)


if __name__ == "__main__":
    main()
