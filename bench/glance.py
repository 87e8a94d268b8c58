"""Makes the tables of docs/benchmarks.md and of README.md, of several series each. It is no script: `tables.py` calls it."""
from typing import Iterable

from series import ALONE, BESIDE, COST, LOOK, ONE, POST, SIZES, TWENTY, WRITERS, Results
from table_rows import seen
from table_text import bounds, cell, day, listed, note, table, two

# The limit of heavy.py for twice the parts, unless they are more than twice the bytes.
GROWTH_LIMIT = 2.2
PLOT = "![Spans a second that a server takes, by number of writers](bench/plots/writers.svg)"


def plural(word: str, names: list[str]) -> str:
    """Returns a word, with `s` unless there is one name, and the names."""
    return f"{word}{'s' if names[1:] else ''} {listed(names)}"


def days(found: Results, *names: str) -> list[str]:
    """Returns the days, the programs, their commits and the machines of several series."""
    series = [found[name] for name in names]
    dates = [day(it) for it in sorted({it.date for it in series})]
    commits = sorted({it.commit for it in series})
    programs = " and ".join(sorted({it.program for it in series}))
    return note([" to ".join(dict.fromkeys((dates[0], dates[-1]))), f"program: {programs}, of commit{'s' if commits[1:] else ''} {', '.join(commits)}",
                 plural("machine", sorted({it.machine for it in series}))])


def machines(found: Results) -> list[str]:
    """Returns the machines that a series was measured on."""
    used = {it.machine for it in found.series.values()}
    rows = ([name, it.processor, it.memory, it.system] for name, it in found.machines.items() if name in used)
    return table(["Machine", "Processors", "Memory", "System"], rows)


def instructions(found: Results, decoder: str) -> float:
    """Returns the instructions a byte that a decoder takes."""
    return found["compare --count"].one(decoder=decoder).instructions_a_byte


def decoders(found: Results) -> list[str]:
    """Returns the ratios of decoding a POST's body to plain Rust and to Apache Thrift. A server decodes by a `Feeder`."""
    return [two(instructions(found, name) / instructions(found, "pieces")) for name in ("rust", "apache")]


def longest_while_filling(found: Results) -> str:
    """Returns the ratio of the longest POST while a store fills to 10,000,000 spans."""
    it = found["growth"].one(what="the longest POST, ms", spans_stored=10_000_000)
    return two(it.plain_server / it.jaeger_one)


def glance_beside(found: Results) -> list[str]:
    """Returns the ratios to the plain server and the plain scan."""
    rust, apache = decoders(found)
    serve = found.serve()
    search = {it.question: two(it.scan_ms / it.store_ms) for it in found.rows("searches")}
    alone = "; ".join(f"{name} {serve.gains_alone(number).partition(',')[0]}" for name, number in zip(("one", "two", "four", "eight"), WRITERS))
    rows = [
        ["decoding a body, instructions", f"{rust} to plain Rust; {apache} to Apache Thrift in C++, which checks no UTF-8", "`compare.py`"],
        ["spans taken a second, by number of writers", alone, "`serve.py`"],
        ["the same, for a second of the server's processors", serve.gains(COST, *WRITERS), "`serve.py`"],
        ["spans taken a second beside two readers", serve.gains(BESIDE, *WRITERS), "`serve.py`"],
        ["a POST then, p99", f"up to four writers {serve.gains(POST, 1, 2, 4)}; eight {serve.gains(POST, 8)}", "`serve.py`"],
        ["a trace by its id, nobody writing, processor time", serve.gains(ONE, 0), "`serve.py`"],
        ["20 traces with their JSON, the same", serve.gains(TWENTY, 0), "`serve.py`"],
        ["a trace by its id beside four writers", f"p50 {serve.gains(LOOK + ': p50, ms', 4)}; p99 {serve.gains(LOOK + ': p99, ms', 4)}", "`serve.py`"],
        ["a search among 100,000 spans", f"20 traces with their JSON {search['20 of a common service, with JSON']}; a tag that no span has "
         f"{search['no such tag']}", "`searches.py`"],
        ["dependencies, over all traces", search["links of all time"], "`searches.py`"],
        ["the longest POST while 10,000,000 spans are stored", longest_while_filling(found), "`growth.py`"],
    ]
    names = ["compare --count", "serve", "searches", "growth"]
    return table(["What", "Ratio to the plain one", "By"], rows) + days(found, *names)


def glance_alone(found: Results) -> list[str]:
    """Returns what was measured of Kiwibismuth alone."""
    rows = [*glance_serve(found), *glance_connections(found), *glance_growth(found)]
    return table(["What", "Measured", "By"], rows) + days(found, "serve", "connections", "connections, memory", "held", "heavy", "searches --count")


def glance_serve(found: Results) -> Iterable[list[str]]:
    """Yields what the server takes and answers."""
    serve = found.serve()
    costs = [serve.row(COST, writers, size).jaeger_one for writers in WRITERS for size in SIZES]
    rates = f"four writers {serve.ours(ALONE, 4)}, eight {serve.ours(ALONE, 8)}"
    looks = ", ".join(f"{name} {serve.ours(f'{LOOK}: {name}, ms', 4)} ms" for name in ("p50", "p99"))
    yield ["spans taken a second", rates, "`serve.py`"]
    yield ["processor time a span", f"{bounds(costs, cell)} microseconds", "`serve.py`"]
    yield ["a trace by its id beside four writers", looks, "`serve.py`"]
    json = found["searches --count"].one(what="the JSON of 20 traces").instructions_a_byte
    yield ["JSON of 20 traces", f"{cell(json)} instructions a byte", "`searches.py`"]


def glance_connections(found: Results) -> Iterable[list[str]]:
    """Yields what many connections cost."""
    def at(part: str, what: str) -> str:
        return seen(found, "connections", part=part, what=what)

    def beside(part: str) -> str:
        return f"{at(part, 'a trace p99, ms')} ms; alone {at(part, 'alone p99, ms')}"

    silent = seen(found, "connections, memory", part="silent", connections=10_000, what="MB")
    yield ["1,000 senders that post once a second: a POST, p99", f"{at('senders', 'POST p99, ms')} ms", "`connections.py`"]
    yield ["10,000 silent connections", f"{silent} MB", "`connections.py`"]
    yield ["a trace by its id beside 1,000 clients that stop inside a body, p99", beside("slow senders"), "`connections.py`"]
    yield ["the same beside 1,000 that don't read a long answer", beside("slow readers"), "`connections.py`"]


def glance_growth(found: Results) -> Iterable[list[str]]:
    """Yields how long POSTs wait for queries, and what bodies cost in which two parts could multiply."""
    stores = {f"{size:,}": found["held"].where(size=size, unit="spans") for size in (100_000, 1_000_000, 10_000_000)}
    waits = (f"{max(it.beside_ms_longest for it in rows):.0f} ms at {size} spans" for size, rows in stores.items())
    doubled = [it for it in found.rows("heavy") if max(it.bar_half, it.bar_whole) <= GROWTH_LIMIT + 0.1]
    ratios = [ratio for it in doubled for ratio in (it.instructions_ratio_half, it.instructions_ratio_whole)]
    most = max(ratio for it in doubled for ratio in (it.memory_ratio_half, it.memory_ratio_whole))
    yield ["the longest POST beside a query", "; ".join(waits), "`held.py`"]
    yield ["twice the bytes, of bodies made to be costly", f"{bounds(ratios, cell)} times the instructions, at most {most} times the memory", "`heavy.py`"]


def speed(found: Results) -> list[str]:
    """Returns the README's table and plot."""
    serve = found.serve()

    def of_both(what: str, writers: int) -> list[str]:
        rows = [serve.row(what, writers, size) for size in SIZES]
        return [bounds([it.jaeger_one for it in rows], cell), bounds([it.plain_server for it in rows], cell)]

    rows = [
        ["decoding a POST's body (in one piece), instructions a byte", *(cell(instructions(found, it)) for it in ("pieces", "rust")), decoders(found)[0]],
        ["spans taken a second, four writers", *of_both(ALONE, 4), serve.gains_alone(4)],
        ["a POST of four writers beside two readers at full speed, p99, ms", *of_both(POST, 4), serve.gains(POST, 4)],
        ["20 traces with their JSON, processor time of the server, ms",
         *(serve.in_milliseconds(TWENTY, side) for side in ("jaeger_one", "plain_server")), serve.gains(TWENTY, 0)],
    ]
    heads = ["What", "Kiwibismuth", "Plain Rust", "Ratio (above 1: Kiwibismuth is better)"]
    return [*table(heads, rows), *days(found, "compare --count", "serve"), "", PLOT]
