"""Makes the tables of bench/figures.md, each of one series, with its caption. It is no script: `tables.py` calls it."""
import re
from typing import Any, Callable

from series import LOOK, SIZES, Results, Row, Serve
from table_text import NOISE, Form, bounds, cell, day, digits, note, table, two

Table = Callable[[Results], list[str]]
MACHINES = "../docs/benchmarks.md#machines"
TAGS = [1, 5]
PROCESS_TAGS = [4, 12, 20]
IN_BATCH = [100, 17, 10, 2, 1]
IDLE = "s of a processor in ten"
DECODERS = {"rattle": "`batch_codec::decode`", "rust": "plain Rust, unverified", "apache": "Apache Thrift, C++",
            "pieces": "a `Feeder`, a body in one piece", "bytes": "the same, a byte at a time"}
SHAPES = {"traces": "ordinary traces", "services": "a new service with each body", "operations": "a new operation with each span",
          "one trace": "all spans in one trace", "processes": "a process for each span", "chain": "a chain", "one span id": "all spans of one id",
          "colliding": "ids that collide without a key"}
KINDS = {"one half": "unlike in one half alone", "colliding": "all collide under a hash without a key"}


def caption(found: Results, name: str) -> list[str]:
    """Returns when, where and of what a series was taken."""
    it = found[name]
    parts = [day(it.date) if it.date else "the day was not written down"]
    parts.append(f"commit {it.commit}" if it.commit else f"the commit was not written down (on this page since {it.page})")
    parts.append(f"[machine {it.machine}]({MACHINES})")
    if it.program:
        parts.append(f"{it.program}, by {it.compiler}")
    if it.peers:
        versions = "" if re.search(r"\d\.\d", it.peers) else ", version not written down"
        parts.append(f"the others by {it.peers}{versions}")
    if it.load:
        parts.append("nothing else ran" if it.load == "none" else it.load if it.load.startswith("beside") else f"load {it.load.removesuffix(' at the end')}")
    return note(parts)


def printed(name: str, heads: list[str], **forms: Form) -> Table:
    """Returns what makes a table of a series as it is, with these heads; a form makes the cells of the field of its name."""
    def made(found: Results) -> list[str]:
        rows = ([forms.get(field, cell)(value) for field, value in vars(it).items()] for it in found.rows(name))
        return table(heads, rows) + caption(found, name)
    return made


decode = printed("decode", ["Decoded MB", "Batches", "Seconds", "Batches a second", "MB a second"])
store = printed("store", ["Spans held", "Microseconds a span"])
searches_load = printed("searches --load", ["Spans held", "Microseconds a batch"])
ids = printed("ids", ["Ids", "ms", "Of random"], ids=lambda kind: KINDS.get(kind, kind))
limits = printed("limits", ["Traces held", "Microseconds a limit"])
memory = printed("memory", ["Spans held", "Tags a span", "MB in", "MB held", "Bytes a span", "MB of the answer", "MB more for it"])
copies = printed("copies", ["Spans held", "", "admits/s", "of one", "admit p50", "admit p99", "reads/s", "read p50", "read p99"],
                 of_one=digits(3), read_p50=digits(3), read_p99=digits(3))
held_at_once = printed("held --at-once", ["Asked at once", "Connections", "MB in", "MB held before", "MB more at most", "Of bytes sent",
                                          "MB held for a slow reader"])
held_answers = printed("held --answers", ["Answer", "Spans", "Bytes a span, 4 answers at once", "8 at once", "The 4 more, bytes a span"])
gate_by_crate = printed("gate, by crate", ["Crate", "CPU minutes", "of these its wrong bodies", "Memory, GB"],
                        crate=lambda name: name if " " in name else f"`{name}`")


def compare(found: Results) -> list[str]:
    """Returns the decoders."""
    counted = found["compare --count"]
    rows = ([DECODERS[it.decoder], cell(counted.one(decoder=it.decoder).instructions_a_byte), cell(it.megabytes_a_second)] for it in found.rows("compare"))
    return table(["Decoder", "Instructions a byte", "MB a second"], rows) + caption(found, "compare")


def resent(found: Results) -> list[str]:
    """Returns what batches with a `seqNo` cost."""
    series = found["resent"]
    sizes = sorted({it.batches for it in series.rows})
    rows = ([cell(size), *(cell(series.one(what=what, batches=size).microseconds_a_batch_more) for what in ("new numbers", "one number", "again"))]
            for size in sizes)
    return table(["Batches", "New numbers", "One number, other processes", "One batch again, which isn't stored again"], rows) + caption(found, "resent")


def session(found: Results) -> list[str]:
    """Returns what posts and reads cost by number of spans held."""
    series = found["session"]
    whats = list(dict.fromkeys(it.what for it in series.rows))
    sizes = sorted({it.spans_held for it in series.rows})
    rows = ([what if what == "posts a second" else f"{what}, ms", *(cell(series.one(what=what, spans_held=size).value) for size in sizes)] for what in whats)
    return table(["", *(f"{size:,} spans" for size in sizes)], rows) + caption(found, "session")


def searches(found: Results) -> list[str]:
    """Returns the store's and the scan's time of each question."""
    rows = ([it.question, cell(it.found), f"{it.store_ms:.4f}", f"{it.scan_ms:.4f}", two(it.scan_ms / it.store_ms)] for it in found.rows("searches"))
    return table(["Question", "Found", "Store, ms", "Scan, ms", "Times as fast"], rows) + caption(found, "searches")


def shapes(found: Results) -> list[str]:
    """Returns for each shape the ratio of its posts, and of answers those that are steep and slow."""
    rows = []
    for name in dict.fromkeys(it.shape for it in found.rows("shapes")):
        posts, *more = found["shapes"].where(shape=name)
        steep = (f"{it.what} {it.twice_of_once}" for it in more if it.twice_of_once > 2.6 and (it.milliseconds is None or it.milliseconds >= 1))
        rows.append([SHAPES[name], "; ".join([cell(posts.twice_of_once), *steep])])
    return table(["Shape", "Posts, twice of once; then answers"], rows) + caption(found, "shapes")


def heavy(found: Results) -> list[str]:
    """Returns what bodies cost in which two parts could multiply."""
    def of(it: Row, *fields: str) -> str:
        return ", ".join(cell(getattr(it, field)) for field in fields)

    heads = ["Body, then what is asked", "MB in, out", "Million instructions", "Ratios", "MB of memory", "Ratios", "Memory of bytes sent",
             "Limits of the ratios"]
    rows = ([it.body_then_what_is_asked, f"{it.mb_in:.2f}, {it.mb_out:.2f}", cell(it.million_instructions_whole),
             of(it, "instructions_ratio_half", "instructions_ratio_whole"), cell(it.mb_of_memory_whole), of(it, "memory_ratio_half", "memory_ratio_whole"),
             cell(it.of_bytes_sent), of(it, "bar_half", "bar_whole")] for it in found.rows("heavy"))
    return table(heads, rows) + caption(found, "heavy")


def held(found: Results) -> list[str]:
    """Returns how long POSTs and queries take beside one another; of a shape that a sender may pick only the largest size."""
    largest = {(it.shape, None if it.unit == "MB" else it.size): it for it in found.rows("held")}
    heads = ["Shape", "Sent or held", "POST alone, ms: longest (middle)", "Beside the query, ms", "The query, ms: longest (middle)"]
    rows = ([it.shape, f"{cell(it.size)} {it.unit}", f"{it.post_alone_ms_longest} ({it.post_alone_ms_middle:.2f})",
             f"{it.beside_ms_longest} ({it.beside_ms_middle:.2f})", f"{it.query_ms_longest} ({it.query_ms_middle:.2f})"] for it in largest.values())
    return table(heads, rows) + caption(found, "held")


def memory_processes(found: Results) -> list[str]:
    """Returns the bytes a span, by its tags, how many a batch has, and the tags of its process."""
    def bytes_of(process_tags: int, tags: int, in_batch: int, connections: int) -> str:
        of = {"process_tags": process_tags, "tags_a_span": tags, "spans_a_batch": in_batch, "connections": connections}
        return cell(found["memory --process-tags"].one(**of).bytes_a_span)

    rows = []
    for tags in TAGS:
        for in_batch in IN_BATCH:
            by_turns = [bytes_of(process_tags, tags, in_batch, 20) for process_tags in PROCESS_TAGS]
            rows.append([cell(tags), cell(in_batch), bytes_of(PROCESS_TAGS[0], tags, in_batch, 1), *by_turns])
    heads = ["Tags a span", "Spans a batch", "One process", "20 processes in turn, of 4 tags each", *(f"of {count}" for count in PROCESS_TAGS[1:])]
    return table(heads, rows) + caption(found, "memory --process-tags")


def memory_most(found: Results) -> list[str]:
    """Returns the memory of the bodies that take most for each byte."""
    rows = ([it.what, cell(it.in_a_batch), cell(it.bytes_a_batch), cell(it.of_the_bytes_in)] for it in found.rows("memory, most"))
    return table(["A body of", "How many", "Bytes of a body", "Memory of the bytes in"], rows) + caption(found, "memory, most")


def serve(found: Results) -> list[str]:
    """Returns what `jaeger_one` and the plain server do over loopback."""
    heads = ["", *(head for size in SIZES for head in (f"`jaeger_one`, {size:,} held", "plain server", "ratio"))]
    served = found.serve()
    rows = []
    for what, writers in dict.fromkeys((it.what, it.writers) for it in found.rows("serve")):
        name = what if what.endswith("alone") or not writers or "4 writers" in what else f"{what}, writers: {writers}"
        rows.append([name, *(text for size in SIZES for text in compared(served, what, writers, size))])
    return table(heads, rows) + caption(found, "serve")


def compared(served: Serve, what: str, writers: int, size: int) -> list[str]:
    """Returns the cells of one measurement of both servers."""
    it, gain = served.row(what, writers, size), served.gain(what, writers, size)
    return [cell(it.jaeger_one), cell(it.plain_server), f"{two(gain)} ({NOISE})" if served.is_noise(gain) else two(gain)]


def serve_itself(found: Results) -> list[str]:
    """Returns how far the plain server measured differs from itself."""
    served = Serve(found["serve, itself"])
    whats = {"spans a second": "spans a second", "processor time a span, microseconds": "processor time a span",
             "a POST beside two readers, p99, ms": "a POST beside two readers, p99", f"{LOOK}: p99, ms": f"{LOOK}, p99"}
    rows = ([told, bounds([served.gain(what, it.writers, it.spans_held) for it in served.series.where(what=what)], lambda ratio: f"{ratio:.2f}")]
            for what, told in whats.items())
    return table(["Of the plain server and itself", "Ratios"], rows) + caption(found, "serve, itself")


def grown(found: Results) -> list[str]:
    """Returns the longest POST while a server grows."""
    heads = {"the longest POST, ms": "The longest POST, ms", "the most processor time in a POST, ms": "Processor time in a POST at most, ms",
             "seconds": "Seconds"}
    series = found["growth"]
    whats = [what for what in heads if series.where(what=what)]
    rows = []
    for size in sorted({it.spans_stored for it in series.rows}):
        each = [series.one(what=what, spans_stored=size) for what in whats]
        rows.append([cell(size), *(cell(value) for it in each for value in (it.jaeger_one, it.plain_server))])
    columns = [column for what in whats for column in (heads[what], "Of the plain server")]
    return table(["Spans stored", *columns], rows) + caption(found, "growth")


def seen(found: Results, name: str, form: Form = cell, **of: Any) -> str:
    """Returns the least and the most of one row of what connections cost."""
    it = found[name].one(**of)
    return bounds([it.least, it.most], form)


def connections(found: Results) -> list[str]:
    """Returns what POSTs and queries take beside many connections."""
    def at(part: str, what: str, form: Form = cell) -> str:
        return seen(found, "connections", form, part=part, what=what)

    def look(part: str) -> str:
        times = (at(part, what) for what in ("a trace p50, ms", "a trace p99, ms", "alone p50, ms", "alone p99, ms"))
        return "a trace by its id p50 {} ms, p99 {} ms; alone {} and {} ms".format(*times)

    posts = f"every POST got 202; p50 {at('senders', 'POST p50, ms')} ms, p99 {at('senders', 'POST p99, ms')} ms"
    rows = [["1,000 senders for ten seconds", posts],
            ["beside 1,000 clients in the middle of a body", look("slow senders")],
            ["beside 1,000 clients that don't read an answer of 30,000 spans each", look("slow readers")],
            ["with as many connections open as `--connections` allows", f"{at('full', IDLE, digits(2))} s of a processor in ten seconds"]]
    return table(["Part", "Seen"], rows) + caption(found, "connections")


def connections_memory(found: Results) -> list[str]:
    """Returns what connections hold that do nothing, and answers that nobody reads."""
    def at(part: str, count: int, what: str, form: Form = cell) -> str:
        return seen(found, "connections, memory", form, part=part, connections=count, what=what)

    def resting(part: str, count: int) -> str:
        idle = at(part, count, IDLE, digits(2))
        return f"{at(part, count, 'MB')} MB, {at(part, count, 'bytes a connection')} bytes each; {idle} s of a processor in ten seconds"

    answers = f"{at('slow readers', 1000, 'MB')} MB, {at('slow readers', 1000, 'bytes a span of an answer')} bytes a span"
    rows = [["10,000 silent clients", resting("silent", 10_000)], ["1,000 clients that asked once", resting("parked", 1000)],
            ["5,000 clients that asked once", resting("parked", 5000)], ["answers of 30,000 spans to 1,000 clients that don't read them", answers]]
    return table(["Part", "Seen"], rows) + caption(found, "connections, memory")


def gate(found: Results) -> list[str]:
    """Returns what the gate takes."""
    heads = ["What", "Wrong bodies tried", "CPU minutes", "of these in the system", "Minutes of wall-clock time"]
    return table(heads, (map(cell, vars(it).values()) for it in found.rows("gate"))) + caption(found, "gate")
