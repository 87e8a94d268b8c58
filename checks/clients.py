#!/usr/bin/env python3
"""`jaeger_one serve` driven by clients that are not ours: Apache Thrift's Python library, curl, the Jaeger client for Ruby, and
OpenTelemetry's exporter for Go.

    checks/clients.py [--bin PATH] [--port N]

Starts the program on a free port of 127.0.0.1, or drives the empty one that listens on `--port`. What each client sends is read
back through the query interface and compared field by field. Then each client hands two batches to a server of this script that
refuses them as `serve` does, or closes the connection: how often each batch comes, and what the client says. One line for each check;
the last line is `N passed, M failed`.

Needs Debian's packages python3-thrift, thrift-compiler (for samples/jaeger.thrift) and curl, and says so with status 2 if one
is missing; nothing is installed. With ruby-jaeger-client, and with golang-go and golang-opentelemetry-otel-dev of Debian 12, there are
more checks; without them they are left out, and a line says so. Go builds exporter.go in a few seconds of a processor.
"""
import functools
import json
import os
import shutil
import struct
import subprocess
import sys
import tempfile
import urllib.error
import urllib.request
from collections.abc import Callable
from typing import Any, NoReturn

from crates import ROOT, asked_of
from refusing import ACCEPTED, REFUSALS, Answering, bodies_of, when_refused
from servers import Failed, Server

TRACE = 0x0102030405060708_F1F2F3F4F5F6F7F8
OTHER = 0x00000000000000AA_00000000000000BB
LOW = 0xDEAD
KIND = "application/x-thrift"
TEXT = 'gr\u00fcn "quoted" \\ back\tslash \u4f60\u597d \U0001f680\n\x01'


# The ids that a client printed, and the lines of its log; and a call that runs a client on a URL.
Said = tuple[list[str], list[str]]
Run = Callable[..., Said]


def missing(package: str) -> NoReturn:
    """Says which package is missing, and ends."""
    print(f"missing: Debian's package {package} (apt-get install {package})")
    sys.exit(2)


def with_thrift() -> None:
    """Goes on in an interpreter that has Apache Thrift's library: Debian's package is for /usr/bin/python3."""
    try:
        import thrift  # noqa: F401
        return
    except ImportError:
        pass
    for python in ("/usr/bin/python3", shutil.which("python3")):
        if python and os.path.exists(python) and os.environ.get("CLIENTS_PYTHON") != "chosen":
            if subprocess.run([python, "-c", "import thrift"], stderr=subprocess.DEVNULL).returncode == 0:
                os.environ["CLIENTS_PYTHON"] = "chosen"
                os.execv(python, [python, *sys.argv])
    missing("python3-thrift")


class Checks:
    """Counts the checks that passed and that failed."""

    def __init__(self) -> None:
        self.passed = self.failed = 0

    def same(self, name: str, found: object, wanted: object) -> None:
        """Counts a check, and prints what came of it."""
        if found == wanted:
            self.passed += 1
            print(f"ok {name}", flush=True)
        else:
            self.failed += 1
            print(f"FAILED {name}: {found!r} is not {wanted!r}", flush=True)

    def each(self, client: str, call: Callable[[], None]) -> None:
        """Makes the checks of one client; what it raises is one that failed."""
        try:
            call()
        except Exception as fault:  # a client's own faults are of many types
            self.failed += 1
            print(f"FAILED {client}: {type(fault).__name__}: {fault}", flush=True)


class Queried(Server):
    """A server whose answers are read as JSON."""

    def url(self, target: str) -> str:
        """Returns the URL of a target."""
        return f"http://127.0.0.1:{self.port}{target}"

    def get(self, target: str) -> tuple[int, Any]:
        """Returns the status of an answer, and its JSON."""
        try:
            with urllib.request.urlopen(self.url(target), timeout=10) as response:
                return response.status, json.load(response)
        except urllib.error.HTTPError as fault:
            return fault.code, json.load(fault)

    def trace(self, trace: int) -> Any:
        """Returns a trace as it is answered."""
        status, answer = self.get(f"/api/traces/{trace:x}")
        if status != 200:
            raise ValueError(f"trace {trace:x} is answered {status} {answer}")
        return answer["data"][0]


def trace_text(trace: int) -> str:
    """Returns a trace's id as it is shown."""
    return f"{trace:032x}" if trace >> 64 else f"{trace:016x}"


def signed(number: int) -> int:
    """Returns an id as a number with a sign of 64 bits."""
    return number - (1 << 64) if number >> 63 else number


def shown(key: str, kind: str, value: Any) -> dict[str, Any]:
    """Returns a tag as it is shown."""
    return {"key": key, "type": kind, "value": value}


def double(value: float) -> str:
    """Returns a number as it is shown, by its bytes."""
    return struct.pack(">d", value).hex()


# Apache Thrift's library.

def generated(folder: str) -> Any:
    """Generates the code of Apache Thrift's library for the batches, and returns it."""
    subprocess.run(["thrift", "--gen", "py", "-out", folder, os.path.join(ROOT, "samples", "jaeger.thrift")],
                   check=True, stderr=subprocess.DEVNULL)
    sys.path.insert(0, folder)
    import jaeger.ttypes
    return jaeger.ttypes


def tags(j: Any) -> tuple[list[Any], list[dict[str, Any]]]:
    """Returns a tag of each type, and how each is shown."""
    sent = [
        j.Tag(key="text", vType=j.TagType.STRING, vStr=TEXT),
        j.Tag(key="empty", vType=j.TagType.STRING, vStr=""),
        j.Tag(key="double", vType=j.TagType.DOUBLE, vDouble=-2.5),
        j.Tag(key="tiny", vType=j.TagType.DOUBLE, vDouble=5e-324),
        j.Tag(key="true", vType=j.TagType.BOOL, vBool=True),
        j.Tag(key="false", vType=j.TagType.BOOL, vBool=False),
        j.Tag(key="long", vType=j.TagType.LONG, vLong=-9223372036854775808),
        j.Tag(key="bytes", vType=j.TagType.BINARY, vBinary=bytes(range(256))),
        j.Tag(key="other values too", vType=j.TagType.LONG, vStr="dropped", vLong=8, vBinary=b"\xfe"),
    ]
    wanted = [
        shown("text", "string", TEXT),
        shown("empty", "string", ""),
        shown("double", "float64", double(-2.5)),
        shown("tiny", "float64", double(5e-324)),
        shown("true", "bool", True),
        shown("false", "bool", False),
        shown("long", "int64", -9223372036854775808),
        shown("bytes", "binary", bytes(range(256)).hex()),
        shown("other values too", "int64", 8),
    ]
    return sent, wanted


def halves(trace: int) -> dict[str, int]:
    """Returns the fields of a trace's id."""
    return {"traceIdLow": signed(trace & (1 << 64) - 1), "traceIdHigh": signed(trace >> 64)}


def full_batch(j: Any) -> Any:
    """Returns a batch with every field set: a span with a parent and references of both kinds, and a plain one of a trace whose high half is 0."""
    sent, _ = tags(j)
    own, other = halves(TRACE), halves(OTHER)
    full = j.Span(
        **own, spanId=signed(0xFEDCBA9876543210), parentSpanId=0x77, operationName="charge " + TEXT,
        references=[j.SpanRef(refType=j.SpanRefType.CHILD_OF, spanId=6, **other),
                    j.SpanRef(refType=j.SpanRefType.FOLLOWS_FROM, spanId=9, **own),
                    j.SpanRef(refType=j.SpanRefType.FOLLOWS_FROM, spanId=10, **other)],
        flags=-3, startTime=1_700_000_000_123_456, duration=9_223_372_036, tags=sent,
        logs=[j.Log(timestamp=1_700_000_000_123_460, fields=sent), j.Log(timestamp=-5, fields=[])])
    plain = j.Span(traceIdLow=LOW, traceIdHigh=0, spanId=1, parentSpanId=0, operationName="", flags=0, startTime=0, duration=0)
    return j.Batch(process=j.Process(serviceName="bank " + TEXT, tags=sent), spans=[full, plain], seqNo=12,
                   stats=j.Statistics(dropped=3, byKind={"full": [1, 2], "late": []}, seen={4}))


def by_thrift(checks: Checks, server: Queried, j: Any) -> None:
    """Checks what Apache Thrift's library sent."""
    from thrift.protocol.TBinaryProtocol import TBinaryProtocol, TBinaryProtocolAccelerated
    from thrift.transport.THttpClient import THttpClient

    transport = THttpClient(server.url("/api/traces"))
    transport.setTimeout(10_000)
    full_batch(j).write(TBinaryProtocol(transport))
    transport.flush()
    checks.same("thrift: the batch's status", transport.code, 202)
    checks.same("thrift: the body behind it", transport.read(1), b"")
    full_shown(checks, server.trace(TRACE), tags(j)[1])
    plain_shown(checks, server.trace(LOW))
    # The same transport again, by the accelerated protocol (in C, where it is there), in batches that grow.
    for count in (1, 10, 1000):
        spans = [j.Span(traceIdLow=count, traceIdHigh=0, spanId=n + 1, parentSpanId=0, operationName=f"op {n}", flags=1,
                        startTime=n, duration=1, tags=tags(j)[0]) for n in range(count)]
        j.Batch(process=j.Process(serviceName="many"), spans=spans).write(TBinaryProtocolAccelerated(transport))
        transport.flush()
        checks.same(f"thrift: a batch of {count} spans", transport.code, 202)
        found = [span["operationName"] for span in server.trace(count)["spans"]]
        checks.same(f"thrift: all {count} are found", found, [f"op {n}" for n in range(count)])
    transport.close()


def full_shown(checks: Checks, trace: Any, wanted_tags: list[dict[str, Any]]) -> None:
    """Checks how the span of `full_batch` is shown that has every field."""
    own, other = trace_text(TRACE), trace_text(OTHER)
    checks.same("thrift: the trace's id, both halves", trace["traceID"], own)
    checks.same("thrift: the number of spans", len(trace["spans"]), 1)
    span = trace["spans"][0]
    wanted = {
        "traceID": own,
        "spanID": "fedcba9876543210",
        "operationName": "charge " + TEXT,
        "references": [
            {"refType": "CHILD_OF", "spanID": f"{0x77:016x}", "traceID": own},
            {"refType": "CHILD_OF", "spanID": f"{6:016x}", "traceID": other},
            {"refType": "FOLLOWS_FROM", "spanID": f"{9:016x}", "traceID": own},
            {"refType": "FOLLOWS_FROM", "spanID": f"{10:016x}", "traceID": other},
        ],
        "flags": (1 << 32) - 3,
        "startTime": 1_700_000_000_123_456,
        "duration": 9_223_372_036,
        "warnings": None,
    }
    for name, value in wanted.items():
        checks.same(f"thrift: {name}", span[name], value)
    for found, value in zip(span["tags"], wanted_tags):
        checks.same(f"thrift: tag {value['key']}", found, value)
    checks.same("thrift: number of tags", len(span["tags"]), len(wanted_tags))
    checks.same("thrift: times of logs", [log["timestamp"] for log in span["logs"]], [1_700_000_000_123_460, -5])
    checks.same("thrift: fields of logs", [log["fields"] for log in span["logs"]], [wanted_tags, []])
    process = trace["processes"][span["processID"]]
    checks.same("thrift: the service", process["serviceName"], "bank " + TEXT)
    checks.same("thrift: tags of the process", process["tags"], wanted_tags)
    checks.same("thrift: keys of a span", sorted(span), sorted([*wanted, "tags", "logs", "processID"]))


def plain_shown(checks: Checks, trace: Any) -> None:
    """Checks how the span of `full_batch` is shown that has the required fields alone."""
    checks.same("thrift: the id of a trace whose high half is 0", trace["traceID"], trace_text(LOW))
    plain = dict(trace["spans"][0])
    del plain["processID"]
    checks.same("thrift: a span of required fields alone", plain, {
        "traceID": trace_text(LOW), "spanID": f"{1:016x}", "operationName": "", "references": [], "flags": 0, "startTime": 0,
        "duration": 0, "tags": [], "logs": [], "warnings": None})


def thrift_said(j: Any, url: str) -> list[str]:
    """Returns what Apache Thrift's library says of two batches: the statuses other than 202, or the name of what it raised."""
    from thrift.protocol.TBinaryProtocol import TBinaryProtocol
    from thrift.transport.THttpClient import THttpClient

    transport = THttpClient(url)
    said = []
    for number in (1, 2):
        j.Batch(process=j.Process(serviceName="refused"), spans=[], seqNo=number).write(TBinaryProtocol(transport))
        try:
            transport.flush()
            said += [str(transport.code)] if transport.code != 202 else []
        except OSError as fault:
            said.append(type(fault).__name__)
    return said


def numbers_of(j: Any, bodies: list[bytes]) -> list[int | None]:
    """Returns the `seqNo` of each batch."""
    from thrift.protocol.TBinaryProtocol import TBinaryProtocol
    from thrift.transport.TTransport import TMemoryBuffer

    batches = [j.Batch() for _ in bodies]
    for batch, body in zip(batches, bodies):
        batch.read(TBinaryProtocol(TMemoryBuffer(body)))
    return [batch.seqNo for batch in batches]


# curl.

def curl(*words: str, stdin: bytes | None = None) -> tuple[int, str]:
    """Returns curl's status, and what it printed."""
    done = subprocess.run(["curl", "--silent", "--show-error", "--noproxy", "*", "--max-time", "20", *words], input=stdin,
                          stdout=subprocess.PIPE, stderr=subprocess.STDOUT)
    return done.returncode, done.stdout.decode(errors="replace")


STATUS = ("--output", os.devnull, "--write-out", "%{http_code}")


def curl_post(server: Queried, path: str, kind: str, *more: str) -> tuple[int, str]:
    """Hands in a file by curl, and returns curl's status, and that of the response."""
    return curl(*STATUS, "-H", f"Content-Type: {kind}", "--data-binary", "@" + path, *more, server.url("/api/traces"))


def by_curl(checks: Checks, server: Queried, folder: str, searches: bool) -> None:
    """Checks what curl sends and asks."""
    files = sample_files(folder)
    kinds = [KIND, "application/vnd.apache.thrift.binary", "Application/X-Thrift; charset=none"]
    for path, kind in zip(files, kinds):
        checks.same(f"curl: a sample as {kind}", curl_post(server, path, kind), (0, "202"))
    checks.same("curl: a sample as JSON", curl_post(server, files[0], "application/json"), (0, "415"))
    curl_reads(checks, server)
    if searches:
        curl_searches(checks, server)
    curl_speaks(checks, server, files[0], searches)
    curl_sends_much(checks, server, os.path.join(folder, "large.bin"))


def sample_files(folder: str) -> list[str]:
    """Writes the bytes of the samples into files, one for each batch, and returns these."""
    files: list[str] = []
    for name in ("first.hex", "shop.hex"):
        with open(os.path.join(ROOT, "samples", name)) as file:
            for line in file:
                files.append(os.path.join(folder, f"batch{len(files)}.bin"))
                with open(files[-1], "wb") as out:
                    out.write(bytes.fromhex(line.strip()))
    return files


def curl_reads(checks: Checks, server: Queried) -> None:
    """Checks what curl reads of the samples."""
    _, answer = curl(server.url("/api/traces/def"))
    checks.same("curl: a trace, byte by byte", answer, (
        '{"data":[{"processes":{"p1":{"serviceName":"orders","tags":[]}},"spans":[{"duration":40,"flags":1,"logs":[],'
        '"operationName":"sweep","processID":"p1","references":[],"spanID":"0000000000000004","startTime":2000,"tags":[],'
        '"traceID":"0000000000000def","warnings":null}],"traceID":"0000000000000def","warnings":null}],"errors":null,'
        '"limit":0,"offset":0,"total":1}'))
    checks.same("curl: a trace that is not there", curl("--write-out", "%{http_code}", server.url("/api/traces/eeee")), (
        0, '{"data":null,"errors":[{"code":404,"msg":"trace not found"}],"limit":0,"offset":0,"total":0}404'))
    _, answer = curl(server.url("/api/services"))
    checks.same("curl: the services", {"a", "frontend", "orders"} <= set(json.loads(answer)["data"]), True)


def curl_searches(checks: Checks, server: Queried) -> None:
    """Checks what curl finds of the samples."""
    checks.same("curl: operations of a service", curl(server.url("/api/services/orders/operations")), (
        0, '{"data":["list orders","sweep"],"errors":null,"limit":0,"offset":0,"total":2}'))
    checks.same("curl: operations with their kinds", curl(server.url("/api/operations?service=frontend")), (
        0, '{"data":[{"name":"GET /orders","spanKind":""},{"name":"call orders","spanKind":""}],"errors":null,"limit":0,'
           '"offset":0,"total":2}'))
    to = server.url("/api/traces")
    _, answer = curl("--get", to, "--data-urlencode", "service=orders", "--data-urlencode", "operation=list orders")
    checks.same("curl: a search", [trace["traceID"] for trace in json.loads(answer)["data"]], [f"{0xabc:016x}"])
    _, answer = curl(server.url("/api/dependencies?endTs=10"))
    checks.same("curl: dependencies", json.loads(answer)["data"], [{"callCount": 1, "child": "orders", "parent": "frontend"}])


def curl_speaks(checks: Checks, server: Queried, sample: str, searches: bool) -> None:
    """Checks how curl speaks HTTP."""
    services = server.url("/api/services")
    two = curl("--output", os.devnull, services, "--output", os.devnull, services, "--write-out", "%{http_code} %{num_connects};")
    checks.same("curl: two requests on one connection", two, (0, "200 1;200 0;"))
    checks.same("curl: HTTP/1.0", curl("--http1.0", *STATUS, services), (0, "200"))
    checks.same("curl: an upgrade to HTTP/2 is not taken", curl("--http2", *STATUS, services), (0, "200"))
    checks.same("curl: a body that is waited for (Expect)", curl_post(server, sample, KIND, "-H", "Expect: 100-continue"), (0, "202"))
    # The plain server, which takes no searches, reads no chunks either.
    chunked = ["-H", "Transfer-Encoding: chunked"]
    checks.same("curl: a body in chunks", curl_post(server, sample, KIND, *chunked), (0, "202" if searches else "400"))
    checks.same("curl: DELETE", curl("--request", "DELETE", *STATUS, server.url("/api/traces")), (0, "405"))


def curl_sends_much(checks: Checks, server: Queried, large: str) -> None:
    """Checks the responses to large bodies, which are written into this file."""
    with open(large, "wb") as out:
        out.write(bytes(3_000_000))
    checks.same("curl: 3 MB that are no batch", curl_post(server, large, KIND), (0, "400"))
    with open(large, "wb") as out:
        out.write(bytes(5_000_000))
    checks.same("curl: 5 MB, which are too many", curl_post(server, large, KIND), (0, "413"))
    checks.same("curl: 5 MB at once", curl_post(server, large, KIND, "-H", "Expect:"), (0, "413"))


def curl_said(files: list[str], url: str, *more: str) -> list[str]:
    """Returns what curl says of these files on one connection: the statuses other than 202, 000 for a closed connection."""
    words = []
    for file in files:
        words += ["--next", *more, "--silent", "--noproxy", "*", "--max-time", "20", "--write-out", "%{stderr}%{http_code}\n",
                  "-H", "Content-Type: application/x-thrift", "--data-binary", "@" + file, url]
    done = subprocess.run(["curl", *words[1:]], stdout=subprocess.DEVNULL, stderr=subprocess.PIPE)
    return [line for line in done.stderr.decode().split() if line != "202"]


def by_refused_curl(checks: Checks, folder: str) -> None:
    """Checks what curl does with batches that aren't taken."""
    files = [os.path.join(folder, f"batch{number}.bin") for number in (0, 1)]
    when_refused(checks, "curl", lambda url: curl_said(files, url), "000", again=1)
    for answer, text in REFUSALS.items():
        bodies, _ = bodies_of(lambda url: curl_said(files[:1], url, "--retry", "1", "--retry-delay", "1"), text, ACCEPTED)
        checks.same(f"curl --retry: {answer}", len(bodies), 2 if answer == "503" else 1)


# Jaeger's client for Ruby, and OpenTelemetry's exporter for Go: two batches of one trace.

RUBY = """
require 'jaeger/client'
logger = Logger.new($stderr)
encoder = Jaeger::Encoders::ThriftEncoder.new(service_name: 'ruby shop', logger: logger, tags: {'hostname' => 'h1', 'ip' => '10.0.0.1'})
sender = Jaeger::HttpSender.new(url: ARGV[0], encoder: encoder, logger: logger)
reporter = Jaeger::Reporters::InMemoryReporter.new
tracer = Jaeger::Client.build(service_name: 'ruby shop', reporter: reporter)
at = Time.at(1_700_000_000)
parent = tracer.start_span('checkout', start_time: at, tags: {'span.kind' => 'server', 'count' => 3, 'share' => 0.5, 'paid' => true})
parent.log_kv(timestamp: at + 1, event: 'asked', size: 7)
child = tracer.start_span('charge', child_of: parent, start_time: at + 2)
child.finish(end_time: at + 3)
parent.finish(end_time: at + 4)
late = tracer.start_span('late', child_of: parent, start_time: at + 5, tags: {'text' => 'x' * ARGV[1].to_i})
late.finish(end_time: at + 6)
sender.send_spans([child, parent])
sender.send_spans([late])
puts [parent.context.trace_id, parent.context.span_id, child.context.span_id, late.context.span_id].map { |id| id.to_s(16).rjust(16, '0') }
"""


def ran(command: list[str], **more: Any) -> Said:
    """Returns the ids that a client printed, and the lines of its log."""
    done = subprocess.run(command, capture_output=True, timeout=60, **more)
    if done.returncode:
        raise ValueError(f"status {done.returncode}: {done.stderr.decode()}")
    return done.stdout.decode().split(), done.stderr.decode().splitlines()


def with_ruby(url: str, size: int = 1) -> Said:
    """Sends two batches by Jaeger's client for Ruby."""
    return ran(["ruby", "-e", RUBY, url, str(size)])


def go_client(folder: str) -> Run | None:
    """Returns a call of OpenTelemetry's exporter for Go, like `with_ruby`; None without Debian's packages."""
    program, sources = os.path.join(folder, "exporter"), "/usr/share/gocode"
    if not shutil.which("go") or not os.path.isdir(os.path.join(sources, "src/go.opentelemetry.io/otel/exporters/jaeger")):
        return None
    subprocess.run(["go", "build", "-o", program, os.path.join(ROOT, "checks", "exporter.go")], check=True,
                   env={**os.environ, "GO111MODULE": "off", "GOPATH": sources})
    return lambda url, size=1, **more: ran([program, str(size)], env={**os.environ, "OTEL_EXPORTER_JAEGER_ENDPOINT": url, **more})


def sent_spans(checks: Checks, server: Queried, name: str, run: Run) -> tuple[Any, Any, Any]:
    """Returns the first span that a client sent, the one below it, and the process; the trace has one more, of the second batch."""
    (own, *ids), log = run(server.url("/api/traces"))
    checks.same(f"{name}: the client's own log", log, [])
    trace = server.trace(int(own, 16))
    spans = {span["spanID"]: span for span in trace["spans"]}
    checks.same(f"{name}: the spans of both batches", sorted(spans), sorted(ids))
    parent, child, late = [spans[each] for each in ids]
    checks.same(f"{name}: names", [span["operationName"] for span in (parent, child, late)], ["checkout", "charge", "late"])
    checks.same(f"{name}: times", [(span["startTime"], span["duration"]) for span in (parent, child, late)],
                [(1_700_000_000_000_000, 4_000_000), (1_700_000_002_000_000, 1_000_000), (1_700_000_005_000_000, 1_000_000)])
    above = {"refType": "CHILD_OF", "spanID": ids[0], "traceID": own}
    checks.same(f"{name}: the parents", [span["references"][:1] for span in (parent, child, late)], [[], [above], [above]])
    return parent, child, trace["processes"][parent["processID"]]


def when_not_taken(checks: Checks, server: Queried, binary: str | None, j: Any, name: str, run: Run, word: str) -> None:
    """Checks what a client does with batches that `serve`, or a server like it, doesn't take, and whether it numbers them."""
    when_refused(checks, name, lambda url: run(url)[1], word)
    bodies, _ = bodies_of(run, ACCEPTED)
    checks.same(f"{name}: the batches have no seqNo", numbers_of(j, bodies), [None, None])
    _, log = run(server.url("/api/traces"), 5_000_000)
    checks.same(f"{name}: 413 of a large batch by the server", ["413" in line for line in log], [True])
    if binary:
        with Queried("--batches", 1, binary=binary) as full:
            (own, *_), log = run(full.url("/api/traces"))
            checks.same(f"{name}: 503 of a full server", ["503" in line for line in log], [True])
            checks.same(f"{name}: the spans of the batch that fitted", len(full.trace(int(own, 16))["spans"]), 2)


def by_ruby(checks: Checks, server: Queried) -> None:
    """Checks what Jaeger's client for Ruby sent."""
    parent, child, process = sent_spans(checks, server, "ruby", with_ruby)
    wanted = [shown("span.kind", "string", "server"), shown("count", "int64", 3), shown("share", "float64", double(0.5)),
              shown("paid", "bool", True)]
    checks.same("ruby: tags", [tag for tag in parent["tags"] if not tag["key"].startswith("sampler.")], wanted)
    checks.same("ruby: the log", parent["logs"], [
        {"fields": [shown("event", "string", "asked"), shown("size", "int64", 7)], "timestamp": 1_700_000_001_000_000}])
    checks.same("ruby: references", (parent["references"], len(child["references"])), ([], 1))
    found = {tag["key"]: tag["value"] for tag in process["tags"]}
    checks.same("ruby: the process", (process["serviceName"], found.get("hostname"), found.get("ip")), ("ruby shop", "h1", "10.0.0.1"))


def by_go(checks: Checks, server: Queried, run: Run) -> None:
    """Checks what OpenTelemetry's exporter for Go sent."""
    parent, child, process = sent_spans(checks, server, "go", run)
    link = {"refType": "FOLLOWS_FROM", "spanID": f"{7:016x}", "traceID": f"{8 << 64:032x}"}
    checks.same("go: the link", child["references"][1:], [link])
    library = shown("otel.library.name", "string", "clients")
    checks.same("go: tags", parent["tags"], [
        shown("count", "int64", 3), shown("share", "float64", double(0.5)), shown("paid", "bool", True),
        shown("text", "string", "gr\u00fcn"), library, shown("span.kind", "string", "server")])
    checks.same("go: tags of a failure", child["tags"], [
        library, shown("otel.status_code", "int64", 1), shown("otel.status_description", "string", "no money"),
        shown("error", "bool", True)])
    checks.same("go: the event", parent["logs"], [
        {"fields": [shown("event", "string", "asked"), shown("size", "int64", 7)], "timestamp": 1_700_000_001_000_000}])
    checks.same("go: the process", (process["serviceName"], process["tags"]), ("go shop", [shown("host.name", "string", "h1")]))
    with Answering(ACCEPTED) as proxy:
        run(proxy.url, OTEL_EXPORTER_JAEGER_USER="name", OTEL_EXPORTER_JAEGER_PASSWORD="word")
        checks.same("go: the password", proxy.passwords, ["Basic bmFtZTp3b3Jk"] * 2)


def main() -> None:
    """Runs the checks of each client that is installed."""
    asked = asked_of(__doc__)
    asked.add_argument("--port", type=int, help="drive the program that listens there")
    asked.add_argument("--no-searches", action="store_true", help="for bench/plain_server.rs, which has none")
    options = asked.parse_args()
    with_thrift()
    for word, package in (("thrift", "thrift-compiler"), ("curl", "curl")):
        if not shutil.which(word):
            missing(package)
    os.environ["no_proxy"] = "127.0.0.1"
    checks = Checks()
    try:
        server = Queried(binary=options.bin, port=options.port)
    except Failed as fault:
        sys.exit(str(fault))
    with tempfile.TemporaryDirectory() as folder, server:
        j = generated(folder)
        checks.each("thrift", lambda: by_thrift(checks, server, j))
        checks.each("thrift", lambda: when_refused(checks, "thrift", lambda url: thrift_said(j, url), "RemoteDisconnected"))
        checks.each("curl", lambda: by_curl(checks, server, folder, not options.no_searches))
        checks.each("curl", lambda: by_refused_curl(checks, folder))
        binary = None if options.port or options.no_searches else options.bin
        ruby = ["ruby", "-e", "require 'jaeger/client'"]
        if shutil.which("ruby") and subprocess.run(ruby, capture_output=True).returncode == 0:
            checks.each("ruby", lambda: by_ruby(checks, server))
            checks.each("ruby", lambda: when_not_taken(checks, server, binary, j, "ruby", with_ruby, "end of file"))
        else:
            print("left out: ruby, for want of Debian's package ruby-jaeger-client")
        with_go = go_client(folder)
        if with_go:
            checks.each("go", functools.partial(by_go, checks, server, with_go))
            checks.each("go", functools.partial(when_not_taken, checks, server, binary, j, "go", with_go, "EOF"))
        else:
            print("left out: go, for want of Debian's packages golang-go and golang-opentelemetry-otel-dev (of Debian 12)")
    print(f"{checks.passed} passed, {checks.failed} failed")
    sys.exit(1 if checks.failed else 0)


if __name__ == "__main__":
    main()
