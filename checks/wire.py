"""Batches as bytes, by docs/using.md (The wire format), and requests that hand them in: what the checks and the measurements send."""
import struct
from collections.abc import Sequence

WORD = (1 << 64) - 1
LONG, TEXT, STRUCT, LIST, INT = 10, 11, 12, 15, 8


def field(code: int, number: int) -> bytes:
    """Returns the first bytes of a field: its type and its number."""
    return struct.pack(">bh", code, number)


def text(value: str) -> bytes:
    """Returns a text, after its length."""
    return binary(value.encode())


def binary(data: bytes) -> bytes:
    """Returns these bytes, after their length."""
    return struct.pack(">i", len(data)) + data


def integer(number: int, value: int) -> bytes:
    """Returns a field of 32 bits."""
    return field(INT, number) + struct.pack(">i", value)


def long(number: int, value: int) -> bytes:
    """Returns a field of 64 bits, of which an id has no sign and a time has one."""
    return field(LONG, number) + struct.pack(">Q", value & WORD)


def structs(number: int, of: Sequence[bytes]) -> bytes:
    """Returns a field that is a list of these."""
    return field(LIST, number) + bytes([STRUCT]) + struct.pack(">i", len(of)) + b"".join(of)


def text_tag(key: str, value: str) -> bytes:
    """Returns a tag whose value is a text."""
    return field(TEXT, 1) + text(key) + integer(2, 0) + field(TEXT, 3) + text(value) + b"\0"


def span(trace: int, number: int, parent: int = 0, operation: str = "op", start: int = 1000, duration: int = 50, more: bytes = b"") -> bytes:
    """Returns a span; `trace` has both halves of the id. `more` are fields after these: references (6), tags (10), logs (11)."""
    ids = long(1, trace) + long(2, trace >> 64) + long(3, number) + long(4, parent)
    return ids + field(TEXT, 5) + text(operation) + integer(7, 1) + long(8, start) + long(9, duration) + more + b"\0"


def process(service: str, tags: Sequence[bytes] = ()) -> bytes:
    """Returns the process of a service, with its tags."""
    return field(TEXT, 1) + text(service) + (structs(2, tags) if tags else b"") + b"\0"


def batch(service: str, spans: Sequence[bytes], tags: Sequence[bytes] = (), number: int | None = None) -> bytes:
    """Returns the spans of a service that has these tags, under a `seqNo` if there is one."""
    sent = b"" if number is None else long(3, number)
    return field(STRUCT, 1) + process(service, tags) + structs(2, spans) + sent + b"\0"


# Requests of a session, which has no host.

POST = "POST /api/traces HTTP/1.1\r\nContent-Type: application/x-thrift\r\n"


def post(body: bytes) -> bytes:
    """Returns a request that hands in this body."""
    return f"{POST}Content-Length: {len(body)}\r\n\r\n".encode() + body


def post_in_chunks(body: bytes, size: int, extension: bytes = b"", trailer: bytes = b"") -> bytes:
    """Returns a request that hands in this body in chunks of this number of bytes."""
    parts = [body[at : at + size] for at in range(0, len(body), size)]
    chunks = b"".join(b"%x%s\r\n%s\r\n" % (len(part), extension, part) for part in parts)
    return f"{POST}Transfer-Encoding: chunked\r\n\r\n".encode() + chunks + b"0\r\n" + trailer + b"\r\n"


def get(target: str) -> bytes:
    """Returns a request for this target."""
    return f"GET {target} HTTP/1.1\r\n\r\n".encode()
