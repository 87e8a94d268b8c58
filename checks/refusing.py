"""A server that refuses every batch as `serve` does, and what a client does then. `clients.py` uses it; standard library alone."""
import json
import threading
from collections.abc import Callable
from http.server import BaseHTTPRequestHandler, ThreadingHTTPServer
from typing import Any, Protocol

ACCEPTED = b"HTTP/1.1 202 Accepted\r\nContent-Length: 0\r\n\r\n"
CLOSED = b""


def refusal(status: int, reason: str, text: str, more: str = "") -> bytes:
    """Returns the bytes by which `serve` refuses a batch."""
    body = json.dumps({"data": None, "errors": [{"code": status, "msg": text}], "limit": 0, "offset": 0, "total": 0},
                      separators=(",", ":"))
    return f"HTTP/1.1 {status} {reason}\r\nContent-Type: application/json\r\nContent-Length: {len(body)}\r\n{more}\r\n{body}".encode()


REFUSALS = {
    "503": refusal(503, "Service Unavailable", "busy"),
    "409": refusal(409, "Conflict", "conflict"),
    "413": refusal(413, "Content Too Large", "body too large", "Connection: close\r\n"),
    "closed": CLOSED,
}


class Comparing(Protocol):
    """What counts the checks: each compares a value with the one that is wanted."""

    def same(self, name: str, found: object, wanted: object) -> None:
        """Counts a check, and prints what came of it."""


class Refuser(ThreadingHTTPServer):
    """A server with its answers, and the bodies and the passwords that came."""

    def __init__(self, answers: tuple[bytes, ...]) -> None:
        self.answers = answers
        self.bodies: list[bytes] = []
        self.passwords: list[str | None] = []
        super().__init__(("127.0.0.1", 0), Handler)


class Handler(BaseHTTPRequestHandler):
    """Answers each POST with what its server has for it."""

    protocol_version = "HTTP/1.1"
    server: Refuser

    def do_POST(self) -> None:
        """Keeps the body and the password, and writes the next answer."""
        bodies, answers = self.server.bodies, self.server.answers
        bodies.append(self.rfile.read(int(self.headers["Content-Length"])))
        self.server.passwords.append(self.headers["Authorization"])
        answer = answers[min(len(bodies), len(answers)) - 1]
        self.close_connection = answer == CLOSED or b"Connection: close" in answer
        self.wfile.write(answer)

    def log_message(self, *_: object) -> None:
        """Writes no log."""
        pass


class Answering:
    """Answers the POSTs with these bytes in turn, and all further ones with the last of them; by `CLOSED` it closes the connection once
    it has read the request. It keeps the bodies and the passwords."""

    def __init__(self, *answers: bytes) -> None:
        self.http = Refuser(answers)
        self.bodies, self.passwords = self.http.bodies, self.http.passwords
        self.url = f"http://127.0.0.1:{self.http.server_port}/api/traces"

    def __enter__(self) -> "Answering":
        threading.Thread(target=self.http.serve_forever, kwargs={"poll_interval": 0.05}, daemon=True).start()
        return self

    def __exit__(self, *_: object) -> None:
        self.http.shutdown()
        self.http.server_close()


def bodies_of(run: Callable[[str], Any], *answers: bytes) -> tuple[list[bytes], Any]:
    """Returns the bodies that came when a client had these answers, and what it said of them."""
    with Answering(*answers) as server:
        said = run(server.url)
        return list(server.bodies), said


def when_refused(checks: Comparing, name: str, run: Callable[[str], Any], word: str, again: int = 0) -> None:
    """Checks what a client does whose `run` hands two batches to a URL, and returns a line for each that wasn't taken. `word` is what
    it says of a closed connection; `again` is how often it sends a batch again whose connection was open before and was closed."""
    for answer, text in REFUSALS.items():
        bodies, said = bodies_of(run, text)
        checks.same(f"{name}: {answer}: each of two batches comes once", (len(bodies), len(set(bodies))), (2, 2))
        checks.same(f"{name}: {answer}: it says so of both", [(word if answer == "closed" else answer) in line for line in said],
                    [True, True])
    bodies, said = bodies_of(run, ACCEPTED, CLOSED, ACCEPTED)
    checks.same(f"{name}: a connection that is closed after one batch", (len(bodies), len(set(bodies))), (2 + again, 2))
    checks.same(f"{name}: it says so of the other", [word in line for line in said], [True] * (1 - again))
