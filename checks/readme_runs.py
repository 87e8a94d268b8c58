"""What README.md says that the program prints, as cases: `cases.py` runs them, so the page can't go stale."""
import re
from collections.abc import Iterator
from pathlib import Path
from typing import NamedTuple

TOP = Path(__file__).resolve().parent.parent
GET = re.compile(r"^    \(cd crates/jaeger_one && rt try --steps 1 -- (get .+) < \.\./\.\./(samples/\S+)\)\n\n((?:    .+\n)+)", re.M)
CURLS = re.compile(r"^    curl -i -H '(?P<field>.+?)' --data-binary @(?P<body>\S+) http://[^/]+(?P<post>/\S+)\n"
                   r"    curl http://[^/]+(?P<get>/\S+)\n\n    (?P<json>\{.+\})\n", re.M)


class ReadmeRun(NamedTuple):
    """A run of the program: its name, standard input, arguments and standard output."""

    name: str
    stdin: bytes
    arguments: list[str]
    stdout: bytes


def request(method: str, path: str, field: str = "", body: bytes = b"") -> bytes:
    """Returns an HTTP request with one more field and a body, if there are such."""
    head = f"{method} {path} HTTP/1.1\r\n" + (f"{field}\r\nContent-Length: {len(body)}\r\n" if field else "")
    return f"{head}\r\n".encode() + body


def readme_runs() -> Iterator[ReadmeRun]:
    """Yields the first command of README.md, and the two requests to its server as a session of `pipe`."""
    text = (TOP / "README.md").read_text(encoding="utf-8")
    first, curls = GET.search(text), CURLS.search(text)
    if not first or not curls:
        raise ValueError("README.md has no longer the commands that checks/readme_runs.py looks for")
    lines = re.sub(r"^    ", "", first[3], flags=re.M)
    yield ReadmeRun("first_command", (TOP / first[2]).read_bytes(), first[1].split(), lines.encode())
    body = (TOP / curls["body"]).read_bytes()
    session = request("POST", curls["post"], curls["field"], body) + request("GET", curls["get"])
    head = f"HTTP/1.1 200 OK\r\nContent-Type: application/json\r\nContent-Length: {len(curls['json'])}\r\n\r\n"
    yield ReadmeRun("a_server", session, ["pipe"], ("HTTP/1.1 202 Accepted\r\nContent-Length: 0\r\n\r\n" + head + curls["json"]).encode())
