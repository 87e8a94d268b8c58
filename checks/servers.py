"""What checks of a running server share: requests, a client that reads responses, the program on a free port, one that `rustc` builds, and
a run of cases.

`sockets.py` and `pressure.py` use it; `clients.py`, `history.py`, `bench/serve.py` and `bench/memory.py` start their servers by it, and the
clients of `history_clients.py` read by it. Standard library alone; what it tells of a process is for Linux.
"""
import ctypes
import json
import os
import resource
import select
import socket
import struct
import subprocess
import sys
import tempfile
import time
from collections.abc import Callable, Mapping
from typing import IO, Any, NoReturn, TypeVar

from crates import ROOT
import wire

PATIENCE = 10
TICK = os.sysconf("SC_CLK_TCK")
THRIFT = "application/x-thrift"
AnyClient = TypeVar("AnyClient", bound="Client")
AnyServer = TypeVar("AnyServer", bound="Server")
PIDFD_GETFD = 438  # the number of this call of Linux, which Python has no function for


class Failed(Exception):
    """What a check found to be wrong."""


def check(holds: object, text: str) -> None:
    """Raises Failed with this text unless a condition holds."""
    if not holds:
        raise Failed(text)


def piped(stream: IO[bytes] | None) -> IO[bytes]:
    """Returns a stream of a program that was started with a pipe for it."""
    assert stream is not None
    return stream


def rust_program(folder: str, source: str, level: str = "-O") -> str:
    """Builds a source of the repository by `rustc`, and returns the program, which is in this folder."""
    program = os.path.join(folder, os.path.splitext(os.path.basename(source))[0])
    subprocess.run(["rustc", "--edition", "2021", level, "-o", program, os.path.join(ROOT, source)], check=True)
    return program


def run_cases(cases: Mapping[str, Callable[[], str | None]], only: str) -> NoReturn:
    """Runs the cases whose name has this word, and ends with status 0 if none failed. A line has what a case tells, or why it failed; the last
    one counts them."""
    passed = failed = 0
    for name, case in cases.items():
        if only not in name:
            continue
        try:
            told = case()
            passed += 1
            if told:
                print(f"{name}: {told}", flush=True)
        except (Failed, OSError) as fault:
            failed += 1
            print(f"FAILED {name}: {str(fault) or type(fault).__name__}", flush=True)
    print(f"{passed} passed, {failed} failed")
    sys.exit(1 if failed else 0)


def in_url(host: str) -> str:
    """Returns the host as a URL has it before a port: an IPv6 address is in brackets."""
    return f"[{host}]" if ":" in host else host


def batch(trace: int, service: str = "shop", operation: str = "op") -> bytes:
    """Returns a batch that has one span of the trace."""
    return wire.batch(service, [wire.span(trace, 7, operation=operation)])


def head(line: str, *fields: str) -> bytes:
    """Returns the head of a request: its line, a host and these fields."""
    return "".join(part + "\r\n" for part in (line, "Host: 127.0.0.1", *fields, "")).encode()


def post_body(body: bytes, kind: str = THRIFT) -> bytes:
    """Returns a request that hands in this body."""
    return head("POST /api/traces HTTP/1.1", f"Content-Type: {kind}", f"Content-Length: {len(body)}") + body


def post(trace: int, **more: str) -> bytes:
    """Returns a request that hands in one span of the trace."""
    return post_body(batch(trace, **more))


def get(target: str) -> bytes:
    """Returns a request for this target."""
    return head(f"GET {target} HTTP/1.1")


class Response:
    """A response: its status, its fields by their names in small letters, and its body."""

    def __init__(self, status: int, fields: dict[str, str], body: bytes) -> None:
        self.status = status
        self.fields = fields
        self.body = body

    def closes(self) -> bool:
        """Returns whether the server closes the connection after it."""
        return self.fields.get("connection", "").lower() == "close"

    def traces(self) -> list[str]:
        """Returns the ids of the traces in the answer."""
        return [item["traceID"] for item in json.loads(self.body)["data"] or []]


class Client:
    """One connection. Every wait ends after `patience` seconds, as a failure; `room` is what the system may hold for it unread."""

    def __init__(self, port: int, patience: float = PATIENCE, room: int | None = None, host: str = "127.0.0.1") -> None:
        self.input = b""
        self.socket = socket.socket(socket.AF_INET6 if ":" in host else socket.AF_INET)
        self.socket.settimeout(patience)
        if room is not None:
            self.socket.setsockopt(socket.SOL_SOCKET, socket.SO_RCVBUF, room)
        self.socket.setsockopt(socket.IPPROTO_TCP, socket.TCP_NODELAY, 1)
        try:
            self.socket.connect((host, port))
        except OSError:
            self.socket.close()
            raise

    def __enter__(self: AnyClient) -> AnyClient:
        return self

    def __exit__(self, *_: object) -> None:
        self.socket.close()

    def send(self, data: bytes) -> None:
        """Sends these bytes."""
        self.socket.sendall(data)

    def more(self) -> bool:
        """Reads some bytes; returns False if the server has ended its side."""
        try:
            data = self.socket.recv(65536)
        except TimeoutError:
            raise Failed("nothing came from the server in time") from None
        self.input += data
        return bool(data)

    def response(self) -> Response:
        """Returns the next response."""
        while b"\r\n\r\n" not in self.input:
            check(self.more(), f"the connection ended in the head of a response: {self.input!r}")
        top, _, self.input = self.input.partition(b"\r\n\r\n")
        lines = top.decode().split("\r\n")
        check(lines[0].startswith("HTTP/1.1 "), f"no status line: {lines[0]!r}")
        fields = {name.lower(): value.strip() for name, _, value in (line.partition(":") for line in lines[1:])}
        length = int(fields.get("content-length", "0"))
        while len(self.input) < length:
            check(self.more(), "the connection ended in the body of a response")
        body, self.input = self.input[:length], self.input[length:]
        return Response(int(lines[0].split()[1]), fields, body)

    def answer(self, request: bytes) -> Response:
        """Sends a request and returns its response."""
        self.send(request)
        return self.response()

    def ask(self, request: bytes, status: int) -> Response:
        """Sends a request and returns its response, which has to have this status."""
        response = self.answer(request)
        check(response.status == status, f"{request[:60]!r} was answered {response.status}, not {status}")
        return response

    def reads_end(self) -> bytes:
        """Returns what is left, up to the server's end; a reset there is no end."""
        while self.more():
            pass
        rest, self.input = self.input, b""
        return rest

    def reset(self) -> None:
        """Goes away by a reset."""
        self.socket.setsockopt(socket.SOL_SOCKET, socket.SO_LINGER, struct.pack("ii", 1, 0))
        self.socket.close()


def limited_by(limits: Mapping[int, int | None]) -> Callable[[], None] | None:
    """Returns a call that sets these limits of resources in its process, those that are None left out; None if that is all of them."""
    given = {kind: limit for kind, limit in limits.items() if limit is not None}

    def limited() -> None:
        for kind, limit in given.items():
            resource.setrlimit(kind, (limit, resource.getrlimit(kind)[1]))

    return limited if given else None


class Server:
    """A program that serves on a port, killed at the end unless it has ended by itself; or with `port` one that listens there already. It
    may have a limit of address space, as `ulimit -v` sets it, and one of open files, as `ulimit -n` does. With `host` that is its
    `--host`."""

    binary = ""  # the program where no other one is named
    run: subprocess.Popen[bytes]
    stdout: IO[bytes]
    errors: IO[bytes]
    port: int

    def __init__(self, *words: object, binary: str | None = None, port: int | None = None, address_space: int | None = None,
                 files: int | None = None, host: str | None = None) -> None:
        self.is_own = port is None
        self.output = b""
        if port is None:
            more = ("--host", host) if host else ()
            limits = {resource.RLIMIT_AS: address_space, resource.RLIMIT_NOFILE: files}
            self.start([binary or self.binary, "serve", *map(str, words + more)], limited_by(limits), host or "127.0.0.1")
        else:
            self.port = port

    def start(self, command: list[str], limited: Callable[[], None] | None, host: str) -> None:
        """Starts the program and waits until it listens."""
        self.errors = tempfile.TemporaryFile("a+b")  # what is read here moves no place to write
        try:
            self.run = subprocess.Popen(command, stdin=subprocess.DEVNULL, stdout=subprocess.PIPE, stderr=self.errors,
                                        preexec_fn=limited)
        except OSError as fault:
            self.errors.close()
            raise Failed(f"{command[0]} can't be started: {fault}") from None
        self.stdout = piped(self.run.stdout)
        self.await_line()
        line, line_feed, _ = self.output.partition(b"\n")
        if not (line_feed and line.startswith(f"listening {in_url(host)}:".encode())):
            self.end()
            raise Failed(f"{command[0]} does not listen: {self.output!r}")
        self.port = int(line.rpartition(b":")[2])

    def await_line(self) -> None:
        """Takes in the first line that it prints, or as much of it as comes in time."""
        end = time.monotonic() + PATIENCE
        while b"\n" not in self.output:
            ready, _, _ = select.select([self.stdout], [], [], max(0, end - time.monotonic()))
            data = os.read(self.stdout.fileno(), 4096) if ready else b""
            if not data:
                break
            self.output += data

    def __enter__(self: AnyServer) -> AnyServer:
        return self

    def __exit__(self, *_: object) -> None:
        self.end()

    def end(self) -> None:
        """Kills the program if it was started here."""
        if self.is_own:
            self.run.kill()
            self.run.wait()
            self.stdout.close()
            self.errors.close()

    def is_there(self) -> bool:
        """Returns whether it has not ended, as far as can be seen."""
        return not self.is_own or self.run.poll() is None

    def told(self) -> list[str]:
        """Returns the lines that it wrote to standard error; none of one that was there already."""
        if not self.is_own:
            return []
        self.errors.seek(0)
        return self.errors.read().decode().splitlines()

    def shut_listener(self) -> None:
        """Shuts its listening socket, the first one that it opened, from outside, so that it can accept no more."""
        process, libc = os.pidfd_open(self.run.pid), ctypes.CDLL(None, use_errno=True)
        sockets = [int(name) for name in os.listdir(f"/proc/{self.run.pid}/fd") if self.is_socket(name)]
        listener = libc.syscall(PIDFD_GETFD, process, min(sockets), 0)
        os.close(process)
        check(listener >= 0, f"pidfd_getfd: {os.strerror(ctypes.get_errno())}")
        with socket.socket(fileno=listener) as listener:
            listener.shutdown(socket.SHUT_RDWR)

    def is_socket(self, name: str) -> bool:
        """Returns whether the file that it has opened under this number is a socket."""
        return os.readlink(f"/proc/{self.run.pid}/fd/{name}").startswith("socket:")

    def processor(self) -> float:
        """Returns the seconds of a processor that it took, system time too."""
        with open(f"/proc/{self.run.pid}/stat") as file:
            words = file.read().rsplit(")", 1)[1].split()
        return (int(words[11]) + int(words[12])) / TICK

    def share(self, seconds: float) -> float:
        """Returns the share of a core that it takes while nobody asks."""
        before = self.processor()
        time.sleep(seconds)
        return (self.processor() - before) / seconds

    def kilobytes(self, line: str) -> int:
        """Returns what this line of its status says."""
        with open(f"/proc/{self.run.pid}/status") as file:
            return next(int(each.split()[1]) for each in file if each.startswith(line + ":"))

    def memory(self) -> int:
        """Returns the kilobytes that it holds."""
        return self.kilobytes("VmRSS")

    def peak(self) -> int:
        """Returns the most kilobytes that it held."""
        return self.kilobytes("VmHWM")

    def forget_peak(self) -> None:
        """Lets the most that it held count from what it holds now."""
        with open(f"/proc/{self.run.pid}/clear_refs", "w") as file:
            file.write("5")

    def client(self, **more: Any) -> Client:
        """Returns a new connection to it."""
        return Client(self.port, **more)

    def ends(self) -> tuple[int, str]:
        """Returns its status and all that it printed, once it has ended by itself."""
        try:
            status = self.run.wait(PATIENCE)
        except subprocess.TimeoutExpired:
            raise Failed("it does not end") from None
        return status, (self.output + self.stdout.read()).decode()

    def served(self, count: int, acknowledged: int, refused: int = 0) -> None:
        """Checks that it ends with status 0 after this number of sessions, in which these numbers of batches were acknowledged and refused."""
        status, output = self.ends()
        check(status == 0, f"the status is {status}, and it printed {output!r}")
        check(output.splitlines()[1:] == [f"served {count}", f"books {acknowledged} {refused} 0"], f"it printed {output!r}")

    def is_well(self, trace: int = 0xE11) -> None:
        """Checks that a new client submits a batch and finds it, in little time."""
        begin = time.monotonic()
        with self.client() as client:
            client.ask(post(trace), 202)
            client.ask(get(f"/api/traces/{trace:x}"), 200)
        took = time.monotonic() - begin
        check(took < 2, f"another client waited {took:.1f} s")
