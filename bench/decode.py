#!/usr/bin/env python3
"""How fast `jaeger_one get` reads batches: bodies per second and megabytes of decoded bytes per second.

Each size is one run of the built program on its own input: realistic batches of 10 to 50 spans with
5 to 15 tags each, as lines of hexadecimal text. The trace asked for is none of them, so that what is
timed is reading, decoding and keeping.

    bench/decode.py [--bin PATH] [--sizes 1,10,100] [--keep] [--save KIND]
"""
import os
import random
import re
import struct
import subprocess
import tempfile
import time
from typing import IO

from results import Record, asked_of
import wire
from wire import field, text

KEYS = ["http.method", "http.url", "http.status_code", "component", "peer.service", "peer.address",
        "db.statement", "db.instance", "error", "span.kind", "sampler.type", "internal.span.format",
        "request.id", "user.agent", "retry.count"]
SERVICES = ["frontend", "orders", "billing", "catalogue"]


# Callgrind counts the one instruction `rep movsb` once for each byte that it copies. So the C library copies long texts,
# as it does short ones, by instructions that copy 32 bytes.
COPIES = {"GLIBC_TUNABLES": "glibc.cpu.x86_rep_movsb_threshold=1000000000"}


def counted(words: list[str], stdin: IO[bytes]) -> int:
    """Returns the instructions of one run of a program, by callgrind (Debian: valgrind)."""
    with tempfile.NamedTemporaryFile() as out:
        words = ["valgrind", "--tool=callgrind", f"--callgrind-out-file={out.name}", *words]
        run = subprocess.run(words, stdin=stdin, env={**os.environ, **COPIES}, capture_output=True, check=True)
    found = re.search(rb"Collected : (\d+)", run.stderr)
    assert found, run.stderr
    return int(found[1])


def tag(rng: random.Random, key: str) -> bytes:
    """Returns a tag of this key, whose kind and value are drawn."""
    kind = rng.choice([0, 0, 0, 0, 3, 2, 1])
    if kind == 0:
        return wire.text_tag(key, "".join(rng.choice("abcdefghijklmnopqrstuvwxyz/.-0123456789") for _ in range(rng.randint(4, 40))))
    if kind == 1:
        value = field(4, 4) + struct.pack(">d", rng.random())
    elif kind == 2:
        value = field(2, 5) + bytes([rng.randint(0, 1)])
    else:
        value = wire.long(6, rng.randint(0, 100000))
    return field(11, 1) + text(key) + wire.integer(2, kind) + value + b"\0"


def span(rng: random.Random, trace: int, number: int, parent: int, tags: int | None = None) -> bytes:
    """Returns a span with this number of tags, or with 5 to 15."""
    operation = rng.choice(["GET /orders", "POST /orders", "SELECT", "publish", "HandleRequest"])
    start, duration = 1_600_000_000_000_000 + rng.randint(0, 10**9), rng.randint(10, 10**6)
    keys = rng.sample(KEYS, rng.randint(5, 15) if tags is None else tags)
    return wire.span(trace, number, parent, operation, start, duration, wire.structs(10, [tag(rng, key) for key in keys]))


def batch(rng: random.Random) -> bytes:
    """Returns a batch of 10 to 50 spans of one trace, each the parent of the next."""
    service = rng.choice(SERVICES)
    trace = rng.getrandbits(63) | 1
    count = rng.randint(10, 50)
    numbers = [rng.getrandbits(63) | 1 for _ in range(count)]
    return wire.batch(service, [span(rng, trace, n, numbers[i - 1] if i else 0) for i, n in enumerate(numbers)])


def seconds(words: list[str], name: str) -> float:
    """Returns how long the program reads this file, which has no trace that it is asked for."""
    with open(name, "rb") as stdin:
        start = time.perf_counter()
        run = subprocess.run(words, stdin=stdin, capture_output=True)
        took = time.perf_counter() - start
    assert run.returncode == 1 and run.stdout == b"trace not found\n", (run.returncode, run.stdout[:200])
    return took


def main() -> None:
    """Prints a row for each size of the input."""
    asked = asked_of(__doc__)
    asked.add_argument("--sizes", default="1,10,100", help="megabytes of decoded bytes")
    asked.add_argument("--keep", action="store_true", help="keep every batch (the program's limits are raised)")
    options = asked.parse_args()
    record = Record(options, "decode", ["megabytes", "batches", "seconds", "batches a second", "megabytes a second"])
    rng = random.Random(1)
    pool = [batch(rng) for _ in range(400)]
    lines = [b.hex().encode() + b"\n" for b in pool]
    print(f"{'size':>8} {'bodies':>8} {'seconds':>8} {'bodies/s':>10} {'MB/s':>8} {'s per MB':>9}")
    for size in [int(s) for s in options.sizes.split(",")]:
        with tempfile.NamedTemporaryFile() as file:
            bodies = total = 0
            while total < size * 1_000_000:
                file.write(lines[bodies % len(lines)])
                total += len(pool[bodies % len(pool)])
                bodies += 1
            file.flush()
            words = [options.bin, "get", "ffffffffffffffff", "--batches", "1000000", "--spans", "10000000"]
            best = min(seconds(words, file.name) for _ in range(3))
            mb = total / 1_000_000
            print(f"{mb:7.1f}M {bodies:8} {best:8.3f} {bodies / best:10.0f} {mb / best:8.1f} {best / mb:9.5f}")
            record.row(size, bodies, round(best, 3), round(bodies / best), round(mb / best, 1))
    record.save()


if __name__ == "__main__":
    main()
