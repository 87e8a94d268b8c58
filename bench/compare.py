#!/usr/bin/env python3
"""How fast batches are decoded, and by whom, in one run on one machine.

    bench/compare.py [--bin PATH | --folder PATH] [--rounds 20] [--only WORD] [--count] [--save KIND]

The same realistic batches (those of bench/decode.py) are decoded and let go by three programs, which are built in a
temporary folder; what is not installed is left out.

  rattle   batch_codec::decode, proved and built by `rt run` in a copy of its crates (the first time takes minutes; `--folder PATH`
           keeps the copy, and `--bin PATH` names a program that was built so)
  pieces   batch_feeder's Feeder over each body in one piece, and `bytes` the same a byte at a time: the same program,
           so that the crates below are proved once
  rust     bench/compare/plain.rs, a decoder of the same rules in plain Rust, by `rustc`
  apache   bench/compare/apache.cpp, Apache Thrift's, by `thrift` and `g++` (Debian: thrift-compiler libthrift-dev
           libboost-dev); it looks at no UTF-8

Each decodes all batches once, and once more as often as asked; the difference of the processor time of the two runs,
the best of three, is the time of the decoding alone. With --count the instructions of two rounds are counted by callgrind
(Debian: valgrind), which reports the same on a busy machine.
"""
import argparse
import os
import random
import resource
import struct
import subprocess
import tempfile
from collections.abc import Callable, Iterator
from typing import NamedTuple

import copies
import decode as batches
from crates import ROOT
from results import Record, asked_of, compiler
from servers import rust_program

HERE = os.path.dirname(os.path.abspath(__file__))
COMPARE = os.path.join(HERE, "compare")
FASTEST = "-Copt-level=3"
DEPS = "batch_codec batch_feeder jaeger_model anyhow"

# The program over `decode` and the Feeder: main of plain.rs, with a second word for the way.
MAIN = """//! Decodes the bodies of standard input so many times as its first word says, and prints the number of their spans. The second
//! word may be `pieces`, each body fed in one piece, or the size of the pieces.
#![tactic(auto)]

use anyhow::Result;
use batch_codec::{DecodeError, decode};
use batch_feeder::Feeder;
use jaeger_model::Batch;
use std::alloc::Global;
use std::env;
use std::io::Read;

""" + copies.SPLIT_BODY + "\n" + copies.BODIES + """
/// The batch of a body that is fed in pieces of this size.
fn fed(alloc: Global, body: &[u8], size: usize) -> Result<Batch, DecodeError> {
    let mut feeder = Feeder::new(alloc);
    for piece in body.chunks(size.max(1)) {
        feeder.feed(alloc, piece)?;
    }
    feeder.finish()
}

/// The batch of a body, decoded whole where the size is 0.
fn read(alloc: Global, body: &[u8], size: usize) -> Result<Batch, DecodeError> {
    match size {
        0 => decode(alloc, body),
        _ => fed(alloc, body, size),
    }
}

fn main(rt: HostRuntime) -> Result<()> {
    let alloc = rt.alloc();
    let words: Vec<String> = env::args(&rt)?.collect(alloc)?;
    let rounds: u32 = words.get(1).and_then(|word| word.parse().ok()).unwrap_or(1);
    let size: usize = match words.get(2) {
        Some(way) if way.as_str() == "pieces" => usize::MAX,
        Some(way) => way.parse().unwrap_or(0),
        None => 0,
    };
    let mut input = Vec::new(alloc);
    rt.stdin().read_to_end(&mut input)?;
    let bodies = bodies(alloc, &input)?;
    let mut spans = 0_u64;
    for _ in 0..rounds {
        for body in bodies.iter() {
            spans = spans.wrapping_add(read(alloc, body, size)?.spans.len() as u64);
        }
    }
    println!(&rt; "{spans}")?;
    Ok(())
}
"""


def build_rattle(folder: str, options: argparse.Namespace) -> str:
    """Returns the program over `decode` and the Feeder."""
    return copies.built(options, folder, "decode_rounds", DEPS, {"src/main.rt": MAIN})


def build_rust(folder: str, _: argparse.Namespace) -> str:
    """Returns the program in plain Rust."""
    return rust_program(folder, "bench/compare/plain.rs", FASTEST)


def build_apache(folder: str, _: argparse.Namespace) -> str:
    """Returns the program over Apache Thrift."""
    made = os.path.join(folder, "made")
    os.makedirs(made)
    subprocess.run(["thrift", "--gen", "cpp:moveable_types,no_skeleton,templates", "-out", made,
                    os.path.join(ROOT, "samples", "jaeger.thrift")], check=True)
    program = os.path.join(folder, "apache")
    subprocess.run(["g++", "-O2", "-std=c++17", "-I", made, "-o", program, os.path.join(COMPARE, "apache.cpp"),
                    os.path.join(made, "jaeger_types.cpp"), "-lthrift"], check=True)
    return program


class Decoder(NamedTuple):
    """A decoder: its name, what builds its program, and the words for the way of reading a body."""
    name: str
    build: Callable[[str, argparse.Namespace], str]
    way: list[str] = []


class Run(NamedTuple):
    """A run of a decoder: the seconds of a processor, and the number of spans that it printed."""
    seconds: float
    spans: int


DECODERS = (
    Decoder("rattle", build_rattle),
    Decoder("pieces", build_rattle, ["pieces"]),
    Decoder("bytes", build_rattle, ["1"]),
    Decoder("rust", build_rust),
    Decoder("apache", build_apache),
)


def seconds(program: str, rounds: int, path: str, way: list[str]) -> Run:
    """Runs a program, and returns its processor time in user mode and what it printed."""
    before = resource.getrusage(resource.RUSAGE_CHILDREN).ru_utime
    with open(path, "rb") as stdin:
        run = subprocess.run([program, str(rounds), *way], stdin=stdin, capture_output=True, check=True)
    return Run(resource.getrusage(resource.RUSAGE_CHILDREN).ru_utime - before, int(run.stdout))


def instructions(program: str, rounds: int, path: str, way: list[str]) -> int:
    """Returns the instructions of one run."""
    with open(path, "rb") as stdin:
        return batches.counted([program, str(rounds), *way], stdin)


def built(folder: str, options: argparse.Namespace) -> Iterator[tuple[Decoder, str]]:
    """Yields each decoder that was asked for with its program, and prints which are left out. A program of several is built once."""
    programs: dict[Callable[[str, argparse.Namespace], str], str] = {}
    for it in DECODERS:
        if options.only not in it.name:
            continue
        try:
            program = programs.get(it.build) or it.build(folder, options)
        except (FileNotFoundError, subprocess.CalledProcessError) as fault:
            print(f"{it.name:8} left out: {fault}")
            continue
        programs[it.build] = program
        yield it, program


class Bodies(NamedTuple):
    """The file of the bodies, the bytes of all, and how often they are decoded."""
    path: str
    size: int
    rounds: int


def count(decoder: Decoder, program: str, bodies: Bodies, record: Record) -> None:
    """Counts the instructions of a decoder, and prints and records its row."""
    more = instructions(program, 3, bodies.path, decoder.way) - instructions(program, 1, bodies.path, decoder.way)
    a_byte = more / 2 / bodies.size
    print(f"{decoder.name:8} {a_byte:20.1f}")
    record.row(decoder.name, round(a_byte, 1))


def time(decoder: Decoder, program: str, bodies: Bodies, record: Record) -> int:
    """Times a decoder, prints and records its row, and returns the number of spans that it found."""
    times, found = [], set()
    for _ in range(3):
        once = seconds(program, 1, bodies.path, decoder.way)
        often = seconds(program, 1 + bodies.rounds, bodies.path, decoder.way)
        times.append(often.seconds - once.seconds)
        found.add(once.spans)
    assert len(found) == 1, (decoder.name, found)
    size = bodies.rounds * bodies.size / 1_000_000
    print(f"{decoder.name:8} {min(times):8.3f} {size / min(times):8.1f}")
    record.row(decoder.name, round(size / min(times)))
    return found.pop()


def main() -> None:
    """Prints a row for each decoder."""
    asked = asked_of(__doc__, None)
    asked.add_argument("--bin", help="a program over decode that was built by this script")
    asked.add_argument("--folder", help="where that program is built, and stays")
    asked.add_argument("--rounds", type=int, default=20, help="how often all bodies are decoded")
    asked.add_argument("--count", action="store_true", help="count instructions")
    asked.add_argument("--only", default="", help="the programs whose name has this word")
    options = asked.parse_args()
    rng = random.Random(1)
    pool = [batches.batch(rng) for _ in range(400)]
    columns = ["decoder", "instructions a byte" if options.count else "megabytes a second"]
    record = Record(options, "compare --count" if options.count else "compare", columns, peers=f"{compiler('rustc')} {FASTEST}; {compiler('g++')} -O2")
    print(f"{'':8} {'instructions a byte':>20}" if options.count else f"{'':8} {'seconds':>8} {'MB/s':>8}")
    with tempfile.TemporaryDirectory() as folder:
        bodies = Bodies(os.path.join(folder, "bodies"), sum(map(len, pool)), options.rounds)
        with open(bodies.path, "wb") as file:
            file.writelines(struct.pack(">I", len(body)) + body for body in pool)
        spans = {}
        for decoder, program in built(folder, options):
            if options.count:
                count(decoder, program, bodies, record)
            else:
                spans[decoder.name] = time(decoder, program, bodies, record)
                assert len(set(spans.values())) == 1, spans
    if not options.only:
        record.save()


if __name__ == "__main__":
    main()
