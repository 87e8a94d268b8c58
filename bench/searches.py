#!/usr/bin/env python3
"""What searches, dependencies and applying cost, beside a plain scan over the same data, in one run on one machine.

    bench/searches.py [--bin PATH | --folder PATH] [--spans 100000] [--rounds 15] [--load | --count] [--save KIND]

Traces of 10 to 50 spans, each span with 5 to 15 tags, are sent in batches of up to 10 spans of one service, the traces mixed in time. Then each
question is asked in turn by two programs, each a process of its own:

  store  `SpanStore::answer` of the store of one thread, proved and built by `rt run` in a copy of the crates that it uses (from a plain clone
         that takes long: the crates below are proved first; `--folder PATH` keeps the copy, and `--bin PATH` names a program that was built so)
  scan   bench/compare/scan.rs, plain Rust without proofs: a list of batches that each question walks over from its start

The bodies are the same, and so are the answers: the script compares how many traces or links each program found. A time is that of the
machine's monotonic clock around one question, the minimum of the rounds, in milliseconds; `times as fast` is how often the store's goes into the
scan's. `with JSON` has the JSON of the answer. With `--load` it
prints what applying costs by number of spans held instead: microseconds a batch of 10 spans, the median of the last 200. With `--count` it prints
how many instructions the JSON of 20 traces takes a byte, of a tenth of the spans, as callgrind counts them (Debian: valgrind): those of the
question with its JSON, without those of the same question alone.
"""
import argparse
import os
import random
import statistics
import struct
import subprocess
import tempfile
from typing import NamedTuple

from compare import FASTEST, instructions
from copies import BODIES, ENTRY_OF, NOW, SPLIT_BODY, built, load
from decode import span
from results import Record, asked_of, compiler
import wire
from servers import rust_program

SERVICES = ["frontend", "orders", "billing", "catalogue", "shipping"]
QUESTIONS = ["one of a common service", "20 of a common service", "20 of a common service, with JSON", "all of a common service", "a rare service",
             "no such service", "no such operation", "no such tag", "no such duration", "no such start", "links of a hundredth", "links of all time"]

# The program.
MAIN = """//! Asks a store that holds the bodies of standard input each question, or that of the third word alone, so many times as its first word says, and
//! prints the nanoseconds of each and how much was found. With 0 times it prints the nanoseconds of each batch that is applied.
#![tactic(auto)]

use anyhow::{Result, bail};
use batch_codec::decode;
use jaeger_model::{Seq, Text};
use query_json::AnswerParts;
use span_store::SpanStore;
use std::alloc::Global;
use std::env::{self, Env};
use std::hash::RandomState;
use std::io::Read;
use std::sync::Arc;
use std::time::Clock;
use trace_model::{Answer, Entry, Find, Limits, Query, Work};

""" + NOW + "\n" + SPLIT_BODY + "\n" + BODIES + "\n" + ENTRY_OF + """
/// Applies an entry; its nanoseconds.
fn applied<R: Clock>(rt: &R, store: &mut SpanStore, entry: Arc<Entry>) -> Result<u64> {
    let begin = now(rt);
    if let Err(why) = store.apply(entry) {
        bail!("{why}");
    }
    Ok(now(rt).saturating_sub(begin))
}

/// Applies the entry of each body, and says what it took where that is asked for.
fn filled<R: Clock + Print>(rt: &R, alloc: Global, store: &mut SpanStore, input: &[u8], reporting: bool) -> Result<()> {
    let bodies = bodies(alloc, input)?;
    for (before, body) in bodies.iter().enumerate() {
        let entry = entry_of(alloc, *body, (before as u64).saturating_add(1))?;
        let took = applied(rt, store, entry)?;
        if reporting {
            println!(rt; "apply {took} 0 0")?;
        }
    }
    Ok(())
}

/// All traces of a service, so many at most.
fn of_service(alloc: Global, service: &str, limit: u64) -> Result<Find> {
    Ok(Find {
        service: Text::from_str(alloc, service)?,
        operation: Text::new(alloc),
        tags: Seq::new(alloc),
        start_min: None,
        start_max: None,
        duration_min: 0,
        duration_max: 0,
        limit,
    })
}

/// The question of this number. Dependencies are asked of a window that ends at this millisecond.
fn question(alloc: Global, number: u32, end_ms: i64) -> Result<Query> {
    let mut find = of_service(alloc, "orders", 20)?;
    match number {
        0 => find.limit = 1,
        1 | 2 => {}
        3 => find.limit = 0,
        4 => find.service = Text::from_str(alloc, "rare")?,
        5 => find.service = Text::from_str(alloc, "nowhere")?,
        6 => find.operation = Text::from_str(alloc, "nothing")?,
        7 => {
            let tag = (Text::from_str(alloc, "error")?, Text::from_str(alloc, "never")?);
            find.tags = Seq::from_vec(vec![in alloc; tag]?);
        }
        8 => find.duration_min = 4_000_000_000_000_000_000,
        9 => find.start_min = Some(4_000_000_000_000_000_000),
        10 => {
            return Ok(Query::Links {
                end_ms,
                lookback_ms: 10_000,
            });
        }
        _ => {
            return Ok(Query::Links {
                end_ms: 4_000_000_000_000,
                lookback_ms: 4_000_000_000_000,
            });
        }
    }
    Ok(Query::Find(find))
}

/// How many traces or links there are.
fn size_of(answer: &Answer) -> usize {
    match answer {
        Answer::Traces(traces) => traces.len(),
        Answer::Links(links) => links.len(),
        _ => 0,
    }
}

/// The bytes of an answer's JSON, which is given out part by part.
fn json_bytes(alloc: Global, answer: Answer) -> Result<usize> {
    let mut parts = AnswerParts::new(alloc, answer)?;
    let mut bytes: usize = 0;
    for _ in 0..parts.remaining() {
        if parts.part().is_empty() {
            break;
        }
        bytes = bytes.saturating_add(parts.part().len());
        parts.advance();
    }
    Ok(bytes)
}

/// Nanoseconds of one answer, how much was found, and the bytes of its JSON, where that is wanted.
fn asked<R: Clock>(rt: &R, alloc: Global, store: &SpanStore, query: &Query, json: bool) -> Result<(u64, usize, usize)> {
    let begin = now(rt);
    let answer = match store.answer(query) {
        Ok(answer) => answer,
        Err(why) => bail!("{why}"),
    };
    let found = size_of(&answer);
    let mut bytes = 0;
    if json {
        bytes = json_bytes(alloc, answer)?;
    }
    let took = now(rt).saturating_sub(begin);
    if json && bytes == 0 {
        bail!("no text");
    }
    Ok((took, found, bytes))
}

/// Prints what a question took and found, and the bytes of its JSON, so many times.
fn asked_often<R: Clock + Print>(rt: &R, alloc: Global, store: &SpanStore, number: u32, rounds: u32, end_ms: i64) -> Result<()> {
    let query = question(alloc, number, end_ms)?;
    for _ in 0..rounds {
        let (took, size, bytes) = asked(rt, alloc, store, &query, number == 2)?;
        println!(rt; "{number} {took} {size} {bytes}")?;
    }
    Ok(())
}

/// Fills the store, and asks each question so many times.
fn measured<R: Clock + Print>(rt: &R, alloc: Global, store: &mut SpanStore, bodies: &[u8], asking: Asking) -> Result<()> {
    filled(rt, alloc, store, bodies, asking.rounds == 0)?;
    for number in 0..12u32 {
        if asking.only.is_none() || asking.only == Some(number) {
            asked_often(rt, alloc, store, number, asking.rounds, asking.end_ms)?;
        }
    }
    Ok(())
}

/// How many rounds, the millisecond at which windows end, and the one question where not all are asked.
#[derive(Clone, Copy)]
struct Asking {
    rounds: u32,
    end_ms: i64,
    only: Option<u32>,
}

fn words<R: Env + Alloc<A = Global>>(rt: &R, alloc: Global) -> Result<Asking> {
    let words: Vec<String> = env::args(rt)?.collect(alloc)?;
    Ok(Asking {
        rounds: words.get(1).and_then(|word| word.parse().ok()).unwrap_or(0),
        end_ms: words.get(2).and_then(|word| word.parse().ok()).unwrap_or(0),
        only: words.get(3).and_then(|word| word.parse().ok()),
    })
}

fn main(rt: HostRuntime) -> Result<()> {
    let alloc = rt.alloc();
    let asking = words(&rt, alloc)?;
    let keys = RandomState::new(&rt)?;
    let mut bodies = Vec::new(alloc);
    rt.stdin().read_to_end(&mut bodies)?;
    let Some(limits) = Limits::new(1_000_000, 10_000_000, 0, 0) else {
        bail!("limits out of their ranges");
    };
    let mut store = SpanStore::open(alloc, keys, limits)?;
    let result = measured(&rt, alloc, &mut store, &bodies, asking);
    drop(store);
    result
}
"""

DEPS = "span_store query_json batch_codec jaeger_model trace_model serde_json anyhow"


def begin_of(trace: int) -> int:
    """Returns the microsecond at which a trace begins."""
    return 1_600_000_000_000_000 + trace * 300_000


def begun(one: bytes, start: int) -> bytes:
    """Returns the span with this start in place of its own."""
    at = one.index(wire.field(10, 8))
    value = wire.long(8, start)
    return one[:at] + value + one[at + len(value):]


class Piece(NamedTuple):
    """A batch: when it comes, its trace, its service and the numbers of its spans."""
    place: float
    trace: int
    service: str
    numbers: list[int]


def write_bodies(rng: random.Random, path: str, spans: int) -> int:
    """Writes batches of up to 10 spans of one service, those of some traces mixed; returns the middle of all starts in milliseconds."""
    pieces: list[Piece] = []
    count = trace = 0
    while count < spans:
        trace += 1
        size = rng.randint(10, 50)
        parts: dict[str, list[int]] = {}
        for number in range(1, size + 1):
            service = "rare" if trace % 1000 == 7 and number == 3 else rng.choice(SERVICES)
            parts.setdefault(service, []).append(number)
        for service, numbers in parts.items():
            for at in range(0, len(numbers), 10):
                pieces.append(Piece(trace + rng.random() * 3, trace, service, numbers[at:at + 10]))
        count += size
    pieces.sort()
    with open(path, "wb") as file:
        for it in pieces:
            body = wire.batch(it.service, [begun(span(rng, it.trace, number, number // 2), begin_of(it.trace) + number) for number in it.numbers])
            file.write(struct.pack(">I", len(body)) + body)
    return 1_600_000_000_000 + (pieces[-1].trace // 2) * 300


class Asked(NamedTuple):
    """The least nanoseconds of each question, how much was found, and the nanoseconds of each batch that was applied."""
    least: dict[int, int]
    sizes: dict[int, int]
    applied: list[int]


def ask(program: str, path: str, rounds: int, end_ms: int) -> Asked:
    """Returns what a run of the program prints."""
    with open(path, "rb") as stdin:
        run = subprocess.run([program, str(rounds), str(end_ms)], stdin=stdin, capture_output=True, text=True, check=True)
    found = Asked({}, {}, [])
    for line in run.stdout.splitlines():
        number, took, size = line.split()[:3]
        if number == "apply":
            found.applied.append(int(took))
            continue
        found.least[int(number)] = min(int(took), found.least.get(int(number), 1 << 62))
        found.sizes[int(number)] = int(size)
    return found


def count(program: str, path: str, end_ms: int) -> tuple[float, int]:
    """Returns the instructions of the JSON of 20 traces, and its bytes."""
    def more(number: int) -> float:
        one, eleven = (instructions(program, rounds, path, [str(end_ms), str(number)]) for rounds in (1, 11))
        return (eleven - one) / 10
    with open(path, "rb") as stdin:
        said = subprocess.run([program, "1", str(end_ms), "2"], stdin=stdin, capture_output=True, text=True, check=True).stdout
    return more(2) - more(1), int(said.split()[3])


def show_load(program: str, path: str, options: argparse.Namespace) -> None:
    """Prints what applying costs by number of spans held, and records it."""
    record = Record(options, "searches --load", ["spans held", "microseconds a batch"])
    for size in (1000, 10_000, 100_000, 1_000_000):
        write_bodies(random.Random(1), path, size)
        taken = statistics.median(ask(program, path, 0, 0).applied[-200:]) / 1000
        print(f"{size:>9} spans: {taken:8.2f} us a batch", flush=True)
        record.row(size, round(taken, 1))
    record.save()


def show_count(program: str, path: str, options: argparse.Namespace) -> None:
    """Prints what the JSON of 20 traces takes, and records it."""
    end_ms = write_bodies(random.Random(1), path, options.spans // 10)
    taken, size = count(program, path, end_ms)
    print(f"JSON of 20 traces: {size:,} bytes, {taken / size:.1f} instructions a byte")
    record = Record(options, "searches --count", ["what", "instructions a byte"])
    record.row("the JSON of 20 traces", round(taken / size, 1))
    record.save()


def show(program: str, scan: str, path: str, options: argparse.Namespace) -> None:
    """Prints what each question takes of the store and of the scan, and records it."""
    end_ms = write_bodies(random.Random(1), path, options.spans)
    mine, other = (ask(it, path, options.rounds, end_ms) for it in (program, scan))
    print(f"{options.spans:,} spans; milliseconds, the minimum of {options.rounds}")
    print("| Question | found | store | scan | times as fast |")
    print("|---|---|---|---|---|")
    record = Record(options, "searches", ["question", "found", "store, ms", "scan, ms"], peers=f"{compiler('rustc')} {FASTEST}")
    for number, name in enumerate(QUESTIONS):
        found = mine.sizes[number]
        assert found == other.sizes[number], (name, found, other.sizes[number])
        in_store, in_scan = mine.least[number] / 1e6, other.least[number] / 1e6
        print(f"| {name} | {found} | {in_store:.4f} | {in_scan:.4f} | {in_scan / in_store:,.1f} |")
        record.row(name, found, round(in_store, 4), round(in_scan, 4))
    record.save()
    print(f"load at the end {load()}")


def main() -> None:
    """Prints what is asked for."""
    asked = asked_of(__doc__, None)
    asked.add_argument("--bin", help="a program that was built by this script")
    asked.add_argument("--folder", help="where the program is built, and stays")
    asked.add_argument("--spans", type=int, default=100_000, help="how many spans are held")
    asked.add_argument("--rounds", type=int, default=15, help="of which the minimum is printed")
    asked.add_argument("--load", action="store_true", help="what applying costs")
    asked.add_argument("--count", action="store_true", help="the instructions that JSON takes")
    options = asked.parse_args()
    with tempfile.TemporaryDirectory() as folder:
        program = built(options, folder, "searches_times", DEPS, {"src/main.rt": MAIN})
        path = os.path.join(folder, "bodies")
        print(f"load at the start {load()}")
        if options.load:
            show_load(program, path, options)
        elif options.count:
            show_count(program, path, options)
        else:
            show(program, rust_program(folder, "bench/compare/scan.rs", FASTEST), path, options)


if __name__ == "__main__":
    main()
