#!/usr/bin/env python3
"""What two copies of the store cost beside the store of one thread, in one run on one machine.

    bench/copies.py [--bin PATH | --folder PATH] [--sizes 1000,10000,100000] [--timed 100] [--rounds 9] [--spread] [--save KIND]

Each row is a process of its own, one after the other:

  one thread             `SpanStore::apply` of the timed batches, then `SpanStore::answer` of 2,000 traces
  two copies             `Keeper::admit_record` of the timed batches, and nobody reads
  two copies, 3 readers  the same while three threads read, each by its own `Pass::read`, as fast as they can
  3 readers, no writer   three threads read for 20 ms, and nobody writes

Batches of 10 spans are admitted until that many spans are held, then those that are timed, one after the other, and traces are read by the ids of
held ones. A timed batch is decoded just before, as a server decodes a batch before it submits it. For the two copies an entry's outline and the kinds
of its first spans are found then too, as a worker finds them; the store of one thread finds them within its time.

Each call is timed in the program, by the machine's monotonic clock; a read's time does not have the letting go of its answer.
`admits/s` is the number of timed batches by the sum of their times, and `of one` its ratio to that of one thread in the same
round. `reads/s` is of all reading threads together, and has the letting go of the answers. Each figure is the median of the
rounds' own figures; with `--spread` the minimum and the maximum of the rounds follow.
"""
import argparse
import os
import random
import shutil
import statistics
import struct
import subprocess
import sys
import tempfile
from typing import NamedTuple

from decode import SERVICES, span
from results import Record, asked_of
import wire
from crates import ROOT, below, lists

IN_BATCH = 10
KINDS = ["one", "copies", "beside", "still"]
NAMES = {"one": "one thread", "copies": "two copies", "beside": "two copies, 3 readers", "still": "3 readers, no writer"}

# What programs of other scripts need too.
NOW = """/// Nanoseconds since some moment.
fn now<R: Clock>(rt: &R) -> u64 {
    match rt.monotonic() {
        Ok(time) => u64::try_from(time.as_nanos()).unwrap_or(0),
        Err(_) => 0,
    }
}
"""
SPLIT_BODY = """/// The first body and what stands behind it; none where there is no whole one. A body is a length of four bytes and then that many bytes.
fn split_body(input: &[u8]) -> Option<(&[u8], &[u8])> {
    let [a, b, c, d, tail @ ..] = input else {
        return None;
    };
    let length = u32::from_be_bytes([*a, *b, *c, *d]) as usize;
    if tail.len() < length {
        return None;
    }
    Some(tail.split_at(length))
}
"""

# All of the bodies.
BODIES = """/// The bodies.
fn bodies(alloc: Global, input: &[u8]) -> Result<Vec<&[u8]>> {
    let mut bodies = Vec::new(alloc);
    let mut rest = input;
    for _ in 0..input.len() {
        let Some((body, after)) = split_body(rest) else {
            break;
        };
        bodies.push(body)?;
        rest = after;
    }
    Ok(bodies)
}
"""

# The entry of seat 0 whose batch is a body.
ENTRY_OF = """/// The entry of a body.
fn entry_of(alloc: Global, body: &[u8], number: u64) -> Result<Arc<Entry>> {
    let batch = decode(alloc, body)?;
    let entry = Entry {
        seat: 0,
        number,
        work: Work::Batch(batch),
    };
    Ok(Arc::new(alloc, entry)?)
}
"""

# The program.
MAIN = """//! Times the store of one thread, or two copies of a store, over the bodies of standard input: the last ones are timed as they are
//! taken in, and traces are read after that or beside it.
//!
//! Its words are `one`, `copies`, `beside` or `still`, and how many bodies are timed; without words it does nothing. It prints a
//! line for each timed body and for each read, with its nanoseconds, and one for each reading thread, with those of all its reads.
#![tactic(auto)]

ghost use Rattle.std.specs.Prelude.{◌≡◌};

use anyhow::{Result, bail};
use arrival_journal::Record;
use batch_codec::decode;
use jaeger_model::TraceId;
use read_side::{Keeper, EmptyHistory, Pass, StoreName, open};
use sent_batches::BatchKeys;
use span_store::SpanStore;
use std::alloc::Global;
use std::hash::RandomState;
use std::io::Read;
use std::marker::Brand;
use std::sync::atomic::{AtomicU64, Ordering};
use std::sync::{Arc, Wait};
use std::thread::{Threads, join, map_vec};
use std::time::{Clock, Duration};
use std::{env, thread};
use trace_model::{Answer, Entry, Limits, Query, Refusal, Work};

/// What is submitted before the timing, the bodies that are decoded behind that and timed, and the traces that are held before.
#[derive(Drop)]
struct Load<'a> {
    first: Vec<Arc<Entry>>,
    timed: &'a [u8],
    ids: Vec<TraceId>,
}

/// Nanoseconds of each read, and of all.
#[derive(Drop)]
struct Reads {
    each: Vec<u64>,
    took: u64,
}

/// Nanoseconds of each entry that was admitted, and what was read.
#[derive(Drop)]
struct Times {
    admits: Vec<u64>,
    reads: Vec<Reads>,
}

/// How many threads have begun to read, and how far the measurement is: 0 until all have, 1 while it is timed, 2 once it is over.
#[derive(Drop)]
struct Phases {
    reading: AtomicU64,
    phase: AtomicU64,
}

""" + NOW + "\n" + SPLIT_BODY + "\n" + ENTRY_OF + """
/// How many bodies there are.
fn count_bodies(input: &[u8]) -> usize {
    let mut rest = input;
    for count in 0..1_000_000usize {
        let Some((_, after)) = split_body(rest) else {
            return count;
        };
        rest = after;
    }
    0
}

/// The entries of the first bodies, numbered behind so many others, and what stands behind them.
fn entries<'a>(
    alloc: Global,
    input: &'a [u8],
    before: u64,
    most: usize,
) -> Result<(Vec<Arc<Entry>>, &'a [u8])> {
    let mut entries = Vec::new(alloc);
    let mut rest = input;
    let mut number = before;
    for _ in 0..most {
        let Some((body, after)) = split_body(rest) else {
            break;
        };
        number = number.saturating_add(1);
        entries.push(entry_of(alloc, body, number)?)?;
        rest = after;
    }
    Ok((entries, rest))
}

/// The timed entries, which come behind so many others.
fn decode_timed(alloc: Global, timed: &[u8], before: u64) -> Result<Vec<Arc<Entry>>, Refusal> {
    match entries(alloc, timed, before, 1_000_000) {
        Ok((entries, _)) => Ok(entries),
        Err(_) => Err(Refusal::Gone),
    }
}

/// The last bodies are timed, as many as that.
fn split_load<'a>(alloc: Global, input: &'a [u8], timed: usize) -> Result<Load<'a>> {
    let held = count_bodies(input).saturating_sub(timed);
    let (first, timed) = entries(alloc, input, 0, held)?;
    let mut ids = Vec::new(alloc);
    for entry in first.iter() {
        if let Some(span) = entry.work.spans().first() {
            ids.push(span.trace)?;
        }
    }
    Ok(Load { first, timed, ids })
}

/// One of the traces, and the choice after it.
fn choose(ids: &[TraceId], choice: &mut u64) -> TraceId {
    *choice = choice
        .wrapping_mul(6_364_136_223_846_793_005)
        .wrapping_add(1_442_695_040_888_963_407);
    let place = (*choice >> 33) as usize;
    if ids.is_empty() {
        return TraceId { high: 0, low: 0 };
    }
    ids[place % ids.len()]
}

/// Applies entries and times each.
fn apply_timed<R: Clock>(
    rt: &R,
    alloc: Global,
    store: &mut SpanStore,
    entries: Vec<Arc<Entry>>,
) -> Result<Vec<u64>, Refusal> {
    let mut times = Vec::new(alloc);
    for entry in entries {
        let begin = now(rt);
        store.apply(entry)?;
        times.push(now(rt).saturating_sub(begin))?;
    }
    Ok(times)
}

/// Asks for held traces and times each.
fn answer_timed<R: Clock>(
    rt: &R,
    alloc: Global,
    store: &SpanStore,
    ids: &[TraceId],
) -> Result<Reads, Refusal> {
    let mut each = Vec::new(alloc);
    let mut choice = 1;
    let start = now(rt);
    for _ in 0..2000 {
        let id = choose(ids, &mut choice);
        let begin = now(rt);
        let answer = store.answer(&Query::Trace { id, raw: false })?;
        each.push(now(rt).saturating_sub(begin))?;
        if !matches!(answer, Answer::Trace(Some(_))) {
            return Err(Refusal::Gone);
        }
    }
    let took = now(rt).saturating_sub(start);
    Ok(Reads { each, took })
}

/// The store of one thread: entries and reads, one after the other.
fn timed_one<R: Clock>(
    rt: &R,
    alloc: Global,
    keys: RandomState,
    limits: Limits,
    load: Load<'_>,
) -> Result<Times, Refusal> {
    let Load { first, timed, ids } = load;
    let held = first.len() as u64;
    let mut store = SpanStore::open(alloc, keys, limits)?;
    let _untimed = apply_timed(rt, alloc, &mut store, first)?;
    let timed = decode_timed(alloc, timed, held)?;
    let admits = apply_timed(rt, alloc, &mut store, timed)?;
    let mut reads = Vec::new(alloc);
    reads.push(answer_timed(rt, alloc, &store, ids.as_slice())?)?;
    Ok(Times { admits, reads })
}

/// Reads held traces until the measurement is over.
fn read_on<N: StoreName, R: Clock>(
    rt: &R,
    alloc: Global,
    mut pass: Pass<N>,
    ids: &[TraceId],
    phases: &Phases,
) -> Result<Reads, Refusal> {
    let mut each = Vec::with_capacity(alloc, 10_000)?;
    let mut choice = phases.reading.fetch_add(1, Ordering::SeqCst);
    let mut start = 0;
    let mut end = 0;
    for _ in 0..100_000_000u64 {
        let phase = phases.phase.load(Ordering::SeqCst);
        if phase == 2 {
            break;
        }
        let id = choose(ids, &mut choice);
        let begin = now(rt);
        let reading = pass.read(&Query::Trace { id, raw: false })?;
        end = now(rt);
        if !matches!(reading.answer, Answer::Trace(Some(_))) {
            return Err(Refusal::Gone);
        }
        if phase == 1 {
            each.push(end.saturating_sub(begin))?;
            if start == 0 {
                start = begin;
            }
        }
    }
    let took = end.saturating_sub(start);
    Ok(Reads { each, took })
}

/// The records of the entries.
fn recorded(
    alloc: Global,
    keys: RandomState,
    entries: Vec<Arc<Entry>>,
) -> Result<Vec<Record>, Refusal> {
    let keys = BatchKeys::new(keys);
    let mut recorded = Vec::with_capacity(alloc, entries.len())?;
    for entry in entries {
        recorded.push(Record::new(keys, entry))?;
    }
    Ok(recorded)
}

/// Admits entries and times each.
fn admit_timed<N: StoreName, R: Wait + Clock>(
    rt: &R,
    alloc: Global,
    keeper: &mut Keeper<N>,
    entries: Vec<Record>,
) -> Result<Vec<u64>, Refusal> {
    let mut times = Vec::with_capacity(alloc, entries.len())?;
    for entry in entries {
        let begin = now(rt);
        let _receipt = keeper.admit_record(rt, entry)?;
        times.push(now(rt).saturating_sub(begin))?;
    }
    Ok(times)
}

/// Waits until so many read, admits the entries, or only waits for some time where there are none, and ends the phase.
fn write_beside<N: StoreName, R: Wait + Clock>(
    rt: &R,
    alloc: Global,
    keeper: &mut Keeper<N>,
    entries: Vec<Record>,
    readers: u64,
    phases: &Phases,
) -> Result<Vec<u64>, Refusal> {
    for _ in 0..100_000 {
        if phases.reading.load(Ordering::SeqCst) == readers {
            break;
        }
        thread::sleep(rt, Duration::from_micros(50));
    }
    phases.phase.store(1, Ordering::SeqCst);
    if entries.is_empty() {
        thread::sleep(rt, Duration::from_millis(20));
    }
    let times = admit_timed(rt, alloc, keeper, entries);
    phases.phase.store(2, Ordering::SeqCst);
    times
}

/// Entries before, and then the timed ones beside as many readers as there are passes.
fn write_and_read<N: StoreName + Send + Sync, R: Threads + Wait + Clock + Sync>(
    rt: &R,
    alloc: Global,
    keys: RandomState,
    keeper: &mut Keeper<N>,
    passes: Vec<Pass<N>>,
    load: Load<'_>,
) -> Result<Times, Refusal> {
    let Load { first, timed, ids } = load;
    let held = first.len() as u64;
    let first = recorded(alloc, keys, first)?;
    admit_timed(rt, alloc, keeper, first)?;
    let timed = recorded(alloc, keys, decode_timed(alloc, timed, held)?)?;
    let phases = Phases {
        reading: AtomicU64::new(0),
        phase: AtomicU64::new(0),
    };
    let readers = passes.len() as u64;
    let (admits, found) = join(
        rt,
        || write_beside(rt, alloc, keeper, timed, readers, &phases),
        || map_vec(
            rt,
            passes,
            &|pass| read_on(rt, alloc, pass, ids.as_slice(), &phases),
        ),
    );
    let mut reads = Vec::new(alloc);
    for one in found? {
        reads.push(one?)?;
    }
    Ok(Times {
        admits: admits?,
        reads,
    })
}

/// Two copies, of a store of this name, which is spent.
fn timed_named<N: StoreName + Send + Sync, R: Threads + Wait + Clock + Sync>(
    rt: &R,
    alloc: Global,
    keys: RandomState,
    name: EmptyHistory,
    limits: Limits,
    readers: bool,
    load: Load<'_>,
) -> Result<Times, Refusal>
    requires book { name.seen.book ≡ N.book }
    requires limits { limits ≡ N.limits }
{
    let (mut keeper, mut passes) = open::<N, _>(rt, alloc, keys, name, limits, 3)?;
    if !readers {
        passes.clear();
    }
    let times = write_and_read(rt, alloc, keys, &mut keeper, passes, load);
    keeper.close(rt);
    times
}

/// Two copies.
fn timed_copies<R: Threads + Wait + Clock + Sync>(
    rt: &R,
    alloc: Global,
    keys: RandomState,
    limits: Limits,
    readers: bool,
    load: Load<'_>,
) -> Result<Times, Refusal> {
    timed_named::<Brand, R>(rt, alloc, keys, EmptyHistory::new(), limits, readers, load)
}

fn main(rt: HostRuntime) -> Result<()> {
    let alloc = rt.alloc();
    let words: Vec<String> = env::args(&rt)?.collect(alloc)?;
    let kind = words.get(1).map_or("", |word| word.as_str());
    if kind.is_empty() {
        return Ok(());
    }
    let timed: usize = words.get(2).and_then(|word| word.parse().ok()).unwrap_or(0);
    let keys = RandomState::new(&rt)?;
    let mut input = Vec::new(alloc);
    rt.stdin().read_to_end(&mut input)?;
    let mut load = split_load(alloc, &input, timed)?;
    let Some(limits) = Limits::new(1_000_000, 10_000_000, 0, 0) else {
        bail!("limits out of their ranges");
    };
    if kind == "still" {
        load.timed = &[];
    }
    let times = if kind == "one" {
        timed_one(&rt, alloc, keys, limits, load)
    } else {
        timed_copies(&rt, alloc, keys, limits, kind != "copies", load)
    };
    let times = match times {
        Ok(times) => times,
        Err(why) => bail!("{why}"),
    };
    for took in times.admits.iter() {
        println!(&rt; "admit {took}")?;
    }
    for reads in times.reads.iter() {
        let took = reads.took;
        println!(&rt; "reader {took}")?;
        for took in reads.each.iter() {
            println!(&rt; "read {took}")?;
        }
    }
    Ok(())
}
"""

# Which store the program opens, for its proof.
GHOSTS = """use Rattle.copies_times.proofs.timed_copies.Given as goal

-- the store that is opened here
abbrev pub ghosts-timed_named : goal.ghosts-timed_named
ghosts-timed_named g a = record { book = a.name.seen.book; limits = a.limits }
"""

DEPS = "read_side sent_batches arrival_journal span_store batch_codec jaeger_model trace_model anyhow left_right crossbeam_utils atomic_table logbook"


def build(top: str, name: str, deps: str, files: dict[str, str]) -> str:
    """Proves and builds a program of these sources in a copy, below this folder, of the crates that it uses."""
    uses = lists()
    used = below(deps.split(), uses)
    for crate in used:
        there = os.path.join(top, "crates", crate)
        if not os.path.exists(there):
            shutil.copytree(os.path.join(ROOT, "crates", crate), there, symlinks=True)
    shutil.copy(os.path.join(ROOT, "HANDLES"), top)
    with open(os.path.join(top, "crates.txt"), "w") as file:
        file.writelines(f"{crate}: {' '.join(uses[crate])}\n" for crate in uses if crate in used)
        file.write(f"{name}: {deps}\n")
    home = os.path.join(top, "crates", name)
    for path, contents in files.items():
        path = os.path.join(home, path)
        os.makedirs(os.path.dirname(path), exist_ok=True)
        with open(path, "w") as file:
            file.write(contents)
    subprocess.run(["rt", "run", "--jobs", "1"], cwd=home, check=True, stdin=subprocess.DEVNULL, stdout=sys.stderr)
    return os.path.join(home, "out", name)


def built(options: argparse.Namespace, folder: str, name: str, deps: str, files: dict[str, str]) -> str:
    """Returns the program that `--bin` names, or else one that is built where `--folder` says, or in this folder."""
    return options.bin or build(os.path.abspath(options.folder or os.path.join(folder, "repository")), name, deps, files)


def batch(rng: random.Random, trace: int) -> bytes:
    """Returns spans of one trace, each the parent of the next."""
    spans = [span(rng, trace, n, n - 1) for n in range(1, IN_BATCH + 1)]
    return wire.batch(rng.choice(SERVICES), spans)


def share(times: list[int], part: float) -> float:
    """Returns the time that this part of the calls did not exceed, in microseconds."""
    ordered = sorted(times)
    return ordered[min(len(ordered) - 1, int(part * len(ordered)))] / 1e3


class Reader(NamedTuple):
    """A reading thread: the nanoseconds that it took, and those of each of its reads."""
    took: int
    reads: list[int]


def measure(program: str, kind: str, timed: int, path: str) -> dict[str, float]:
    """Runs one process, and returns its figures by their names."""
    with open(path, "rb") as stdin:
        run = subprocess.run([program, kind, str(timed)], stdin=stdin, capture_output=True, text=True, check=True)
    admits: list[int] = []
    readers: list[Reader] = []
    for line in run.stdout.splitlines():
        word, took = line.split()
        if word == "admit":
            admits.append(int(took))
        elif word == "reader":
            readers.append(Reader(int(took), []))
        else:
            readers[-1].reads.append(int(took))
    figures = {}
    if admits:
        figures["admits/s"] = len(admits) / sum(admits) * 1e9
        figures["admit p50"], figures["admit p99"] = share(admits, 0.5), share(admits, 0.99)
    reads = [took for it in readers for took in it.reads]
    if reads:
        figures["reads/s"] = sum(len(it.reads) / it.took * 1e9 for it in readers if it.reads)
        figures["read p50"], figures["read p99"] = share(reads, 0.5), share(reads, 0.99)
    return figures


def load() -> str:
    """Returns the load of the last minute."""
    with open("/proc/loadavg") as file:
        return file.read().split()[0]


def rounded(value: float) -> float:
    """Returns a figure with few digits."""
    return round(value) if value >= 100 else round(value, 1 if value >= 2 else 3)


def cell(values: list[float], spread: bool) -> str:
    """Returns the median of the rounds, and with `spread` the minimum and the maximum."""
    if not values:
        return "-"
    shown = [f"{rounded(value):,}" for value in (statistics.median(values), min(values), max(values))]
    return f"{shown[0]} ({shown[1]}..{shown[2]})" if spread else shown[0]


def write_bodies(path: str, size: int, timed: int) -> None:
    """Writes the batches of a size, and after them those that are timed."""
    rng = random.Random(size)
    with open(path, "wb") as file:
        for number in range(size // IN_BATCH + timed):
            body = batch(rng, number + 1)
            file.write(struct.pack(">I", len(body)) + body)


def rounds_of(program: str, path: str, options: argparse.Namespace) -> list[dict[str, dict[str, float]]]:
    """Returns the figures of each round, by kinds and by their names."""
    rounds = [{kind: measure(program, kind, options.timed, path) for kind in KINDS} for _ in range(options.rounds)]
    for one in rounds:
        for kind in KINDS[1:3]:
            one[kind]["of one"] = one[kind]["admits/s"] / one["one"]["admits/s"]
    return rounds


def main() -> None:
    """Prints the rows of each number of spans held."""
    asked = asked_of(__doc__, None)
    asked.add_argument("--bin", help="a program that was built by this script")
    asked.add_argument("--folder", help="where the program is built, and stays")
    asked.add_argument("--sizes", default="1000,10000,100000", help="spans held")
    asked.add_argument("--timed", type=int, default=100, help="batches that are timed")
    asked.add_argument("--rounds", type=int, default=9, help="of which the medians are printed")
    asked.add_argument("--spread", action="store_true", help="the minimum and the maximum of the rounds too")
    options = asked.parse_args()
    columns = ["admits/s", "of one", "admit p50", "admit p99", "reads/s", "read p50", "read p99"]
    record = Record(options, "copies", ["spans held", "who", *columns])
    with tempfile.TemporaryDirectory() as folder:
        program = built(options, folder, "copies_times", DEPS, {"src/main.rt": MAIN, "proofs/timed_copies/Invariants.antt": GHOSTS})
        print(f"load at the start {load()}; times in microseconds; medians of {options.rounds} rounds")
        print("| Spans held | | " + " | ".join(columns) + " |")
        print("|---" * (len(columns) + 2) + "|")
        path = os.path.join(folder, "bodies")
        for size in [int(s) for s in options.sizes.split(",")]:
            write_bodies(path, size, options.timed)
            rounds = rounds_of(program, path, options)
            for kind in KINDS:
                found = [[one[kind][name] for one in rounds if name in one[kind]] for name in columns]
                cells = [cell(values, options.spread) for values in found]
                print(f"| {size:,} | {NAMES[kind]} | " + " | ".join(cells) + " |", flush=True)
                record.row(size, NAMES[kind], *(rounded(statistics.median(values)) if values else None for values in found))
        record.save()
        print(f"load at the end {load()}")


if __name__ == "__main__":
    main()
