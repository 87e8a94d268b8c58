//! What `bench/searches.py` compares `SpanStore::answer` with: the batches of the input in a list, and each question answered by a walk over it.

mod batch;
mod traces;

use batch::{bodies, decode, Batch, Span, Value};
use std::collections::{BTreeMap, HashMap, HashSet};
use std::fmt::Write as _;
use std::io::{self, Read as _};
use std::time::Instant;
use traces::{gathered, latest};

/// What is searched for.
struct Find<'a> {
    service: &'a str,
    operation: &'a str,
    tag: Option<(&'a str, &'a str)>,
    start_min: Option<i64>,
    duration_min: i64,
    limit: usize,
}

/// A span with its service, copied.
#[allow(dead_code)]
struct Shown {
    service: String,
    operation: String,
    trace: (u64, u64),
    id: u64,
    parent: u64,
    start: i64,
    duration: i64,
    tags: Vec<(String, String)>,
}

fn text(value: &Value) -> String {
    match value {
        Value::Text(text) => text.clone(),
        Value::Bool(flag) => flag.to_string(),
        Value::Long(number) => number.to_string(),
        Value::Double(bytes) => bytes.iter().map(|b| format!("{b:02x}")).collect(),
        Value::Bytes(bytes) => bytes.iter().map(|b| format!("{b:02x}")).collect(),
    }
}

fn has_tag(batch: &Batch, span: &Span, key: &str, wanted: &str) -> bool {
    span.tags
        .iter()
        .chain(&batch.process.tags)
        .chain(span.logs.iter().flat_map(|log| &log.fields))
        .any(|tag| tag.key == key && text(&tag.value) == wanted)
}

fn is_match(batch: &Batch, span: &Span, find: &Find) -> bool {
    (find.operation.is_empty() || span.operation == find.operation)
        && (find.duration_min == 0 || span.duration >= find.duration_min)
        && find.start_min.map_or(true, |least| span.start >= least)
        && find.tag.map_or(true, |(key, wanted)| has_tag(batch, span, key, wanted))
}

fn id(span: &Span) -> (u64, u64) {
    (span.trace.high, span.trace.low)
}

fn shown(batch: &Batch, span: &Span) -> Shown {
    Shown {
        service: batch.process.service.clone(),
        operation: span.operation.clone(),
        trace: id(span),
        id: span.id,
        parent: span.parent,
        start: span.start,
        duration: span.duration,
        tags: span.tags.iter().map(|tag| (tag.key.clone(), text(&tag.value))).collect(),
    }
}

/// The traces with a matching span, the latest first start before the others.
fn search(batches: &[Batch], find: &Find) -> Vec<Vec<Shown>> {
    let mut matched = HashSet::new();
    for batch in batches.iter().filter(|batch| batch.process.service == find.service) {
        for span in &batch.spans {
            if is_match(batch, span, find) {
                matched.insert(id(span));
            }
        }
    }
    if matched.is_empty() {
        return Vec::new();
    }
    let spans = batches.iter().flat_map(|batch| batch.spans.iter().map(move |span| (batch, span)));
    let found = gathered(spans.filter(|(_, span)| matched.contains(&id(span))), |(_, span)| id(span));
    let traces = latest(found, |(_, span)| span.start, find.limit);
    traces.iter().map(|spans| spans.iter().map(|(batch, span)| shown(batch, span)).collect()).collect()
}

/// How often a service calls another, over the traces with a start in the window.
fn links(batches: &[Batch], end_ms: i64, lookback_ms: i64) -> BTreeMap<(String, String), u64> {
    let (first, last) = (1000 * (end_ms - lookback_ms), 1000 * end_ms);
    let mut inside = HashSet::new();
    for batch in batches {
        for span in &batch.spans {
            if span.start > first && span.start < last {
                inside.insert(id(span));
            }
        }
    }
    let mut services: HashMap<((u64, u64), u64), &str> = HashMap::new();
    for batch in batches {
        for span in &batch.spans {
            if inside.contains(&id(span)) {
                services.entry((id(span), span.id)).or_insert(&batch.process.service);
            }
        }
    }
    let mut calls = BTreeMap::new();
    for batch in batches {
        for span in &batch.spans {
            if inside.contains(&id(span)) && span.parent != 0 {
                if let Some(parent) = services.get(&(id(span), span.parent)) {
                    if *parent != batch.process.service {
                        *calls.entry((parent.to_string(), batch.process.service.clone())).or_insert(0) += 1;
                    }
                }
            }
        }
    }
    calls
}

/// The traces as JSON.
fn json(traces: &[Vec<Shown>]) -> String {
    let mut out = String::from("{\"data\":[");
    for (place, spans) in traces.iter().enumerate() {
        if place > 0 {
            out.push(',');
        }
        out.push_str("{\"spans\":[");
        for (place, span) in spans.iter().enumerate() {
            if place > 0 {
                out.push(',');
            }
            let _ = write!(out, "{{\"traceID\":\"{:016x}\",\"spanID\":\"{:016x}\",\"parent\":\"{:016x}\"", span.trace.1, span.id, span.parent);
            let _ = write!(out, ",\"operationName\":{:?},\"startTime\":{},\"duration\":{},\"tags\":[", span.operation, span.start, span.duration);
            for (place, (key, value)) in span.tags.iter().enumerate() {
                if place > 0 {
                    out.push(',');
                }
                let _ = write!(out, "{{\"key\":{key:?},\"type\":\"string\",\"value\":{value:?}}}");
            }
            let _ = write!(out, "],\"service\":{:?}}}", span.service);
        }
        out.push_str("]}");
    }
    out.push_str("]}");
    out
}

/// The question of this number; how much was found.
fn asked(batches: &[Batch], number: u32, end_ms: i64) -> usize {
    let mut find = Find { service: "orders", operation: "", tag: None, start_min: None, duration_min: 0, limit: 20 };
    match number {
        0 => find.limit = 1,
        1 | 2 => {}
        3 => find.limit = 0,
        4 => find.service = "rare",
        5 => find.service = "nowhere",
        6 => find.operation = "nothing",
        7 => find.tag = Some(("error", "never")),
        8 => find.duration_min = 4_000_000_000_000_000_000,
        9 => find.start_min = Some(4_000_000_000_000_000_000),
        10 => return links(batches, end_ms, 10_000).len(),
        _ => return links(batches, 4_000_000_000_000, 4_000_000_000_000).len(),
    }
    let found = search(batches, &find);
    if number == 2 {
        assert!(!json(&found).is_empty());
    }
    found.len()
}

fn main() {
    let mut words = std::env::args().skip(1).map(|word| word.parse::<i64>().expect("a number"));
    let (rounds, end_ms) = (words.next().unwrap_or(0), words.next().unwrap_or(0));
    let mut input = Vec::new();
    io::stdin().read_to_end(&mut input).expect("the input is read");
    let batches: Vec<Batch> = bodies(&input).into_iter().map(|body| decode(body).expect("a batch")).collect();
    for number in 0..12 {
        for _ in 0..rounds {
            let begin = Instant::now();
            let size = asked(&batches, number, end_ms);
            println!("{number} {} {size}", begin.elapsed().as_nanos());
        }
    }
}
