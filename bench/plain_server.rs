//! A plain scanning trace server: what `bench/serve.py` compares `jaeger_one serve` with. One mutex around one list of
//! spans, threads that each serve one connection at a time, no index and no proofs. Standard library alone:
//!
//!     rustc --edition 2021 -O -o plain_server bench/plain_server.rs
//!     ./plain_server serve --port 0 --workers 4
//!
//! It takes `POST /api/traces`, and answers `GET /api/traces/{id}`, `GET /api/traces?service=..&limit=..` (these two parameters
//! alone) and `GET /api/services` with the bytes of docs/using.md ("Query"): the parent's reference in front, clock skew corrected
//! up to `--max-skew`. Options: `--host`, `--port`, `--workers`, `--idle`, `--sessions`, `--max-skew` as `serve` has them. The other
//! options of `serve` are taken and not looked at: it has no limits.

#[path = "compare/batch.rs"]
mod batch;
#[path = "compare/http.rs"]
mod http;
#[path = "compare/skew.rs"]
mod skew;
#[path = "compare/traces.rs"]
mod traces;

use batch::{Process, RefKind, Span, SpanRef, Tag, TraceId, Value};
use http::{envelope, linger, option, Head, Reply, BODY};
use skew::{adjusted, Shown};
use std::collections::BTreeSet;
use std::fmt::Write as _;
use std::io::{self, BufReader, Read};
use std::net::{TcpListener, TcpStream};
use std::sync::atomic::{AtomicUsize, Ordering};
use std::sync::{Arc, Mutex};
use std::time::Duration;
use traces::{gathered, latest};

pub struct Held {
    pub span: Span,
    pub process: Arc<Process>,
}

struct Server {
    listener: TcpListener,
    spans: Mutex<Vec<Held>>,
    max_skew: u64,
    idle: Option<Duration>,
    sessions: usize,
    served: AtomicUsize,
}

// The store: what is asked under the lock.

impl Server {
    /// A batch is kept; a parent that is not 0 becomes a reference in front, unless one to it is there.
    fn keep(&self, batch: batch::Batch) {
        let process = Arc::new(batch.process);
        let mut held: Vec<Held> = batch.spans.into_iter().map(|span| Held { span, process: process.clone() }).collect();
        for Held { span, .. } in &mut held {
            let known = span.references.iter().any(|r| r.trace == span.trace && r.id == span.parent);
            if span.parent != 0 && !known {
                span.references.insert(0, SpanRef { kind: RefKind::ChildOf, trace: span.trace, id: span.parent });
            }
        }
        self.spans.lock().unwrap().append(&mut held);
    }

    /// The spans of a trace, found by a look at every span.
    fn trace(&self, id: TraceId) -> Option<String> {
        let spans = self.spans.lock().unwrap();
        let found: Vec<&Held> = spans.iter().filter(|held| held.span.trace == id).collect();
        if found.is_empty() {
            return None;
        }
        let mut data = String::with_capacity(1024 * found.len());
        write_trace(&mut data, &adjusted(&found, self.max_skew));
        Some(envelope(&data, 1))
    }

    /// The traces of a service, the latest first start in front, so many at most where that isn't 0.
    fn search(&self, service: &str, limit: usize) -> String {
        let spans = self.spans.lock().unwrap();
        let mut found = gathered(spans.iter(), |held| held.span.trace);
        found.retain(|trace| trace.iter().any(|held| held.process.service == service));
        let found = latest(found, |held| held.span.start, limit);
        let mut data = String::with_capacity(1024 * found.len());
        list(&mut data, &found, |out, trace| write_trace(out, &adjusted(trace, self.max_skew)));
        envelope(&data[1..data.len() - 1], found.len())
    }

    fn services(&self) -> String {
        let spans = self.spans.lock().unwrap();
        let names: BTreeSet<&str> = spans.iter().map(|held| held.process.service.as_str()).collect();
        let mut data = String::new();
        list(&mut data, &names, |out, name| write_text(out, name));
        envelope(&data[1..data.len() - 1], names.len())
    }
}

// JSON.

fn list<T>(out: &mut String, items: impl IntoIterator<Item = T>, write: impl Fn(&mut String, T)) {
    out.push('[');
    for (place, item) in items.into_iter().enumerate() {
        if place > 0 {
            out.push(',');
        }
        write(out, item);
    }
    out.push(']');
}

fn write_text(out: &mut String, text: &str) {
    out.push('"');
    for c in text.chars() {
        match c {
            '"' => out.push_str("\\\""),
            '\\' => out.push_str("\\\\"),
            '\u{8}' => out.push_str("\\b"),
            '\u{c}' => out.push_str("\\f"),
            '\n' => out.push_str("\\n"),
            '\r' => out.push_str("\\r"),
            '\t' => out.push_str("\\t"),
            c if c < ' ' => write!(out, "\\u{:04x}", c as u32).unwrap(),
            c => out.push(c),
        }
    }
    out.push('"');
}

fn write_hex(out: &mut String, bytes: &[u8]) {
    out.push('"');
    for byte in bytes {
        write!(out, "{byte:02x}").unwrap();
    }
    out.push('"');
}

fn write_trace_id(out: &mut String, id: TraceId) {
    if id.high != 0 {
        write!(out, "\"{:016x}{:016x}\"", id.high, id.low).unwrap();
    } else {
        write!(out, "\"{:016x}\"", id.low).unwrap();
    }
}

fn write_tag(out: &mut String, tag: &Tag) {
    out.push_str("{\"key\":");
    write_text(out, &tag.key);
    out.push_str(",\"type\":");
    match &tag.value {
        Value::Text(text) => {
            out.push_str("\"string\",\"value\":");
            write_text(out, text);
        }
        Value::Double(bytes) => {
            out.push_str("\"float64\",\"value\":");
            write_hex(out, bytes);
        }
        Value::Bool(value) => write!(out, "\"bool\",\"value\":{value}").unwrap(),
        Value::Long(value) => write!(out, "\"int64\",\"value\":{value}").unwrap(),
        Value::Bytes(bytes) => {
            out.push_str("\"binary\",\"value\":");
            write_hex(out, bytes);
        }
    }
    out.push('}');
}

fn write_reference(out: &mut String, reference: &SpanRef) {
    let kind = match reference.kind {
        RefKind::ChildOf => "CHILD_OF",
        RefKind::FollowsFrom => "FOLLOWS_FROM",
    };
    write!(out, "{{\"refType\":\"{kind}\",\"spanID\":\"{:016x}\",\"traceID\":", reference.id).unwrap();
    write_trace_id(out, reference.trace);
    out.push('}');
}

/// The references, the parent's changed with the one in front.
fn shown(span: &Span) -> Vec<&SpanRef> {
    let mut references: Vec<&SpanRef> = span.references.iter().collect();
    let own = |r: &&SpanRef| r.trace == span.trace;
    let child = references.iter().position(|r| own(r) && r.kind == RefKind::ChildOf);
    if let Some(place) = child.or_else(|| references.iter().position(own)) {
        references.swap(0, place);
    }
    references
}

fn write_span(out: &mut String, shown_span: &Shown, process: usize) {
    let span = &shown_span.held.span;
    write!(out, "{{\"duration\":{},\"flags\":{},\"logs\":", span.duration, span.flags as u32).unwrap();
    list(out, &span.logs, |out, log| {
        out.push_str("{\"fields\":");
        list(out, &log.fields, write_tag);
        write!(out, ",\"timestamp\":{}}}", log.at + shown_span.moved).unwrap();
    });
    out.push_str(",\"operationName\":");
    write_text(out, &span.operation);
    write!(out, ",\"processID\":\"p{process}\",\"references\":").unwrap();
    list(out, shown(span), write_reference);
    write!(out, ",\"spanID\":\"{:016x}\",\"startTime\":{},\"tags\":", span.id, span.start + shown_span.moved).unwrap();
    list(out, &span.tags, write_tag);
    out.push_str(",\"traceID\":");
    write_trace_id(out, span.trace);
    out.push_str(",\"warnings\":");
    match &shown_span.warning {
        Some(warning) => list(out, [warning], |out, warning| write_text(out, warning)),
        None => out.push_str("null"),
    }
    out.push('}');
}

fn write_trace(out: &mut String, spans: &[Shown]) {
    let mut processes: Vec<&Arc<Process>> = Vec::new();
    let mut numbers = Vec::new();
    for Shown { held, .. } in spans {
        let same = |known: &&Arc<Process>| Arc::ptr_eq(known, &held.process) || ***known == *held.process;
        let place = processes.iter().position(same).unwrap_or_else(|| {
            processes.push(&held.process);
            processes.len() - 1
        });
        numbers.push(place + 1);
    }
    let mut named: Vec<(String, &Arc<Process>)> =
        processes.into_iter().enumerate().map(|(place, process)| (format!("p{}", place + 1), process)).collect();
    named.sort_by(|a, b| a.0.cmp(&b.0));
    out.push_str("{\"processes\":{");
    for (place, (name, process)) in named.iter().enumerate() {
        let comma = if place > 0 { "," } else { "" };
        write!(out, "{comma}\"{name}\":{{\"serviceName\":").unwrap();
        write_text(out, &process.service);
        out.push_str(",\"tags\":");
        list(out, &process.tags, write_tag);
        out.push('}');
    }
    out.push_str("},\"spans\":");
    list(out, spans.iter().zip(numbers), |out, (span, number)| write_span(out, span, number));
    out.push_str(",\"traceID\":");
    write_trace_id(out, spans[0].held.span.trace);
    out.push_str(",\"warnings\":null}");
}

// HTTP.

fn trace_id(text: &str) -> Option<TraceId> {
    if text.len() > 32 || text.starts_with('+') {
        return None;
    }
    let id = u128::from_str_radix(text, 16).ok()?;
    Some(TraceId { high: (id >> 64) as u64, low: id as u64 })
}

impl Server {
    fn answer(&self, head: &Head, body: &[u8]) -> Reply {
        let not_allowed = |allow| Reply { allow, ..Reply::last(405, "method not allowed") };
        if head.path == "/api/traces" {
            return match (head.method.as_str(), head.thrift) {
                ("POST", true) => match batch::decode(body) {
                    Ok(batch) => {
                        self.keep(batch);
                        Reply::new(202, String::new())
                    }
                    Err(_) => Reply::fault(400, "batch refused"),
                },
                ("POST", false) => Reply::fault(415, "unsupported content type"),
                ("GET", _) => {
                    let limit = head.parameter("limit").map_or(Ok(20), str::parse);
                    match (head.parameter("service"), limit) {
                        (Some(service), Ok(limit)) => Reply::new(200, self.search(service, limit)),
                        _ => Reply::fault(400, "bad parameter: service"),
                    }
                }
                _ => not_allowed("GET, POST"),
            };
        }
        let id = head.path.strip_prefix("/api/traces/").filter(|id| !id.is_empty() && !id.contains('/'));
        match (id, head.path.as_str(), head.method.as_str()) {
            (Some(id), _, "GET") => match trace_id(id) {
                Some(id) => self.trace(id).map_or_else(|| Reply::fault(404, "trace not found"), |body| Reply::new(200, body)),
                None => Reply::fault(400, "bad parameter: traceID"),
            },
            (None, "/api/services", "GET") => Reply::new(200, self.services()),
            (Some(_), _, _) | (_, "/api/services", _) => not_allowed("GET"),
            _ => Reply::fault(404, "no such path"),
        }
    }

    /// Requests and responses, until the client ends or a response closes; returns whether a response did.
    fn session(&self, stream: &TcpStream) -> io::Result<bool> {
        stream.set_nodelay(true)?;
        stream.set_read_timeout(self.idle)?;
        let mut input = BufReader::with_capacity(65536, stream);
        let mut output = stream;
        let mut body = Vec::new();
        loop {
            let Some(head) = http::read_head(&mut input)? else {
                return Ok(false);
            };
            let length = head.as_ref().ok().and_then(|head| head.length).unwrap_or(0);
            let mut reply = match &head {
                Err(text) => Reply::last(400, text),
                Ok(head) if head.chunked => Reply::last(400, "bad request body"),
                Ok(_) if length > BODY => Reply::last(413, "body too large"),
                Ok(head) => {
                    body.clear();
                    (&mut input).take(length).read_to_end(&mut body)?;
                    if body.len() as u64 == length {
                        self.answer(head, &body)
                    } else {
                        Reply::last(400, "bad request body")
                    }
                }
            };
            reply.close |= head.is_ok_and(|head| head.close);
            reply.write(&mut output)?;
            if reply.close {
                return Ok(true);
            }
        }
    }

    fn work(&self) {
        loop {
            let Ok((stream, _)) = self.listener.accept() else {
                continue;
            };
            if let Ok(true) = self.session(&stream) {
                linger(&stream);
            }
            drop(stream);
            if self.served.fetch_add(1, Ordering::SeqCst) + 1 == self.sessions {
                println!("served {}", self.sessions);
                std::process::exit(0);
            }
        }
    }
}

fn main() {
    let words: Vec<String> = std::env::args().collect();
    let idle = option(&words, "--idle", 300);
    let server = |listener| Server {
        listener,
        spans: Mutex::new(Vec::new()),
        max_skew: option(&words, "--max-skew", 0),
        idle: (idle > 0).then(|| Duration::from_secs(idle)),
        sessions: option(&words, "--sessions", 0),
        served: AtomicUsize::new(0),
    };
    http::run(&words, server, Server::work);
}
