//! A plain trace server that breaks one promise on purpose, or none: what `checks/history.py --self-test` has to tell apart.
//! One mutex around one list of batches, threads that each serve one connection at a time. Standard library alone:
//!
//!     rustc --edition 2021 -O -o broken_server checks/broken_server.rs
//!     ./broken_server serve --port 0 --workers 20 --fault lost
//!
//! | Fault | What it does |
//! |---|---|
//! | `none` | nothing |
//! | `lost` | one batch in a thousand is acknowledged and dropped |
//! | `twice` | one batch in a thousand is kept twice |
//! | `half` | one batch in a thousand is kept without its last span |
//! | `refused` | a batch with a byte behind it is refused and kept |
//! | `reordered` | one batch in a thousand is kept behind the next one of its connection |
//! | `stale` | now and then a look stands right in front of the batch that its own connection was acknowledged last |
//! | `swapped` | now and then a look at a trace shows its last two batches in the other order |
//! | `late` | some connections see a batch only when 20 others were taken behind it, however early it was acknowledged |
//!
//! It answers the requests that history.py makes, and of a span it shows the id alone. Options other than `--port`, `--workers`
//! and `--fault` are taken and not looked at.

#[path = "../bench/compare/batch.rs"]
mod batch;
#[path = "../bench/compare/http.rs"]
mod http;

use batch::TraceId;
use http::{envelope, linger, option, Head, Reply, BODY};
use std::collections::{BTreeMap, HashMap};
use std::io::{self, BufRead, BufReader, Read, Write};
use std::net::{TcpListener, TcpStream};
use std::sync::atomic::{AtomicUsize, Ordering};
use std::sync::Mutex;
use std::time::Duration;

const RARELY: usize = 1000;
const NOW_AND_THEN: usize = 50;
const SOME_CONNECTIONS: usize = 8;
const BEHIND: usize = 20;

#[derive(Clone, Copy, PartialEq)]
enum Fault {
    None,
    Lost,
    Twice,
    Half,
    Refused,
    Reordered,
    Stale,
    Swapped,
    Late,
}

// The store. A look stands at a point: it shows the first so many batches.

/// A span, and how many batches were kept before its own.
struct Kept {
    place: usize,
    id: u64,
}

#[derive(Default)]
struct Store {
    taken: usize,
    count: usize,
    traces: HashMap<(u64, u64), Vec<Kept>>,
    /// The operations of each service, each with the place of the first batch that had it.
    services: BTreeMap<String, BTreeMap<String, usize>>,
    /// The trace of each service and operation.
    found: HashMap<(String, String), (u64, u64)>,
}

impl Store {
    /// Keeps a batch; gives back one that has to wait for the next one of its connection.
    fn take(&mut self, mut batch: batch::Batch, fault: Fault) -> Option<batch::Batch> {
        self.taken += 1;
        match fault {
            _ if self.taken % RARELY != 0 => {}
            Fault::Lost => return None,
            Fault::Reordered => return Some(batch),
            Fault::Twice => self.keep(&batch),
            Fault::Half => drop(batch.spans.pop()),
            _ => {}
        }
        self.keep(&batch);
        None
    }

    fn keep(&mut self, batch: &batch::Batch) {
        let place = self.count;
        self.count += 1;
        let service = &batch.process.service;
        for span in &batch.spans {
            let trace = key(span.trace);
            self.traces.entry(trace).or_default().push(Kept { place, id: span.id });
            self.services.entry(service.clone()).or_default().entry(span.operation.clone()).or_insert(place);
            self.found.insert((service.clone(), span.operation.clone()), trace);
        }
    }

    /// The ids of a trace's spans at a point.
    fn trace(&self, trace: (u64, u64), point: usize) -> Vec<u64> {
        let kept = self.traces.get(&trace).map_or(&[][..], Vec::as_slice);
        kept.iter().take_while(|kept| kept.place < point).map(|kept| kept.id).collect()
    }

    fn operations(&self, service: &str, point: usize) -> Vec<&str> {
        let names = self.services.get(service).into_iter().flatten();
        names.filter(|(_, place)| **place < point).map(|(name, _)| name.as_str()).collect()
    }

    fn service_names(&self, point: usize) -> Vec<&str> {
        let names = self.services.keys().map(String::as_str);
        names.filter(|name| !self.operations(name, point).is_empty()).collect()
    }
}

fn key(trace: TraceId) -> (u64, u64) {
    (trace.high, trace.low)
}

/// The last two batches of two spans each change places.
fn swap_last(ids: &mut [u64]) {
    if let [.., a, b, c, d] = ids {
        (*a, *b, *c, *d) = (*c, *d, *a, *b);
    }
}

// Answers.

fn found(items: &[String]) -> Reply {
    Reply::new(200, envelope(&items.join(","), items.len()))
}

fn trace_json(trace: (u64, u64), ids: &[u64]) -> String {
    let spans: Vec<String> = ids.iter().map(|id| format!(r#"{{"spanID":"{id:016x}"}}"#)).collect();
    let (spans, (high, low)) = (spans.join(","), trace);
    let name = if high == 0 { format!("{low:016x}") } else { format!("{high:016x}{low:016x}") };
    format!(r#"{{"processes":{{}},"spans":[{spans}],"traceID":"{name}","warnings":null}}"#)
}

// Requests.

fn bad() -> io::Error {
    io::ErrorKind::InvalidData.into()
}

/// A line without its end; `None` where the input has ended before it.
fn line(input: &mut impl BufRead) -> io::Result<Option<String>> {
    let mut text = String::new();
    if input.take(8192).read_line(&mut text)? == 0 {
        return Ok(None);
    }
    text.strip_suffix("\r\n").map(|text| Some(text.to_owned())).ok_or_else(bad)
}

fn read_body(input: &mut impl BufRead, head: &Head) -> io::Result<Vec<u8>> {
    let mut body = Vec::new();
    if head.chunked {
        while read_chunk(input, &mut body)? {}
        while !line(input)?.ok_or_else(bad)?.is_empty() {}
    } else {
        read_exactly(input, head.length.unwrap_or(0), &mut body)?;
    }
    Ok(body)
}

/// One more chunk; says whether it had data.
fn read_chunk(input: &mut impl BufRead, body: &mut Vec<u8>) -> io::Result<bool> {
    let text = line(input)?.ok_or_else(bad)?;
    let digits = text.split(';').next().unwrap_or("").trim();
    let size = u64::from_str_radix(digits, 16).map_err(|_| bad())?;
    if size > 0 {
        read_exactly(input, size, body)?;
        if line(input)? != Some(String::new()) {
            return Err(bad());
        }
    }
    Ok(size > 0)
}

fn read_exactly(input: &mut impl BufRead, size: u64, body: &mut Vec<u8>) -> io::Result<()> {
    let wanted = body.len() as u64 + size;
    if wanted > BODY || input.take(size).read_to_end(body)? as u64 != size {
        return Err(bad());
    }
    Ok(())
}

// The server.

struct Server {
    listener: TcpListener,
    store: Mutex<Store>,
    fault: Fault,
    connections: AtomicUsize,
    looks: AtomicUsize,
}

/// What a connection was told.
struct Session<'a> {
    server: &'a Server,
    /// How many batches were kept when its last batch was acknowledged.
    acknowledged: usize,
    /// The point of its last look.
    seen: usize,
    late: bool,
    /// A batch that was acknowledged and waits for the next one.
    waits: Option<batch::Batch>,
}

impl Session<'_> {
    /// Where the next look stands.
    fn point(&mut self, count: usize) -> usize {
        let point = match self.server.fault {
            Fault::Stale if self.acknowledged > 0 && self.server.now_and_then() => self.acknowledged - 1,
            Fault::Late if self.late => count.saturating_sub(BEHIND).max(self.acknowledged).max(self.seen),
            _ => count,
        };
        self.seen = point;
        point
    }

    fn answer(&mut self, head: &Head, body: &[u8]) -> Reply {
        let path: Vec<&str> = head.path.split('/').skip(1).collect();
        match (head.method.as_str(), &path[..]) {
            ("POST", ["api", "traces"]) => self.submit(head, body),
            ("GET", ["api", "traces"]) => self.search(head),
            ("GET", ["api", "traces", id]) => self.trace(id),
            ("GET", ["api", "services"]) => self.names(|store, point| store.service_names(point), quoted),
            ("GET", ["api", "services", service, "operations"]) => {
                self.names(|store, point| store.operations(service, point), quoted)
            }
            ("GET", ["api", "operations"]) => {
                self.names(|store, point| store.operations(head.parameter("service").unwrap_or(""), point), operation)
            }
            _ => Reply::fault(404, "no such path"),
        }
    }

    fn submit(&mut self, head: &Head, body: &[u8]) -> Reply {
        if !head.thrift {
            return Reply::fault(415, "unsupported content type");
        }
        let mut store = self.server.store.lock().unwrap();
        let Ok(batch) = batch::decode(body) else {
            let most = &body[..body.len().saturating_sub(1)];
            if let (Fault::Refused, Ok(batch)) = (self.server.fault, batch::decode(most)) {
                store.keep(&batch);
            }
            return Reply::fault(400, "batch refused");
        };
        let earlier = self.waits.take();
        self.waits = store.take(batch, self.server.fault);
        if let Some(earlier) = earlier {
            store.keep(&earlier);
        }
        self.acknowledged = store.count;
        Reply::new(202, String::new())
    }

    fn trace(&mut self, text: &str) -> Reply {
        let Ok(id) = u128::from_str_radix(text, 16) else {
            return Reply::fault(400, "bad parameter: traceID");
        };
        let trace = ((id >> 64) as u64, id as u64);
        let store = self.server.store.lock().unwrap();
        let mut ids = store.trace(trace, self.point(store.count));
        if self.server.fault == Fault::Swapped && self.server.now_and_then() {
            swap_last(&mut ids);
        }
        if ids.is_empty() {
            return Reply::fault(404, "trace not found");
        }
        found(&[trace_json(trace, &ids)])
    }

    fn search(&mut self, head: &Head) -> Reply {
        let store = self.server.store.lock().unwrap();
        let point = self.point(store.count);
        let [service, operation] = ["service", "operation"].map(|name| head.parameter(name).unwrap_or(""));
        let is_there = store.operations(service, point).contains(&operation);
        let trace = store.found.get(&(service.to_owned(), operation.to_owned())).filter(|_| is_there);
        let items: Vec<String> = trace.map(|trace| trace_json(*trace, &store.trace(*trace, point))).into_iter().collect();
        found(&items)
    }

    fn names(&mut self, ask: impl Fn(&Store, usize) -> Vec<&str>, write: fn(&str) -> String) -> Reply {
        let store = self.server.store.lock().unwrap();
        let point = self.point(store.count);
        let items: Vec<String> = ask(&store, point).into_iter().map(write).collect();
        found(&items)
    }
}

impl Drop for Session<'_> {
    fn drop(&mut self) {
        if let Some(batch) = self.waits.take() {
            self.server.store.lock().unwrap().keep(&batch);
        }
    }
}

fn quoted(name: &str) -> String {
    format!("\"{name}\"")
}

fn operation(name: &str) -> String {
    format!(r#"{{"name":"{name}","spanKind":""}}"#)
}

impl Server {
    fn now_and_then(&self) -> bool {
        self.looks.fetch_add(1, Ordering::Relaxed) % NOW_AND_THEN == 0
    }

    /// Requests and responses, until the client ends or a response closes.
    fn serve(&self, stream: &TcpStream) -> io::Result<()> {
        stream.set_nodelay(true)?;
        stream.set_read_timeout(Some(Duration::from_secs(10)))?;
        let mut input = BufReader::with_capacity(65536, stream);
        let late = self.connections.fetch_add(1, Ordering::Relaxed) % SOME_CONNECTIONS == 0;
        let mut session = Session { server: self, acknowledged: 0, seen: 0, late, waits: None };
        loop {
            let reply = match self.request(&mut input) {
                Ok(None) => return Ok(()),
                Ok(Some((head, body))) => {
                    let reply = session.answer(&head, &body);
                    Reply { close: head.close || reply.close, ..reply }
                }
                Err(fault) if fault.kind() == io::ErrorKind::InvalidData => Reply::last(400, "bad request"),
                Err(fault) => return Err(fault),
            };
            let mut text = Vec::new();
            reply.write(&mut text)?;
            (&mut &*stream).write_all(&text)?;
            if reply.close {
                linger(stream);
                return Ok(());
            }
        }
    }

    fn request(&self, input: &mut impl BufRead) -> io::Result<Option<(Head, Vec<u8>)>> {
        let Some(head) = http::read_head(input)? else {
            return Ok(None);
        };
        let head = head.map_err(|_| bad())?;
        let body = read_body(input, &head)?;
        Ok(Some((head, body)))
    }

    fn work(&self) {
        loop {
            if let Ok((stream, _)) = self.listener.accept() {
                let _ = self.serve(&stream);
            }
        }
    }
}

fn fault_named(name: &str) -> Fault {
    match name {
        "none" => Fault::None,
        "lost" => Fault::Lost,
        "twice" => Fault::Twice,
        "half" => Fault::Half,
        "refused" => Fault::Refused,
        "reordered" => Fault::Reordered,
        "stale" => Fault::Stale,
        "swapped" => Fault::Swapped,
        "late" => Fault::Late,
        _ => {
            eprintln!("no such fault: {name}");
            std::process::exit(2);
        }
    }
}

fn main() {
    let words: Vec<String> = std::env::args().collect();
    let fault = fault_named(&option(&words, "--fault", String::from("none")));
    let server = |listener| Server {
        listener,
        store: Mutex::default(),
        fault,
        connections: AtomicUsize::new(0),
        looks: AtomicUsize::new(0),
    };
    http::run(&words, server, Server::work);
}
