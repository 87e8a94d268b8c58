//! Clients for `bench/serve.py`: fills a trace server over HTTP, and then writes and reads at once for a while. Standard
//! library alone, loopback only.
//!
//!     load --port P --fill SPANS --writers N --readers N --seconds S [--held SPANS] [--target T] [--pace N] [--most N] [--pid N]
//!
//! Every batch has 10 spans of a new trace, each with 8 tags. A writer keeps one connection and waits for each 202 before it
//! sends the next batch; a reader keeps one, asks for random traces of the filling by their ids, or `--target` each time, and
//! waits for each answer. `--held` is how many spans a run before this one filled the server with. `--pace` is how many batches
//! a second each writer sends (0: as fast as it can), `--most` how many batches all writers send at most, after which readers
//! end too. With the server's `--pid` one client fills it instead of four, and the line has the most processor time that the server
//! took while a POST of the filling waited. Prints one line of names and numbers. A request that takes 10 seconds, or whose
//! status is another than 202 for a batch and 200 for a trace, ends the program with status 1.

use std::io::{Read, Write};
use std::net::TcpStream;
use std::sync::atomic::{AtomicU64, Ordering};
use std::sync::Barrier;
use std::thread;
use std::time::{Duration, Instant};

const IN_BATCH: u64 = 10;
const FILLERS: u64 = 4;

/// The id of trace `n`: ids as clients draw them, with no order in them.
fn trace(n: u64) -> u64 {
    let mut x = n.wrapping_add(0x9e37_79b9_7f4a_7c15);
    x = (x ^ (x >> 30)).wrapping_mul(0xbf58_476d_1ce4_e5b9);
    x = (x ^ (x >> 27)).wrapping_mul(0x94d0_49bb_1331_11eb);
    (x ^ (x >> 31)) | 1
}

// A batch in the Thrift binary protocol, docs/using.md ("The wire format").

fn field(out: &mut Vec<u8>, code: u8, id: i16) {
    out.push(code);
    out.extend(id.to_be_bytes());
}

fn long(out: &mut Vec<u8>, id: i16, value: u64) {
    field(out, 10, id);
    out.extend(value.to_be_bytes());
}

fn int(out: &mut Vec<u8>, id: i16, value: u32) {
    field(out, 8, id);
    out.extend(value.to_be_bytes());
}

fn text(out: &mut Vec<u8>, id: i16, value: &str) {
    field(out, 11, id);
    out.extend((value.len() as u32).to_be_bytes());
    out.extend(value.as_bytes());
}

fn list(out: &mut Vec<u8>, id: i16, size: u64) {
    field(out, 15, id);
    out.push(12);
    out.extend((size as u32).to_be_bytes());
}

fn tags(out: &mut Vec<u8>) {
    let texts = [
        ("span.kind", "server"),
        ("http.method", "GET"),
        ("http.url", "http://orders.shop.local/orders?customer=81723&page=2"),
        ("component", "net/http"),
        ("peer.service", "catalogue"),
    ];
    list(out, 10, texts.len() as u64 + 3);
    for (key, value) in texts {
        text(out, 1, key);
        int(out, 2, 0);
        text(out, 3, value);
        out.push(0);
    }
    text(out, 1, "sampler.param");
    int(out, 2, 1);
    field(out, 4, 4);
    out.extend(0.25_f64.to_be_bytes());
    out.push(0);
    text(out, 1, "internal");
    int(out, 2, 2);
    field(out, 2, 5);
    out.extend([1, 0]);
    text(out, 1, "http.status_code");
    int(out, 2, 3);
    long(out, 6, 200);
    out.push(0);
}

/// A whole request for a batch, and where the ids of its trace stand in it. Each span is called from the one before and
/// lies within it, so no clock seems to be wrong.
struct Request {
    bytes: Vec<u8>,
    places: Vec<usize>,
}

impl Request {
    fn new(service: &str) -> Self {
        let mut body = Vec::new();
        let mut places = Vec::new();
        field(&mut body, 12, 1);
        text(&mut body, 1, service);
        body.push(0);
        list(&mut body, 2, IN_BATCH);
        for n in 1..=IN_BATCH {
            places.push(body.len() + 3);
            long(&mut body, 1, 0);
            long(&mut body, 2, 0);
            long(&mut body, 3, n);
            long(&mut body, 4, n - 1);
            text(&mut body, 5, ["GET /orders", "SELECT", "publish"][n as usize % 3]);
            int(&mut body, 7, 1);
            long(&mut body, 8, 1_700_000_000_000_000 + 10 * n);
            long(&mut body, 9, 1000 - 20 * n);
            tags(&mut body);
            body.push(0);
        }
        body.push(0);
        let mut bytes = format!(
            "POST /api/traces HTTP/1.1\r\nHost: 127.0.0.1\r\nContent-Type: application/x-thrift\r\nContent-Length: {}\r\n\r\n",
            body.len()
        )
        .into_bytes();
        places.iter_mut().for_each(|place| *place += bytes.len());
        bytes.extend(body);
        Request { bytes, places }
    }

    fn of(&mut self, id: u64) -> &[u8] {
        for &place in &self.places {
            self.bytes[place..place + 8].copy_from_slice(&id.to_be_bytes());
        }
        &self.bytes
    }
}

// A client.

struct Client {
    stream: TcpStream,
    input: Vec<u8>,
}

impl Client {
    fn new(port: u16) -> Self {
        let stream = TcpStream::connect(("127.0.0.1", port)).expect("connects");
        stream.set_nodelay(true).expect("an option is set");
        stream.set_read_timeout(Some(Duration::from_secs(10))).expect("an option is set");
        stream.set_write_timeout(Some(Duration::from_secs(10))).expect("an option is set");
        Client { stream, input: vec![0; 1 << 20] }
    }

    /// One request, and the length of its response's body.
    fn ask(&mut self, request: &[u8], status: &str) -> usize {
        self.stream.write_all(request).expect("the request is written");
        let mut have = 0;
        let mut whole = None;
        while whole.is_none_or(|whole| have < whole) {
            let more = self.stream.read(&mut self.input[have..]).expect("a response comes in time");
            assert!(more > 0, "the server ended the connection");
            have += more;
            if whole.is_none() {
                whole = self.whole(have, status);
            }
        }
        assert!(whole == Some(have), "more than one response");
        let head = self.input.windows(4).position(|w| w == b"\r\n\r\n").expect("a head") + 4;
        have - head
    }

    /// The length of the response at the front, once its head is there.
    fn whole(&self, have: usize, status: &str) -> Option<usize> {
        let head = self.input[..have].windows(4).position(|w| w == b"\r\n\r\n")? + 4;
        let text = std::str::from_utf8(&self.input[..head]).expect("a head is text");
        let mut lines = text.split("\r\n");
        let first = lines.next().expect("a status line");
        assert!(first.split(' ').nth(1) == Some(status), "the status is another than {status}: {first}");
        let length = lines.find_map(|line| {
            let (name, value) = line.split_once(':')?;
            name.eq_ignore_ascii_case("content-length").then(|| value.trim().parse::<usize>().expect("a length"))
        });
        Some(head + length.unwrap_or(0))
    }
}

struct Asked {
    port: u16,
    fill: u64,
    held: u64,
    target: Option<String>,
    writers: u64,
    readers: u64,
    seconds: Duration,
    pace: f64,
    most: u64,
    /// Of the server.
    pid: Option<i32>,
}

/// Batches of new traces, until the time or the number is up; returns the nanoseconds of each, all of which were accepted.
fn write(asked: &Asked, sent: &AtomicU64, from: u64, end: Instant) -> Vec<u64> {
    let mut client = Client::new(asked.port);
    let mut request = Request::new("orders");
    let begin = Instant::now();
    let mut times = Vec::new();
    while sent.fetch_add(1, Ordering::Relaxed) < asked.most {
        let count = times.len() as u64;
        if asked.pace > 0.0 {
            let due = begin + Duration::from_secs_f64(count as f64 / asked.pace);
            thread::sleep(due.min(end).saturating_duration_since(Instant::now()));
        }
        let began = Instant::now();
        if began >= end {
            break;
        }
        client.ask(request.of(trace(from + count)), "202");
        times.push(began.elapsed().as_nanos() as u64);
    }
    times
}

/// The milliseconds within which this part of the sorted times stays.
fn within(times: &[u64], part: f64) -> f64 {
    times.get((times.len() as f64 * part) as usize).map_or(0.0, |ns| *ns as f64 / 1e6)
}

/// The nanoseconds of each read, and the bytes of the last body.
fn read(asked: &Asked, sent: &AtomicU64, seed: u64, end: Instant) -> (Vec<u64>, usize) {
    let mut client = Client::new(asked.port);
    let mut times = Vec::new();
    let mut length = 0;
    let mut state = seed;
    while Instant::now() < end && sent.load(Ordering::Relaxed) < asked.most {
        state = trace(state);
        let target = asked.target.clone().unwrap_or_else(|| {
            let id = trace(state % ((asked.held + asked.fill) / IN_BATCH));
            format!("/api/traces/{id:x}")
        });
        let request = format!("GET {target} HTTP/1.1\r\nHost: 127.0.0.1\r\n\r\n");
        let begin = Instant::now();
        length = client.ask(request.as_bytes(), "200");
        times.push(begin.elapsed().as_nanos() as u64);
    }
    (times, length)
}

/// `struct timespec`.
#[repr(C)]
struct Moment {
    seconds: i64,
    nanoseconds: i64,
}

extern "C" {
    fn clock_getcpuclockid(pid: i32, clock: *mut i32) -> i32;
    fn clock_gettime(clock: i32, moment: *mut Moment) -> i32;
}

/// Counts the processor time of all threads of a process.
#[derive(Clone, Copy)]
struct ProcessorClock(i32);

impl ProcessorClock {
    fn of(pid: i32) -> Self {
        let mut clock = 0;
        assert_eq!(unsafe { clock_getcpuclockid(pid, &mut clock) }, 0, "there is such a process");
        ProcessorClock(clock)
    }

    fn nanoseconds(self) -> u64 {
        let mut moment = Moment { seconds: 0, nanoseconds: 0 };
        assert_eq!(unsafe { clock_gettime(self.0, &mut moment) }, 0, "the process runs");
        moment.seconds as u64 * 1_000_000_000 + moment.nanoseconds as u64
    }
}

/// What a filling took.
struct Filled {
    seconds: f64,
    /// The nanoseconds of the longest POST.
    longest: u64,
    /// The most nanoseconds of processor time that the server took during a POST, 0 if they weren't counted.
    most_used: u64,
}

fn fill(asked: &Asked) -> Filled {
    let begin = Instant::now();
    let batches = asked.fill / IN_BATCH;
    let (longest, most_used) = (AtomicU64::new(0), AtomicU64::new(0));
    let clock = asked.pid.map(ProcessorClock::of);
    let used = || clock.map_or(0, ProcessorClock::nanoseconds);
    let fillers = if clock.is_some() { 1 } else { FILLERS };
    thread::scope(|scope| {
        for filler in 0..fillers {
            let (longest, most_used, used) = (&longest, &most_used, &used);
            scope.spawn(move || {
                let mut client = Client::new(asked.port);
                let mut request = Request::new("orders");
                for n in (filler..batches).step_by(fillers as usize) {
                    let (begin, used_before) = (Instant::now(), used());
                    client.ask(request.of(trace(n)), "202");
                    most_used.fetch_max(used() - used_before, Ordering::Relaxed);
                    longest.fetch_max(begin.elapsed().as_nanos() as u64, Ordering::Relaxed);
                }
            });
        }
    });
    Filled { seconds: begin.elapsed().as_secs_f64(), longest: longest.into_inner(), most_used: most_used.into_inner() }
}

fn main() {
    let words: Vec<String> = std::env::args().collect();
    let option = |name: &str, otherwise: f64| {
        let place = words.iter().position(|word| word == name);
        place.and_then(|place| words.get(place + 1)?.parse().ok()).unwrap_or(otherwise)
    };
    // A thread that fails ends the program at once.
    let usual = std::panic::take_hook();
    std::panic::set_hook(Box::new(move |fault| {
        usual(fault);
        std::process::exit(1);
    }));
    let asked = Asked {
        port: option("--port", 0.0) as u16,
        fill: option("--fill", 1000.0) as u64,
        held: option("--held", 0.0) as u64,
        target: words.iter().position(|word| word == "--target").and_then(|place| words.get(place + 1).cloned()),
        writers: option("--writers", 1.0) as u64,
        readers: option("--readers", 0.0) as u64,
        seconds: Duration::from_secs_f64(option("--seconds", 1.0)),
        pace: option("--pace", 0.0),
        most: option("--most", 50_000.0) as u64,
        pid: words.iter().position(|word| word == "--pid").and_then(|place| words.get(place + 1)?.parse().ok()),
    };
    let filled = fill(&asked);
    let start = Barrier::new((asked.writers + asked.readers) as usize);
    let sent = AtomicU64::new(0);
    let begin = Instant::now();
    let (mut posts, last, mut times, length) = thread::scope(|scope| {
        let (asked, start, sent) = (&asked, &start, &sent);
        let writers: Vec<_> = (0..asked.writers)
            .map(|n| {
                scope.spawn(move || {
                    start.wait();
                    let times = write(asked, sent, (n + 1) << 40, Instant::now() + asked.seconds);
                    (times, Instant::now())
                })
            })
            .collect();
        let readers: Vec<_> = (0..asked.readers)
            .map(|n| {
                scope.spawn(move || {
                    start.wait();
                    read(asked, sent, n, Instant::now() + asked.seconds)
                })
            })
            .collect();
        let (mut posts, mut last) = (Vec::new(), begin);
        for writer in writers {
            let (more, end) = writer.join().expect("a writer ends");
            posts.extend(more);
            last = end.max(last);
        }
        let (mut times, mut length) = (Vec::new(), 0);
        for reader in readers {
            let (more, last) = reader.join().expect("a reader ends");
            times.extend(more);
            length = last;
        }
        (posts, last, times, length)
    });
    times.sort_unstable();
    posts.sort_unstable();
    let seconds = (last - begin).as_secs_f64().max(1e-9);
    let spans = posts.len() as u64 * IN_BATCH;
    println!(
        "fill_seconds {:.4} fill_longest {:.4} fill_most_used {:.4} spans {spans} seconds {seconds:.4} rate {:.0} reads {} p50 {:.4} p99 {:.4} worst {:.4} bytes {length} posts_p50 {:.4} posts_p99 {:.4}",
        filled.seconds,
        filled.longest as f64 / 1e6,
        filled.most_used as f64 / 1e6,
        spans as f64 / seconds,
        times.len(),
        within(&times, 0.5),
        within(&times, 0.99),
        times.last().map_or(0.0, |ns| *ns as f64 / 1e6),
        within(&posts, 0.5),
        within(&posts, 0.99),
    );
}
