//! What the plain servers share, `bench/plain_server.rs` and `checks/broken_server.rs`: heads of requests, responses, options, and
//! threads on a port.

use std::fmt::Write as _;
use std::io::{self, BufRead, Read, Write};
use std::net::{IpAddr, Ipv4Addr, Shutdown, SocketAddr, TcpListener, TcpStream};
use std::str::FromStr;
use std::sync::Arc;
use std::time::{Duration, Instant};

const HEAD: u64 = 8192;
pub const BODY: u64 = 4_194_304;

pub struct Head {
    pub method: String,
    pub path: String,
    pub query: String,
    pub length: Option<u64>,
    pub chunked: bool,
    pub thrift: bool,
    pub close: bool,
}

impl Head {
    pub fn parameter(&self, name: &str) -> Option<&str> {
        self.query.split('&').find_map(|pair| pair.strip_prefix(name)?.strip_prefix('='))
    }

    fn read_field(&mut self, name: &str, value: &str) -> Result<(), &'static str> {
        match name {
            "content-length" => self.length = Some(value.parse().map_err(|_| "bad request body")?),
            "transfer-encoding" => self.chunked = true,
            "content-type" => {
                let kind = value.split(';').next().unwrap().trim().to_ascii_lowercase();
                self.thrift = matches!(kind.as_str(), "application/x-thrift" | "application/vnd.apache.thrift.binary");
            }
            "connection" => self.close |= value.split(',').any(|word| word.trim().eq_ignore_ascii_case("close")),
            _ => {}
        }
        Ok(())
    }
}

/// The lines of a head; `None` where the input ended before it.
fn head_lines(input: &mut impl BufRead) -> io::Result<Option<Vec<String>>> {
    let mut input = input.take(HEAD);
    let mut lines = Vec::new();
    loop {
        let mut line = String::new();
        if input.read_line(&mut line)? == 0 && lines.is_empty() {
            return Ok(None);
        }
        if line.pop() != Some('\n') {
            return Err(io::ErrorKind::InvalidData.into());
        }
        if line.ends_with('\r') {
            line.pop();
        }
        match (line.is_empty(), lines.is_empty()) {
            (true, true) => continue,
            (true, false) => return Ok(Some(lines)),
            _ => lines.push(line),
        }
    }
}

/// The head of those lines, or what is wrong with it.
fn head_of(lines: &[String]) -> Result<Head, &'static str> {
    let bad = "bad request head";
    let mut words = lines[0].split(' ');
    let (Some(method), Some(path), Some(version), None) = (words.next(), words.next(), words.next(), words.next()) else {
        return Err(bad);
    };
    if !matches!(version, "HTTP/1.0" | "HTTP/1.1") || method.is_empty() || path.is_empty() {
        return Err(bad);
    }
    let (path, query) = path.split_once('?').unwrap_or((path, ""));
    let (method, path, query) = (method.to_owned(), path.to_owned(), query.to_owned());
    let close = version == "HTTP/1.0";
    let mut head = Head { method, path, query, length: None, chunked: false, thrift: false, close };
    for line in &lines[1..] {
        let (name, value) = line.split_once(':').ok_or(bad)?;
        head.read_field(&name.to_ascii_lowercase(), value.trim())?;
    }
    Ok(head)
}

/// The next head, or what is wrong with it; `None` where the input ended before it.
pub fn read_head(input: &mut impl BufRead) -> io::Result<Option<Result<Head, &'static str>>> {
    match head_lines(input) {
        Ok(lines) => Ok(lines.map(|lines| head_of(&lines))),
        Err(fault) if fault.kind() == io::ErrorKind::InvalidData => Ok(Some(Err("bad request head"))),
        Err(fault) => Err(fault),
    }
}

/// The body of an answer.
pub fn envelope(items: &str, total: usize) -> String {
    format!(r#"{{"data":[{items}],"errors":null,"limit":0,"offset":0,"total":{total}}}"#)
}

/// The body of an answer that says what is wrong.
fn fault(status: u16, text: &str) -> String {
    format!(r#"{{"data":null,"errors":[{{"code":{status},"msg":"{text}"}}],"limit":0,"offset":0,"total":0}}"#)
}

/// A response: its status, its body and what its head says beside.
pub struct Reply {
    pub status: u16,
    pub body: String,
    pub allow: &'static str,
    pub close: bool,
}

impl Reply {
    pub fn new(status: u16, body: String) -> Self {
        Reply { status, body, allow: "", close: false }
    }

    pub fn fault(status: u16, text: &str) -> Self {
        Reply::new(status, fault(status, text))
    }

    /// The same, behind which the connection is closed.
    pub fn last(status: u16, text: &str) -> Self {
        Reply { close: true, ..Reply::fault(status, text) }
    }

    pub fn write(&self, output: &mut impl Write) -> io::Result<()> {
        let reason = match self.status {
            200 => "OK",
            202 => "Accepted",
            400 => "Bad Request",
            404 => "Not Found",
            405 => "Method Not Allowed",
            413 => "Content Too Large",
            _ => "Unsupported Media Type",
        };
        let mut text = String::with_capacity(self.body.len() + 200);
        write!(text, "HTTP/1.1 {} {reason}\r\n", self.status).unwrap();
        if !self.body.is_empty() {
            text.push_str("Content-Type: application/json\r\n");
        }
        write!(text, "Content-Length: {}\r\n", self.body.len()).unwrap();
        if !self.allow.is_empty() {
            write!(text, "Allow: {}\r\n", self.allow).unwrap();
        }
        text.push_str(if self.close { "Connection: close\r\n\r\n" } else { "\r\n" });
        text.push_str(&self.body);
        output.write_all(text.as_bytes())
    }
}

/// What the client still sends is read and dropped for a while, so that it sees the last response and no reset.
pub fn linger(stream: &TcpStream) {
    let end = Instant::now() + Duration::from_secs(2);
    let _ = stream.shutdown(Shutdown::Write);
    let _ = stream.set_read_timeout(Some(Duration::from_secs(1)));
    let mut rest = [0; 65536];
    let mut input = stream;
    while Instant::now() < end && matches!(input.read(&mut rest), Ok(1..)) {}
}

/// The word behind the option, or this one.
pub fn option<T: FromStr>(words: &[String], name: &str, otherwise: T) -> T {
    let place = words.iter().position(|word| word == name);
    place.and_then(|place| words.get(place + 1)?.parse().ok()).unwrap_or(otherwise)
}

/// Listens on the `--port` of the `--host`, and says where, and whether other machines reach it.
fn listen(words: &[String]) -> TcpListener {
    let host = option(words, "--host", IpAddr::V4(Ipv4Addr::LOCALHOST));
    let address = SocketAddr::new(host, option(words, "--port", 0));
    let listener = TcpListener::bind(address).unwrap_or_else(|fault| {
        println!("cannot listen on {address}: {fault}");
        std::process::exit(4);
    });
    println!("listening {}", listener.local_addr().unwrap());
    match host {
        _ if host.is_loopback() => {}
        IpAddr::V4(host) => eprintln!("{host} takes connections from other machines"),
        IpAddr::V6(host) => eprintln!("[{host}] takes connections from other machines"),
    }
    listener
}

/// Listens, and has `--workers` threads work for the server that is made of that.
pub fn run<S: Send + Sync + 'static>(words: &[String], server: impl FnOnce(TcpListener) -> S, work: fn(&S)) {
    let listener = listen(words);
    let server = Arc::new(server(listener));
    let workers: Vec<_> = (0..option(words, "--workers", 4))
        .map(|_| {
            let server = server.clone();
            std::thread::spawn(move || work(&server))
        })
        .collect();
    for worker in workers {
        worker.join().unwrap();
    }
}
