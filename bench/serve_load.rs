//! The client of `serve.sh`: asks a server over loopback from several threads, and tells how many requests a second
//! were answered and how long they took. It speaks to no other address. The standard library alone.
//!
//!     rustc --edition 2024 -C opt-level=3 serve_load.rs
//!     serve_load ports COUNT                  prints so many addresses whose ports are free now
//!     serve_load replies LISTEN TARGETS       prints the body of the reply to each target, one a line
//!     serve_load stop CONTROL                 stops the server
//!     serve_load load LISTEN CLIENTS keep|new SECONDS TARGETS [CONTROL SPEEDS MILLISECONDS]
//!
//! TARGETS is a file of one target a line. `load` prints, parted by blanks: requests a second; the median, the 99 %
//! mark and the most of the milliseconds from a request to the end of its reply; requests that failed; publications;
//! and the median of the milliseconds that a publication took. With `keep` a client sends request after request over
//! one connection and makes the next when the server closes it; with `new` it makes a connection for each, which
//! counts in. With CONTROL the rows of the file SPEEDS are published every so many milliseconds meanwhile.
//! It ends after SECONDS (at most 60) or LIMIT requests, and gives up after 10 seconds without a byte.

use std::io::{Error, ErrorKind, Read, Result, Write};
use std::net::{SocketAddr, TcpListener, TcpStream};
use std::sync::atomic::{AtomicBool, AtomicUsize, Ordering};
use std::time::{Duration, Instant};

/// How many requests a run sends at most: connections leave their ports taken for a minute.
const LIMIT: usize = 2_000_000;
const LIMIT_NEW: usize = 10_000;
const PATIENCE: Duration = Duration::from_secs(10);

fn loopback(text: &str) -> SocketAddr {
    let address: SocketAddr = text.parse().expect("an address");
    assert!(address.ip().is_loopback(), "{address} is no loopback address");
    address
}

fn broken(what: &str) -> Error {
    Error::new(ErrorKind::InvalidData, what)
}

struct Reply {
    body: Vec<u8>,
    close: bool,
}

struct Connection {
    stream: TcpStream,
    unread: Vec<u8>,
}

impl Connection {
    fn to(address: SocketAddr) -> Result<Connection> {
        let stream = TcpStream::connect_timeout(&address, PATIENCE)?;
        stream.set_read_timeout(Some(PATIENCE))?;
        stream.set_write_timeout(Some(PATIENCE))?;
        stream.set_nodelay(true)?;
        Ok(Connection { stream, unread: Vec::new() })
    }

    fn more(&mut self) -> Result<()> {
        let mut piece = [0; 16384];
        match self.stream.read(&mut piece)? {
            0 => Err(broken("the reply is cut short")),
            count => {
                self.unread.extend_from_slice(&piece[..count]);
                Ok(())
            }
        }
    }

    fn reply(&mut self) -> Result<Reply> {
        let end = loop {
            match self.unread.windows(4).position(|four| four == b"\r\n\r\n") {
                Some(at) => break at + 4,
                None => self.more()?,
            }
        };
        let head = String::from_utf8_lossy(&self.unread[..end]).to_ascii_lowercase();
        let field = |name: &str| head.split("\r\n").find_map(|line| line.strip_prefix(name)).map(str::trim);
        let length: usize = field("content-length:").and_then(|text| text.parse().ok()).ok_or_else(|| broken("no length"))?;
        let close = field("connection:") == Some("close");
        while self.unread.len() < end + length {
            self.more()?;
        }
        let rest = self.unread.split_off(end + length);
        let mut body = std::mem::replace(&mut self.unread, rest);
        body.drain(..end);
        Ok(Reply { body, close })
    }

    fn ask(&mut self, target: &str, close: bool) -> Result<Reply> {
        let option = if close { "Connection: close\r\n" } else { "" };
        let request = format!("GET {target} HTTP/1.1\r\nHost: localhost\r\n{option}\r\n");
        self.stream.write_all(request.as_bytes())?;
        self.reply()
    }

    fn post(&mut self, target: &str, body: &[u8]) -> Result<Reply> {
        let mut request = format!("POST {target} HTTP/1.1\r\nHost: localhost\r\nContent-Length: {}\r\n\r\n", body.len()).into_bytes();
        request.extend_from_slice(body);
        self.stream.write_all(&request)?;
        self.reply()
    }
}

/// Asks over the connection that is kept, or over a new one.
fn asked(kept: &mut Option<Connection>, address: SocketAddr, target: &str, close: bool) -> Result<Reply> {
    let mut connection = match kept.take() {
        Some(connection) => connection,
        None => Connection::to(address)?,
    };
    let reply = connection.ask(target, close)?;
    if !reply.close {
        *kept = Some(connection);
    }
    Ok(reply)
}

/// One client: the milliseconds of each request that was answered, and how many failed.
fn client(address: SocketAddr, close: bool, targets: &[String], first: usize, end: Instant, left: &AtomicUsize) -> (Vec<f64>, usize) {
    let (mut times, mut failed, mut kept) = (Vec::new(), 0, None);
    for turn in 0.. {
        let spent = left.fetch_update(Ordering::SeqCst, Ordering::SeqCst, |count| count.checked_sub(1)).is_err();
        if spent || failed > 20 || Instant::now() >= end {
            break;
        }
        let start = Instant::now();
        match asked(&mut kept, address, &targets[(first + turn) % targets.len()], close) {
            Ok(_) => times.push(start.elapsed().as_secs_f64() * 1000.0),
            Err(_) => failed += 1,
        }
    }
    (times, failed)
}

/// Publishes the rows again and again: the milliseconds of each publication.
fn publish(address: SocketAddr, speeds: &[u8], pause: Duration, ended: &AtomicBool) -> Vec<f64> {
    let target = format!("/control/v1/metric?speeds={}", speeds.len());
    let (mut times, mut kept): (Vec<f64>, Option<Connection>) = (Vec::new(), None);
    let mut next = Instant::now();
    while !ended.load(Ordering::SeqCst) {
        let start = Instant::now();
        let connection = kept.take().map_or_else(|| Connection::to(address), Ok);
        let replied = connection.and_then(|mut connection| {
            let reply = connection.post(&target, speeds)?;
            Ok((connection, reply))
        });
        let (connection, reply) = replied.expect("the control port answers");
        assert!(reply.body.starts_with(b"{\"code\":\"Ok\""), "{}", String::from_utf8_lossy(&reply.body));
        times.push(start.elapsed().as_secs_f64() * 1000.0);
        if !reply.close {
            kept = Some(connection);
        }
        next += pause;
        std::thread::sleep(next.saturating_duration_since(Instant::now()));
    }
    times
}

fn mark(times: &[f64], part: f64) -> f64 {
    let last = times.len().saturating_sub(1);
    times.get((last as f64 * part).round() as usize).copied().unwrap_or(f64::NAN)
}

fn load(words: &[String]) {
    let [listen, clients, connections, seconds, targets, more @ ..] = words else {
        panic!("usage: serve_load load LISTEN CLIENTS keep|new SECONDS TARGETS [CONTROL SPEEDS MILLISECONDS]");
    };
    let (address, close) = (loopback(listen), connections == "new");
    let clients = clients.parse::<usize>().expect("clients").min(256);
    let seconds = seconds.parse::<f64>().expect("seconds").min(60.0);
    let targets = lines_of(targets);
    let left = AtomicUsize::new(if close { LIMIT_NEW } else { LIMIT });
    let ended = AtomicBool::new(false);
    let start = Instant::now();
    let end = start + Duration::from_secs_f64(seconds);
    let (mut times, mut failed, mut spent, mut published) = (Vec::new(), 0, 0.0, Vec::new());
    std::thread::scope(|scope| {
        let publishing = if let [control, speeds, pause] = more {
            let (control, speeds) = (loopback(control), std::fs::read(speeds).expect("speeds"));
            let pause = Duration::from_millis(pause.parse().expect("milliseconds"));
            let ended = &ended;
            Some(scope.spawn(move || publish(control, &speeds, pause, ended)))
        } else {
            None
        };
        let run = |number: usize| {
            let (targets, left) = (&targets, &left);
            scope.spawn(move || client(address, close, targets, number * targets.len() / clients, end, left))
        };
        let running: Vec<_> = (0..clients).map(run).collect();
        for thread in running {
            let (mut own, missed) = thread.join().expect("a client");
            times.append(&mut own);
            failed += missed;
        }
        spent = start.elapsed().as_secs_f64();
        ended.store(true, Ordering::SeqCst);
        if let Some(thread) = publishing {
            published = thread.join().expect("publishing");
        }
    });
    times.sort_by(f64::total_cmp);
    published.sort_by(f64::total_cmp);
    println!(
        "{:.0} {:.3} {:.3} {:.3} {failed} {} {:.3}",
        times.len() as f64 / spent,
        mark(&times, 0.5),
        mark(&times, 0.99),
        mark(&times, 1.0),
        published.len(),
        mark(&published, 0.5)
    );
}

fn lines_of(name: &str) -> Vec<String> {
    let text = std::fs::read_to_string(name).expect("targets");
    let lines: Vec<String> = text.lines().map(str::to_string).collect();
    assert!(!lines.is_empty(), "no targets");
    lines
}

fn replies(listen: &str, targets: &str) {
    let mut kept = None;
    for target in lines_of(targets) {
        let reply = asked(&mut kept, loopback(listen), &target, false).expect("a reply");
        println!("{}", String::from_utf8_lossy(&reply.body));
    }
}

fn main() {
    let words: Vec<String> = std::env::args().skip(1).collect();
    match words.iter().map(String::as_str).collect::<Vec<_>>().as_slice() {
        ["ports", count] => {
            let count: usize = count.parse().expect("a count");
            let held: Vec<_> = (0..count).map(|_| TcpListener::bind("127.0.0.1:0").expect("a port")).collect();
            held.iter().for_each(|listener| println!("{}", listener.local_addr().expect("an address")));
        }
        ["replies", listen, targets] => replies(listen, targets),
        ["stop", control] => {
            let reply = Connection::to(loopback(control)).and_then(|mut connection| connection.post("/control/v1/stop", b""));
            println!("{}", String::from_utf8_lossy(&reply.expect("a reply").body));
        }
        ["load", ..] => load(&words[1..]),
        _ => panic!("usage: serve_load ports|replies|stop|load .."),
    }
}
