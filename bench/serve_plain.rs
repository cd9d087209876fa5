//! The baseline over HTTP, as one would write it with the standard library alone: so many workers in threads, of which
//! each takes a connection, answers it to its end and takes the next, and one more for the control port. It answers
//! what the program's `serve` answers, with the same heads, and trusts what it is sent: fields are looked for as they
//! are mostly written. A metric is made beside the queries and put in its place under a lock.

use super::{Labels, Network, answer, metric_of, rows_of, speed_row, turn_row};
use std::io::{Read, Write};
use std::net::{TcpListener, TcpStream};
use std::sync::RwLock;
use std::sync::atomic::{AtomicBool, AtomicU64, Ordering};

/// How long a head may be, and how many replies a connection gets.
const MOST_HEAD: usize = 8192;
const MOST_REPLIES: u32 = 100;

struct Connection {
    stream: TcpStream,
    unread: Vec<u8>,
}

/// A head, its method and target, and what it says of its connection and its body.
struct Head {
    method: String,
    target: String,
    close: bool,
    length: usize,
}

impl Connection {
    fn of(stream: TcpStream) -> Connection {
        Connection { stream, unread: Vec::new() }
    }

    /// Reads on; false at the end of the input.
    fn more(&mut self) -> bool {
        let mut piece = [0; 8192];
        match self.stream.read(&mut piece) {
            Ok(count) => {
                self.unread.extend_from_slice(&piece[..count]);
                count > 0
            }
            Err(_) => false,
        }
    }

    /// The next head; None at the end of the input and where it is no head.
    fn head(&mut self) -> Option<Head> {
        loop {
            if let Some(at) = self.unread.windows(4).position(|four| four == b"\r\n\r\n") {
                let rest = self.unread.split_off(at + 4);
                let bytes = std::mem::replace(&mut self.unread, rest);
                return if bytes.len() > MOST_HEAD { None } else { head_of(std::str::from_utf8(&bytes).ok()?) };
            }
            if self.unread.len() > MOST_HEAD || !self.more() {
                return None;
            }
        }
    }

    fn body(&mut self, length: usize) -> Option<Vec<u8>> {
        while self.unread.len() < length {
            if !self.more() {
                return None;
            }
        }
        let rest = self.unread.split_off(length);
        Some(std::mem::replace(&mut self.unread, rest))
    }

    fn put(&mut self, body: &str, close: bool) -> bool {
        let status = if body.starts_with("{\"code\":\"Ok\"") { "200 OK" } else { "400 Bad Request" };
        let connection = if close { "close" } else { "keep-alive" };
        let length = body.len();
        let reply = format!(
            "HTTP/1.1 {status}\r\nContent-Type: application/json; charset=utf-8\r\nContent-Length: {length}\r\nConnection: {connection}\r\n\r\n{body}"
        );
        self.stream.write_all(reply.as_bytes()).is_ok()
    }
}

fn head_of(text: &str) -> Option<Head> {
    let mut lines = text.split("\r\n");
    let mut words = lines.next()?.split(' ');
    let (method, target, version) = (words.next()?, words.next()?, words.next()?);
    let mut head = Head {
        method: method.to_string(),
        target: target.to_string(),
        close: version == "HTTP/1.0",
        length: 0,
    };
    for (name, value) in lines.filter_map(|line| line.split_once(':')) {
        let value = value.trim();
        if name.eq_ignore_ascii_case("connection") {
            head.close = value.split(',').any(|option| option.trim().eq_ignore_ascii_case("close"));
        } else if name.eq_ignore_ascii_case("content-length") {
            head.length = value.parse().ok()?;
        }
    }
    Some(head)
}

/// What the threads share.
struct Server {
    network: RwLock<Network>,
    stopped: AtomicBool,
    connections: AtomicU64,
}

impl Server {
    /// Answers a query connection to its end.
    fn answer(&self, labels: &mut Labels, mut connection: Connection) {
        for count in 1..=MOST_REPLIES {
            let Some(head) = connection.head() else { return };
            if head.method != "GET" || head.length > 0 {
                connection.put("{\"code\":\"InvalidUrl\",\"message\":\"bad request head\"}", true);
                return;
            }
            let body = answer(&self.network.read().unwrap(), labels, &head.target);
            let close = head.close || count == MOST_REPLIES;
            if !connection.put(&body, close) || close {
                return;
            }
        }
    }

    fn work(&self, listener: &TcpListener) {
        let mut labels = Labels::new(&self.network.read().unwrap());
        while !self.stopped.load(Ordering::SeqCst) {
            let Ok((stream, _)) = listener.accept() else { return };
            let _ = stream.set_nodelay(true);
            if self.stopped.load(Ordering::SeqCst) {
                return;
            }
            self.answer(&mut labels, Connection::of(stream));
            self.connections.fetch_add(1, Ordering::SeqCst);
        }
    }

    /// Publishes the metric of a body whose first bytes are the speed rows.
    fn publish(&self, body: &[u8], speeds: usize) -> String {
        let refused = |file: &str, (row, kind): (usize, &str)| {
            format!("{{\"code\":\"Refused\",\"file\":\"{file}\",\"row\":{row},\"kind\":\"{kind}\"}}")
        };
        let (speeds, turns) = body.split_at(speeds);
        let rows = match (rows_of(speeds, speed_row), rows_of(turns, turn_row)) {
            (Err(fault), _) => return refused("speeds", fault),
            (_, Err(fault)) => return refused("turns", fault),
            (Ok(speeds), Ok(turns)) => (speeds, turns),
        };
        let (metric, unmatched) = metric_of(&self.network.read().unwrap(), &rows.0, &rows.1);
        let number = metric.number;
        let old = std::mem::replace(&mut self.network.write().unwrap().metric, metric);
        drop(old);
        format!("{{\"code\":\"Ok\",\"data_version\":\"{number}\",\"unmatched\":{unmatched}}}")
    }

    /// Answers a control connection to its end; true where it stopped the server.
    fn control(&self, mut connection: Connection) -> bool {
        for count in 1..=MOST_REPLIES {
            let Some(head) = connection.head() else { return false };
            if head.target == "/control/v1/stop" {
                connection.put("{\"code\":\"Ok\",\"stopping\":true}", true);
                return true;
            }
            let speeds = head.target.strip_prefix("/control/v1/metric?speeds=").and_then(|text| text.parse().ok());
            let (Some(speeds), "POST") = (speeds, head.method.as_str()) else {
                connection.put("{\"code\":\"BadRequest\"}", true);
                return false;
            };
            let Some(body) = connection.body(head.length) else { return false };
            let reply = if speeds > body.len() { String::from("{\"code\":\"BadRequest\"}") } else { self.publish(&body, speeds) };
            let close = head.close || count == MOST_REPLIES;
            if !connection.put(&reply, close) || close {
                return false;
            }
        }
        false
    }

    fn command(&self, listener: &TcpListener) {
        while let Ok((stream, _)) = listener.accept() {
            let stopped = self.control(Connection::of(stream));
            self.connections.fetch_add(1, Ordering::SeqCst);
            if stopped {
                break;
            }
        }
        self.stopped.store(true, Ordering::SeqCst);
    }
}

/// Serves at two addresses with so many workers until it is stopped, and prints what the program prints.
pub fn serve(network: Network, words: &[String]) {
    let [listen, control, workers] = words else {
        panic!("usage: baseline serve OPL SETTINGS LISTEN CONTROL WORKERS");
    };
    let workers: usize = workers.parse().expect("workers");
    let queries = TcpListener::bind(listen).expect("listen");
    let controls = TcpListener::bind(control).expect("control");
    let server = Server { network: RwLock::new(network), stopped: AtomicBool::new(false), connections: AtomicU64::new(0) };
    println!("ready");
    std::thread::scope(|scope| {
        for _ in 0..workers {
            scope.spawn(|| server.work(&queries));
        }
        server.command(&controls);
        // A worker that waits for a connection gets one, and looks.
        for _ in 0..workers {
            let _ = TcpStream::connect(listen);
        }
    });
    println!("connections {}", server.connections.load(Ordering::SeqCst));
    println!("metric {}", server.network.read().unwrap().metric.number);
}
