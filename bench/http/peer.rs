//! The same exchanges in plain Rust, standard library only: `peer serve PORT 0` or `peer send PORT TURNS`.
use std::io::{Read, Write};
use std::net::{TcpListener, TcpStream};
use std::time::Instant;

const BODY: usize = 14_450_688;

/// A connection and what was read of it beyond the last message.
struct Line {
    stream: TcpStream,
    held: Vec<u8>,
}

impl Line {
    fn new(stream: TcpStream) -> Line {
        stream.set_nodelay(true).unwrap();
        Line { stream, held: Vec::new() }
    }

    /// Reads a message: the length that its head declares, and its body. None where the input ends.
    fn read(&mut self) -> Option<Vec<u8>> {
        let mut room = [0; 16_384];
        let end = loop {
            if let Some(at) = self.held.windows(4).position(|w| w == b"\r\n\r\n") {
                break at + 4;
            }
            let count = self.stream.read(&mut room).unwrap();
            if count == 0 {
                return None;
            }
            self.held.extend_from_slice(&room[..count]);
        };
        let head = String::from_utf8(self.held.drain(..end).collect()).unwrap();
        let length = head.lines().find_map(|line| line.strip_prefix("Content-Length: ")).map_or(0, |text| text.parse().unwrap());
        let front = length.min(self.held.len());
        let mut body: Vec<u8> = self.held.drain(..front).collect();
        body.resize(length, 0);
        self.stream.read_exact(&mut body[front..]).unwrap();
        Some(body)
    }

    fn write(&mut self, head: &str, body: &[u8]) {
        self.stream.write_all(head.as_bytes()).unwrap();
        self.stream.write_all(body).unwrap();
    }
}

fn serve(number: u16) {
    let listener = TcpListener::bind(("0.0.0.0", number)).unwrap();
    println!("listens");
    let mut line = Line::new(listener.accept().unwrap().0);
    let whole = vec![7; BODY];
    while let Some(body) = line.read() {
        let reply: &[u8] = if body.is_empty() { &whole } else { b"" };
        line.write(&format!("HTTP/1.1 200 OK\r\nContent-Length: {}\r\n\r\n", reply.len()), reply);
    }
}

fn exchange(line: &mut Line, head: &str, body: &[u8]) -> (u128, usize) {
    let start = Instant::now();
    line.write(head, body);
    let length = line.read().unwrap().len();
    (start.elapsed().as_nanos(), length)
}

fn send(number: u16, turns: u32) {
    let mut line = Line::new(TcpStream::connect(("127.0.0.1", number)).unwrap());
    let whole = vec![7; BODY];
    let post = format!("POST /keys HTTP/1.1\r\nHost: 127.0.0.1\r\nContent-Length: {BODY}\r\n\r\n");
    for _ in 0..turns {
        let (up, none) = exchange(&mut line, &post, &whole);
        let (down, all) = exchange(&mut line, "GET /public HTTP/1.1\r\nHost: 127.0.0.1\r\n\r\n", b"");
        println!("{up} {down} {none} {all}");
    }
}

fn main() {
    let words: Vec<String> = std::env::args().collect();
    let number = words[2].parse().unwrap();
    match words[1].as_str() {
        "serve" => serve(number),
        _ => send(number, words[3].parse().unwrap()),
    }
}
