//! Puts batches to `hhm serve` for a time, as fast as they are answered.
//!
//! `put_load PATH CONNECTIONS DEPTH CELLS SECONDS`: each connection to the Unix socket has a thread of its own, which
//! keeps so many puts of so many cells on the way; as many as were answered at once go with one write. It prints the
//! puts a second, and the microseconds from the sending of a put to its reply at p50 and p99. A reply that isn't
//! Accepted ends it with a fault.
use std::collections::VecDeque;
use std::io::{Read, Write};
use std::os::unix::net::UnixStream;
use std::sync::{Arc, Barrier};
use std::thread;
use std::time::{Duration, Instant};

const REPLY: usize = 21;

/// Random numbers (xorshift).
struct Draw(u64);

impl Draw {
    fn next(&mut self) -> u64 {
        self.0 ^= self.0 << 13;
        self.0 ^= self.0 >> 7;
        self.0 ^= self.0 << 17;
        self.0
    }
}

/// Appends the frame of a put of so many cells, spread over 2^60 rows and columns.
fn push_frame(out: &mut Vec<u8>, client: u64, number: u64, cells: usize, draw: &mut Draw) {
    out.extend_from_slice(&(16 + 24 * cells as u32).to_be_bytes());
    out.push(8);
    for word in [client, number] {
        out.extend_from_slice(&word.to_be_bytes());
    }
    for _ in 0..cells {
        for word in [draw.next() >> 4, draw.next() >> 4, 1 + draw.next() % 9] {
            out.extend_from_slice(&word.to_be_bytes());
        }
    }
}

/// A connection, and the puts on the way.
struct Client {
    link: UnixStream,
    number: u64,
    cells: usize,
    client: u64,
    draw: Draw,
    sent: VecDeque<Instant>,
    times: Vec<f64>,
}

impl Client {
    fn send(&mut self, count: usize) {
        let mut frames = Vec::new();
        for _ in 0..count {
            push_frame(&mut frames, self.client, self.number, self.cells, &mut self.draw);
            self.number += 1;
        }
        let now = Instant::now();
        self.sent.extend((0..count).map(|_| now));
        self.link.write_all(&frames).expect("a write");
    }

    /// Takes the replies that have come, at least one.
    fn receive(&mut self, held: &mut Vec<u8>) -> usize {
        let mut bytes = [0; 64 * REPLY];
        while held.len() < REPLY {
            let count = self.link.read(&mut bytes).expect("a read");
            assert!(count > 0, "the server closed the connection");
            held.extend_from_slice(&bytes[..count]);
        }
        let count = held.len() / REPLY;
        let now = Instant::now();
        for reply in held.drain(..count * REPLY).as_slice().chunks(REPLY) {
            assert_eq!(reply[4], 0x81, "a put was refused");
            let sent = self.sent.pop_front().expect("a put on the way");
            self.times.push((now - sent).as_secs_f64() * 1e6);
        }
        count
    }

    fn run(mut self, depth: usize, ends: Instant) -> Vec<f64> {
        let mut held = Vec::new();
        self.send(depth);
        while Instant::now() < ends {
            let count = self.receive(&mut held);
            self.send(count);
        }
        while !self.sent.is_empty() {
            self.receive(&mut held);
        }
        self.times
    }
}

fn main() {
    let words: Vec<String> = std::env::args().collect();
    let [_, path, connections, depth, cells, seconds] = &words[..] else {
        panic!("put_load PATH CONNECTIONS DEPTH CELLS SECONDS");
    };
    let (connections, depth): (usize, usize) = (connections.parse().unwrap(), depth.parse().unwrap());
    let (cells, seconds): (usize, f64) = (cells.parse().unwrap(), seconds.parse().unwrap());
    let start = Arc::new(Barrier::new(connections + 1));
    let threads: Vec<_> = (0..connections as u64)
        .map(|client| {
            let link = UnixStream::connect(path).expect("a connection");
            let draw = Draw(0x9e37_79b9_7f4a_7c15 ^ (client + 1));
            let (sent, times) = (VecDeque::new(), Vec::new());
            let it = Client { link, number: 0, cells, client, draw, sent, times };
            let start = start.clone();
            thread::spawn(move || {
                start.wait();
                it.run(depth, Instant::now() + Duration::from_secs_f64(seconds))
            })
        })
        .collect();
    start.wait();
    let begin = Instant::now();
    let mut times: Vec<f64> = threads.into_iter().flat_map(|it| it.join().unwrap()).collect();
    let took = begin.elapsed().as_secs_f64();
    times.sort_by(f64::total_cmp);
    let at = |part: f64| times[((times.len() as f64 * part) as usize).min(times.len() - 1)];
    println!("{:.1} {:.1} {:.1}", times.len() as f64 / took, at(0.5), at(0.99));
}
