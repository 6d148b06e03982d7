//! The baseline of a server: what a Rust programmer writes in an afternoon with std alone. `counting_server [--null]`
//! listens on a port of its own choice, says so on standard output, and answers the frames Put, Cell, Status and Stop.
//!
//! A thread for each connection, eight hash tables of cells and one of accepted batches, each behind a lock. It reads
//! well-formed frames and texts alone, keeps no batch, refuses nothing, and has no sum in order. With `--null` it
//! accepts each Put without a look at its text, which is what sockets and the driver take by themselves.
use std::collections::hash_map::Entry;
use std::collections::HashMap;
use std::io::{self, BufReader, Read, Write};
use std::net::{TcpListener, TcpStream};
use std::sync::{Arc, Mutex};
use std::thread;

const SHARDS: u64 = 8;

type Pair = (u64, u64);

/// The accepted batches: of each its place and the total with it, and the total of all.
#[derive(Default)]
struct Book {
    accepted: HashMap<Pair, Pair>,
    total: u64,
}

impl Book {
    /// The reply to a batch, and whether it is a fresh one.
    fn admit(&mut self, batch: Pair, total: u64) -> (Pair, bool) {
        let place = self.accepted.len() as u64;
        match self.accepted.entry(batch) {
            Entry::Occupied(known) => (*known.get(), false),
            Entry::Vacant(fresh) => {
                self.total = self.total.checked_add(total).expect("the total passes 64 bits");
                (*fresh.insert((place, self.total)), true)
            }
        }
    }
}

struct Server {
    is_null: bool,
    book: Mutex<Book>,
    shards: Vec<Mutex<HashMap<Pair, u64>>>,
}

impl Server {
    fn put(&self, batch: Pair, text: &[u8], parts: &mut [Vec<(Pair, u64)>]) -> Pair {
        let total = if self.is_null { 0 } else { read_cells(text, parts) };
        let (reply, is_fresh) = self.book.lock().unwrap().admit(batch, total);
        if is_fresh {
            self.add(parts);
        }
        reply
    }

    fn add(&self, parts: &[Vec<(Pair, u64)>]) {
        for (part, shard) in parts.iter().zip(&self.shards) {
            let mut shard = shard.lock().unwrap();
            for &(place, count) in part {
                *shard.entry(place).or_default() += count;
            }
        }
    }

    fn cell(&self, place: Pair) -> Option<u64> {
        self.shards[(place.0 % SHARDS) as usize]
            .lock()
            .unwrap()
            .get(&place)
            .copied()
    }

    fn status(&self) -> Pair {
        let book = self.book.lock().unwrap();
        (book.accepted.len() as u64, book.total)
    }

    /// Answers one connection until it ends, or ends the process at a Stop.
    fn serve(&self, mut link: TcpStream) -> io::Result<()> {
        link.set_nodelay(true)?;
        let mut input = BufReader::with_capacity(1 << 16, link.try_clone()?);
        let mut body = Vec::new();
        let mut parts = vec![Vec::new(); SHARDS as usize];
        loop {
            let mut head = [0; 5];
            input.read_exact(&mut head)?;
            body.resize(u32::from_be_bytes([head[0], head[1], head[2], head[3]]) as usize, 0);
            input.read_exact(&mut body)?;
            let reply = match head[4] {
                1 => pair(
                    0x81,
                    self.put((number(&body, 0), number(&body, 8)), &body[16..], &mut parts),
                ),
                2 => value(self.cell((number(&body, 0), number(&body, 8)))),
                4 => pair(0x84, self.status()),
                7 => {
                    link.write_all(&[0, 0, 0, 0, 0x87])?;
                    std::process::exit(0);
                }
                kind => panic!("a frame of kind {kind}"),
            };
            link.write_all(&reply)?;
        }
    }
}

fn number(body: &[u8], place: usize) -> u64 {
    u64::from_be_bytes(body[place..place + 8].try_into().unwrap())
}

fn pair(kind: u8, (first, second): Pair) -> Vec<u8> {
    [&[0, 0, 0, 16, kind][..], &first.to_be_bytes(), &second.to_be_bytes()].concat()
}

fn value(count: Option<u64>) -> Vec<u8> {
    let head = [0, 0, 0, 9, 0x82, count.is_some() as u8];
    [&head[..], &count.unwrap_or(0).to_be_bytes()].concat()
}

/// Reads the cells of a text, each to the part of its shard, and gives their total.
fn read_cells(text: &[u8], parts: &mut [Vec<(Pair, u64)>]) -> u64 {
    parts.iter_mut().for_each(Vec::clear);
    let mut total = 0u64;
    for line in text
        .split(|&byte| byte == b'\n')
        .skip(2)
        .filter(|line| !line.is_empty())
    {
        let mut words = line
            .split(|&byte| byte == b' ')
            .map(|word| word.iter().fold(0u64, |sum, &digit| sum * 10 + u64::from(digit - b'0')));
        let [row, col, count] = [(); 3].map(|()| words.next().expect("a number"));
        total = total.checked_add(count).expect("the total passes 64 bits");
        parts[((row - 1) % SHARDS) as usize].push(((row - 1, col - 1), count));
    }
    total
}

fn main() -> io::Result<()> {
    let listener = TcpListener::bind("127.0.0.1:0")?;
    println!("listening tcp {}", listener.local_addr()?);
    let server = Arc::new(Server {
        is_null: std::env::args().any(|word| word == "--null"),
        book: Mutex::default(),
        shards: (0..SHARDS).map(|_| Mutex::default()).collect(),
    });
    for link in listener.incoming() {
        let (link, server) = (link?, server.clone());
        thread::spawn(move || server.serve(link));
    }
    Ok(())
}
