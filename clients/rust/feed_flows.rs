//! Feeds a file of flows into a server of hhm: an example.
//!
//!     rustc -O --edition 2021 clients/rust/feed_flows.rs -o feed_flows_rust
//!     hhm serve --unix /tmp/hhm.sock --rows 4294967296 --cols 4294967296 \
//!         --snapshot /tmp/flows.snap --log /tmp/flows.log &
//!     ./feed_flows_rust --unix /tmp/hhm.sock 7 flows.csv
//!
//! The file is a CSV with the head `source,destination,packets`: two IPv4 addresses, the row and the column, and a
//! count. Batch k of client 7 is its flows 10000 k to 10000 k + 9999, so a run that was interrupted is begun again with
//! the same words, and counts each flow once. Another file has another client number.

mod hhm_client;

use hhm_client::{Cell, Client};
use std::error::Error;
use std::fs::File;
use std::io::{BufRead, BufReader, Lines};
use std::net::Ipv4Addr;

const LINES: usize = 10_000;

/// The batches of a file. The first fault ends them, and is kept.
struct Batches {
    lines: Lines<BufReader<File>>,
    /// How many lines were read, and how many batches.
    line: u64,
    number: u64,
    fault: Option<String>,
}

impl Batches {
    fn open(path: &str) -> Result<Batches, Box<dyn Error>> {
        let mut lines = BufReader::new(File::open(path)?).lines();
        match lines.next().transpose()? {
            Some(head) if head.trim_end() == "source,destination,packets" => {}
            _ => return Err("line 1: no head `source,destination,packets`".into()),
        }
        Ok(Batches {
            lines,
            line: 1,
            number: 0,
            fault: None,
        })
    }

    /// The cell of the next line; None at the end, or at a fault.
    fn next_cell(&mut self) -> Option<Cell> {
        let line = self.lines.next()?;
        self.line += 1;
        let cell = line.ok().as_deref().and_then(cell_of);
        if cell.is_none() {
            self.fault = Some(format!("line {}: no flow", self.line));
        }
        cell
    }
}

impl Iterator for Batches {
    type Item = (u64, Vec<Cell>);

    fn next(&mut self) -> Option<Self::Item> {
        let mut cells = Vec::with_capacity(LINES);
        while cells.len() < LINES {
            let Some(cell) = self.next_cell() else { break };
            cells.push(cell);
        }
        if cells.is_empty() || self.fault.is_some() {
            return None;
        }
        self.number += 1;
        Some((self.number - 1, cells))
    }
}

/// The cell of a line.
fn cell_of(line: &str) -> Option<Cell> {
    let mut words = line.trim_end().split(',');
    let source: Ipv4Addr = words.next()?.parse().ok()?;
    let destination: Ipv4Addr = words.next()?.parse().ok()?;
    let count = words.next()?.parse().ok()?;
    let cell = Cell {
        row: u32::from(source).into(),
        col: u32::from(destination).into(),
        count,
    };
    words.next().is_none().then_some(cell)
}

fn feed(hhm: &mut Client, path: &str) -> Result<u64, Box<dyn Error>> {
    let mut batches = Batches::open(path)?;
    let mut sent = 0;
    hhm.put_all(batches.by_ref(), 16, |_, _| sent += 1)?;
    match batches.fault {
        Some(fault) => Err(fault.into()),
        None => Ok(sent),
    }
}

fn main() {
    let words: Vec<String> = std::env::args().skip(1).collect();
    let given = match words.as_slice() {
        [how, place, client, file] => client
            .parse()
            .ok()
            .map(|client| (how.as_str(), place, client, file)),
        _ => None,
    };
    let (mut hhm, file) = match given {
        Some(("--tcp", address, client, file)) => (Client::tcp(address, client), file),
        Some(("--unix", path, client, file)) => (Client::unix(path, client), file),
        _ => {
            eprintln!("usage: feed_flows --tcp HOST:PORT | --unix PATH CLIENT FILE");
            std::process::exit(2);
        }
    };
    match feed(&mut hhm, file) {
        Ok(sent) => println!("sent batches {sent}"),
        Err(fault) => {
            eprintln!("{fault}");
            let is_refused = matches!(fault.downcast_ref(), Some(hhm_client::Error::Refused(_)));
            std::process::exit(if is_refused { 1 } else { 4 });
        }
    }
}
