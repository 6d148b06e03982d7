//! The baseline: what a Rust programmer writes in an hour with std alone. It reads a Matrix Market text from standard
//! input into a list, sorts the list, adds up neighbours of one cell, and writes the canonical text.
//!
//! It reads well-formed texts alone, names no fault, and holds the whole list.
use std::io::{self, BufRead, BufReader, BufWriter, Write};

const BANNER: &str = "%%MatrixMarket matrix coordinate integer general";

fn main() -> io::Result<()> {
    let mut input = BufReader::with_capacity(1 << 16, io::stdin().lock());
    let mut line = String::new();
    input.read_line(&mut line)?;
    line.clear();
    input.read_line(&mut line)?;
    let size = numbers(&line);
    let mut cells: Vec<(u64, u64, u64)> = Vec::new();
    loop {
        line.clear();
        if input.read_line(&mut line)? == 0 {
            break;
        }
        let [row, col, count] = numbers(&line);
        cells.push((row, col, count));
    }
    cells.sort_unstable_by_key(|&(row, col, _)| (row, col));
    cells.dedup_by(|next, kept| {
        let same = (next.0, next.1) == (kept.0, kept.1);
        if same {
            kept.2 = kept.2.checked_add(next.2).expect("the sum passes 64 bits");
        }
        same
    });
    let mut output = BufWriter::with_capacity(1 << 16, io::stdout().lock());
    writeln!(output, "{BANNER}\n{} {} {}", size[0], size[1], cells.len())?;
    for (row, col, count) in &cells {
        writeln!(output, "{row} {col} {count}")?;
    }
    output.flush()
}

fn numbers(line: &str) -> [u64; 3] {
    let mut words = line.split_ascii_whitespace();
    [(); 3].map(|()| words.next().expect("a word").parse().expect("a number"))
}
