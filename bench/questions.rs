//! Answers what a Range and a Top ask, of a sorted array in memory.
//!
//! `questions FILE REPEAT`: the file has cells in order, 24 bytes each: row, column and count, big-endian. It prints the
//! milliseconds of the ten rows with the highest totals, a pass over all cells; of pages of 10,000 cells that begin at
//! places spread over the array; and of the row that has most cells. Each is the median of so many.
use std::collections::BinaryHeap;
use std::time::Instant;
use std::{cmp, env, fs, hint};

const PAGE: usize = 10_000;

type Cell = (u64, u64, u64);

fn read(path: &str) -> Vec<Cell> {
    let bytes = fs::read(path).expect("the file is read");
    let word = |b: &[u8]| u64::from_be_bytes(b.try_into().expect("eight bytes"));
    bytes.chunks_exact(24).map(|b| (word(&b[..8]), word(&b[8..16]), word(&b[16..]))).collect()
}

/// The rows with the highest totals, the first of equal ones first.
fn top(cells: &[Cell], most: usize) -> Vec<(u64, u64, u64)> {
    let mut heap = BinaryHeap::with_capacity(most + 1);
    for row in cells.chunk_by(|a, b| a.0 == b.0) {
        let total: u64 = row.iter().map(|cell| cell.2).sum();
        heap.push(cmp::Reverse((total, cmp::Reverse(row[0].0), row.len() as u64)));
        if heap.len() > most {
            heap.pop();
        }
    }
    let rows = heap.into_sorted_vec();
    rows.into_iter().map(|cmp::Reverse((total, cmp::Reverse(row), entries))| (row, entries, total)).collect()
}

/// The first cells from a place on in some columns, as the bytes of a reply.
fn page(cells: &[Cell], start: (u64, u64), last_row: u64, most: usize) -> Vec<u8> {
    let from = cells.partition_point(|cell| (cell.0, cell.1) < start);
    let mut reply = Vec::new();
    for cell in cells[from..].iter().take_while(|cell| cell.0 <= last_row).take(most) {
        for word in [cell.0, cell.1, cell.2] {
            reply.extend_from_slice(&word.to_be_bytes());
        }
    }
    reply
}

fn longest(cells: &[Cell]) -> &[Cell] {
    cells.chunk_by(|a, b| a.0 == b.0).max_by_key(|row| row.len()).expect("a row")
}

fn median(mut times: Vec<f64>) -> f64 {
    times.sort_by(f64::total_cmp);
    times[times.len() / 2] * 1e3
}

fn timed<T>(work: impl FnOnce() -> T) -> f64 {
    let start = Instant::now();
    hint::black_box(work());
    start.elapsed().as_secs_f64()
}

fn main() {
    let words: Vec<String> = env::args().collect();
    let cells = read(&words[1]);
    let repeat: usize = words[2].parse().expect("a number");
    let tops = (0..repeat).map(|_| timed(|| top(&cells, 10))).collect();
    let place = |n: usize| cells[cells.len() / repeat * n + cells.len() / repeat / 2];
    let pages = (0..repeat).map(|n| timed(|| page(&cells, (place(n).0, place(n).1), u64::MAX, PAGE))).collect();
    let row = longest(&cells)[0].0;
    let rows = (0..repeat).map(|_| timed(|| page(&cells, (row, 0), row, usize::MAX))).collect();
    println!("{:.3} {:.3} {:.3}", median(tops), median(pages), median(rows));
}
