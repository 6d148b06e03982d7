//! Asks a server what it reads from standard input, by the client for Rust. tests/client_faults.py has the words.

#[path = "../../clients/rust/hhm_client.rs"]
mod hhm_client;

use hhm_client::{By, Cell, Client, Error};
use std::io::{self, BufRead, ErrorKind};
use std::panic::{catch_unwind, AssertUnwindSafe};
use std::time::Duration;

extern "C" {
    fn fork() -> i32;
    fn waitpid(process: i32, status: *mut i32, options: i32) -> i32;
    fn signal(number: i32, handler: extern "C" fn(i32)) -> usize;
    fn setitimer(which: i32, new: *const [i64; 4], old: *mut [i64; 4]) -> i32;
}

extern "C" fn nothing(_: i32) {}

fn wide(count: u64) -> Vec<Cell> {
    (0..count)
        .map(|row| Cell {
            row,
            col: 0,
            count: 1,
        })
        .collect()
}

/// Whether a process of a fork could put its batches.
fn put_wide(hhm: &mut Client, first: u64, count: u64, cells: u64) -> bool {
    (first..first + count).all(|number| hhm.put(number, &wide(cells)).is_ok())
}

fn forked(hhm: &mut Client, first: u64, count: u64, cells: u64) -> String {
    let child = unsafe { fork() };
    let begin = if child == 0 { first } else { first + count };
    let is_put = put_wide(hhm, begin, count, cells);
    both(child, is_put)
}

/// Ends the child of a fork, and tells what became of both.
fn both(child: i32, is_right: bool) -> String {
    if child == 0 {
        std::process::exit(i32::from(!is_right));
    }
    let mut status = 1;
    unsafe { waitpid(child, &mut status, 0) };
    if status == 0 && is_right {
        "both".into()
    } else {
        "not both".into()
    }
}

fn many(hhm: &mut Client, first: u64, count: u64, depth: u64, cells: u64) -> Result<String, Error> {
    let mut shifts = Vec::new();
    let batches = (first..first + count).map(|number| (number, wide(cells)));
    hhm.put_all(batches, depth as usize, |number, accepted| {
        shifts.push(accepted.index.wrapping_sub(number));
    })?;
    let is_in_order = shifts.iter().all(|it| *it == shifts[0]);
    Ok(if is_in_order {
        format!("{} answered", shifts.len())
    } else {
        "out of order".into()
    })
}

/// A fork at the first reply of many; each process goes on.
fn split(hhm: &mut Client, first: u64, count: u64) -> Result<String, Error> {
    let (mut child, mut is_right) = (None, true);
    let batches = (first..first + count).map(|number| (number, wide(1)));
    hhm.put_all(batches, count as usize, |number, accepted| {
        is_right = is_right && accepted.index == number - first;
        child = child.or_else(|| Some(unsafe { fork() }));
    })?;
    Ok(both(child.unwrap_or(0), is_right))
}

/// Five batches on the way, and a panic at the first reply, which is caught.
fn panicked(hhm: &mut Client, first: u64) -> String {
    std::panic::set_hook(Box::new(|_| {}));
    let batches = (first..first + 5).map(|number| (number, wide(1)));
    let call = AssertUnwindSafe(|| hhm.put_all(batches, 5, |_, _| panic!()));
    match catch_unwind(call) {
        Ok(_) => "no panic".into(),
        Err(_) => "panic".into(),
    }
}

fn threes(cells: impl Iterator<Item = [u64; 3]>) -> String {
    let words: Vec<String> = cells.map(|[a, b, c]| format!("{a},{b},{c}")).collect();
    words.join(" ")
}

fn three(cell: &Cell) -> [u64; 3] {
    [cell.row, cell.col, cell.count]
}

fn alarms() -> String {
    unsafe {
        signal(14, nothing);
        setitimer(0, &[0, 20_000, 0, 20_000], std::ptr::null_mut());
    }
    "alarms".into()
}

fn answer(hhm: &mut Client, word: &str, numbers: &[u64]) -> Result<String, Error> {
    Ok(match (word, numbers) {
        ("put", &[number, count]) => {
            let cell = Cell {
                row: 0,
                col: 0,
                count,
            };
            let accepted = hhm.put(number, &[cell])?;
            format!("index {} total {}", accepted.index, accepted.total_after)
        }
        ("many", &[first, count, depth, cells]) => many(hhm, first, count, depth, cells)?,
        ("cell", &[row, col]) => match hhm.cell(row, col)? {
            Some(count) => count.to_string(),
            None => "none".into(),
        },
        ("status", []) => {
            let status = hhm.status()?;
            format!("batches {} total {}", status.batches, status.total)
        }
        ("save", []) => format!("saved {}", hhm.save()?),
        ("fold", []) => format!("folded {}", hhm.fold()?),
        ("fork", &[first, count, cells]) => forked(hhm, first, count, cells),
        ("split", &[first, count]) => split(hhm, first, count)?,
        ("page", &[a, b, c, d, row, col, most]) => {
            let page = hhm.page(a..=b, c..=d, (row, col), most)?;
            let more = u8::from(page.has_more);
            format!("more {more}: {}", threes(page.cells.iter().map(three)))
        }
        ("range", &[a, b, c, d, page]) => {
            let cells: Result<Vec<Cell>, Error> = hhm.range(a..=b, c..=d, page).collect();
            threes(cells?.iter().map(three))
        }
        ("top", &[by, most]) => {
            let by = if by == 0 { By::Total } else { By::Entries };
            let rows = hhm.top(most, by)?;
            threes(rows.iter().map(|it| [it.row, it.entries, it.total]))
        }
        ("groups", &[by, most, shift, first, last]) => {
            let by = if by == 0 { By::Total } else { By::Entries };
            let rows = hhm.groups(first..=last, shift as u8, most, by)?;
            threes(rows.iter().map(|it| [it.row, it.entries, it.total]))
        }
        ("stats", []) => {
            let stats = hhm.stats()?;
            let lines: Vec<String> = stats.iter().map(|(n, v)| format!("{n} {v}")).collect();
            lines.join(",")
        }
        ("panic", &[first]) => panicked(hhm, first),
        _ => alarms(),
    })
}

fn main() {
    let words: Vec<String> = std::env::args().collect();
    let timeout = words[2].parse().map(Duration::from_millis).unwrap();
    let mut hhm = Client::unix(&words[1], 7)
        .with_timeout(Some(timeout))
        .with_attempts(words[3].parse().unwrap(), Duration::from_millis(1));
    for line in io::stdin().lock().lines() {
        let line = line.unwrap();
        let mut words = line.split(' ');
        let word = words.next().unwrap();
        let numbers: Vec<u64> = words.map(|it| it.parse().unwrap()).collect();
        match answer(&mut hhm, word, &numbers) {
            Ok(told) => println!("{told}"),
            Err(Error::Io(fault)) if fault.kind() == ErrorKind::TimedOut => println!("timed out"),
            Err(Error::Io(_)) => println!("lost"),
            Err(fault) => println!("{fault}"),
        }
    }
}
