//! Asks a server everything once, and stops it. It is for a new server of three rows and three columns:
//!
//!     rustc -O --edition 2021 clients/rust/example.rs -o example_rust
//!     hhm serve --unix /tmp/hhm.sock --rows 3 --cols 3 --snapshot /tmp/hhm.snap --log /tmp/hhm.log &
//!     ./example_rust --unix /tmp/hhm.sock

mod hhm_client;

use hhm_client::{Accepted, By, Cell, Client, Error, MAX_CELLS};

const TEXT: &[u8] = b"%%MatrixMarket matrix coordinate integer general\n3 3 1\n1 1 3\n";

fn show(what: &str, accepted: Accepted) {
    println!(
        "{what}: index {} total_after {}",
        accepted.index, accepted.total_after
    );
}

/// The client that two words name: `--tcp HOST:PORT` or `--unix PATH`.
fn client(words: &[String], number: u64) -> Option<Client> {
    match words {
        [how, address] if how == "--tcp" => Some(Client::tcp(address, number)),
        [how, path] if how == "--unix" => Some(Client::unix(path, number)),
        _ => None,
    }
}

fn show_refusal(what: &str, answer: Result<Accepted, Error>) -> Result<(), Error> {
    match answer {
        Err(fault @ Error::Refused(_)) => {
            println!("{what}: {fault}");
            Ok(())
        }
        Err(fault) => Err(fault),
        Ok(accepted) => {
            show(what, accepted);
            Ok(())
        }
    }
}

fn ask_all(hhm: &mut Client) -> Result<(), Error> {
    let cells = [
        Cell {
            row: 2,
            col: 1,
            count: 7,
        },
        Cell {
            row: 0,
            col: 0,
            count: 5,
        },
    ];
    show("put", hhm.put(1, &cells)?);
    show("the same again", hhm.put(1, &cells)?);
    show("a text", hhm.put_text(2, TEXT)?);
    let batches = (3..8).map(|number| {
        (
            number,
            vec![Cell {
                row: 1,
                col: 2,
                count: number,
            }],
        )
    });
    hhm.put_all(batches, 3, |number, accepted| {
        show(&format!("batch {number}"), accepted)
    })?;
    let outside = [
        Cell {
            row: 0,
            col: 2,
            count: 1,
        },
        Cell {
            row: 0,
            col: 3,
            count: 1,
        },
    ];
    show_refusal("out of range", hhm.put(9, &outside))?;
    show_refusal("other cells", hhm.put(1, &cells[..1]))?;
    let many = vec![outside[0]; MAX_CELLS + 1];
    if let Err(fault @ Error::TooLarge) = hhm.put(9, &many) {
        println!("too many: {fault}");
    }
    for (row, col) in [(0, 0), (2, 2)] {
        match hhm.cell(row, col)? {
            Some(count) => println!("cell: {count}"),
            None => println!("cell: none"),
        }
    }
    let row = hhm.row(1)?;
    println!("row: entries {} total {}", row.entries, row.total);
    for cell in hhm.range(0..=2, 0..=2, 2) {
        let Cell { row, col, count } = cell?;
        println!("range: row {row} column {col} count {count}");
    }
    let page = hhm.page(0..=2, 1..=2, (0, 0), 1)?;
    println!("page: cells {} more {}", page.cells.len(), page.has_more);
    for it in hhm.top(2, By::Total)? {
        println!(
            "top: row {} entries {} total {}",
            it.row, it.entries, it.total
        );
    }
    let status = hhm.status()?;
    println!("status: batches {} total {}", status.batches, status.total);
    let stored = hhm.stored()?;
    println!("stored: batches {} total {}", stored.batches, stored.total);
    for (name, value) in hhm.stats()? {
        if matches!(name.as_str(), "rows" | "batches" | "total") {
            println!("stats: {name} {value}");
        }
    }
    print!("{}", String::from_utf8_lossy(&hhm.export()?));
    println!("saved: {}", hhm.save()?);
    hhm.stop()?;
    println!("stopping");
    Ok(())
}

fn main() {
    let words: Vec<String> = std::env::args().skip(1).collect();
    let Some(mut hhm) = client(&words, 7) else {
        eprintln!("usage: example --tcp HOST:PORT | --unix PATH");
        std::process::exit(2);
    };
    if let Err(fault) = ask_all(&mut hhm) {
        eprintln!("{fault}");
        std::process::exit(if matches!(fault, Error::Refused(_)) {
            1
        } else {
            4
        });
    }
}
