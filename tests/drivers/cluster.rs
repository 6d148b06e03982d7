//! Asks several servers what it reads from standard input, by the cluster of the client for Rust. tests/cluster.py has
//! the words.

#[path = "../../clients/rust/hhm_client.rs"]
mod hhm_client;
#[path = "../../clients/rust/hhm_cluster.rs"]
mod hhm_cluster;

use hhm_client::{By, Cell, Error, TopRow};
use hhm_cluster::{Cluster, Fault, Way};
use std::io::{self, BufRead};
use std::time::Duration;

/// Threes of numbers, as cells.
fn cells(numbers: &[u64]) -> Vec<Cell> {
    numbers
        .chunks(3)
        .map(|it| Cell {
            row: it[0],
            col: it[1],
            count: it[2],
        })
        .collect()
}

fn answer(hhm: &mut Cluster, word: &str, numbers: &[u64]) -> Result<String, Fault> {
    Ok(match word {
        "put" => {
            let replies = hhm.put(numbers[0], &cells(&numbers[1..]))?;
            let places: Vec<String> = replies.iter().map(|it| it.index.to_string()).collect();
            format!("index {}", places.join(" "))
        }
        "many" => {
            let mut count = 0;
            let batches = (numbers[0]..numbers[1]).map(|number| (number, cells(&numbers[2..])));
            hhm.put_all(batches, 16, |_, _| count += 1)?;
            format!("answered {count}")
        }
        "cell" => hhm
            .cell(numbers[0], numbers[1])?
            .map_or("none".into(), |count| count.to_string()),
        "row" => {
            let sum = hhm.row(numbers[0])?;
            format!("entries {} total {}", sum.entries, sum.total)
        }
        "status" => {
            let status = hhm.status()?;
            format!("batches {} total {}", status.batches, status.total)
        }
        "export" => String::from_utf8(hhm.export()?).unwrap().replace('\n', ","),
        "range" => {
            let [a, b, c, d, page] = numbers[..] else {
                return Ok("what?".into());
            };
            let cells: Result<Vec<Cell>, Fault> = hhm.range(a..=b, c..=d, page).collect();
            let three = |it: &Cell| format!("{},{},{}", it.row, it.col, it.count);
            cells?.iter().map(three).collect::<Vec<_>>().join(" ")
        }
        "top" => {
            let by = [By::Total, By::Entries][numbers[0] as usize];
            let rows = hhm.top(numbers[1], by)?;
            let three = |it: &TopRow| format!("{},{},{}", it.row, it.entries, it.total);
            rows.iter().map(three).collect::<Vec<_>>().join(" ")
        }
        "save" => format!("saved {:?}", hhm.save()?),
        _ => "what?".into(),
    })
}

fn told(fault: Fault) -> String {
    match fault {
        Fault::Half { number, refusals } => {
            let told: Vec<String> = refusals
                .iter()
                .map(|(place, why)| format!("{place} {}", why.code))
                .collect();
            format!("Half {number}: {}", told.join(" "))
        }
        Fault::WentBack(servers) => format!("WentBack {:?}", servers.keys().collect::<Vec<_>>()),
        Fault::Full { place } => format!("Full {place}"),
        Fault::OutOfRange => "OutOfRange".into(),
        Fault::BadSum => "BadSum".into(),
        Fault::Undecided => "Undecided".into(),
        Fault::Server {
            place,
            error: Error::OtherMap,
        } => format!("OtherMap {place}"),
        Fault::Server {
            place,
            error: Error::Refused(why),
        } => format!("Refused {place} {}", why.code),
        Fault::Server {
            place,
            error: Error::Io(_),
        } => format!("Failed {place}"),
        Fault::Server { place, .. } => format!("BadReply {place}"),
    }
}

fn main() {
    let words: Vec<String> = std::env::args().skip(1).collect();
    let servers: Vec<&str> = words[0].split(',').collect();
    let numbers: Vec<u64> = words[2..]
        .iter()
        .map(|word| word.parse().unwrap())
        .collect();
    let way = if words[1] == "rows" {
        Way::Rows
    } else {
        Way::Source
    };
    let mut hhm = Cluster::new(&servers, numbers[0], numbers[1], way)
        .with_attempts(3, Duration::from_millis(50))
        .with_size(numbers[2], numbers[2])
        .with_batches(numbers[3], numbers[4]);
    for line in io::stdin().lock().lines() {
        let line = line.unwrap();
        let mut words = line.split(' ');
        let word = words.next().unwrap();
        let numbers: Vec<u64> = words.map(|word| word.parse().unwrap()).collect();
        println!("{}", answer(&mut hhm, word, &numbers).unwrap_or_else(told));
    }
}
