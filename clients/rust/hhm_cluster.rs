//! Several servers of hhm as one, on the standard library alone, with `hhm_client.rs` beside it.
//!
//! ```ignore
//! mod hhm_client;
//! mod hhm_cluster;
//! use hhm_cluster::{Cluster, Way};
//!
//! let mut hhm = Cluster::new(&["a:7000", "b:7000"], 7, 1, Way::Rows);
//! hhm.put(1, &[Cell { row: 0, col: 0, count: 5 }])?;
//! println!("{:?} {:?}", hhm.cell(0, 0)?, hhm.status()?);
//! ```
//!
//! What says where a batch goes is the map: the servers and their order, the way and the generation. It stays as it is;
//! another map has new servers with empty books. `docs/CLUSTER.md` tells the rules by which each batch counts once, and
//! `docs/FORMATS.md` ("Several servers by one map") what is sent. Each connection puts the map's marker first, and
//! before the first put all servers have been asked so.
//!
//! By rows a put goes to the server at place 0 first, and to the others behind it. So what the first refuses is put
//! nowhere; what another refuses is in the sum in part (`Fault::Half`).

#![allow(dead_code)]

use super::hhm_client::{
    order_of, paged, Accepted, By, Cell, Client, Error, Refusal, RowSum, Status, TopRow, MAX_DEPTH,
    MAX_PAGE,
};
use std::collections::{BTreeMap, HashMap, HashSet};
use std::fmt;
use std::iter;
use std::ops::RangeInclusive;
use std::sync::mpsc;
use std::thread;
use std::time::Duration;

/// Where the batches of a client go.
#[derive(Clone, Copy, Debug, PartialEq, Eq)]
pub enum Way {
    /// Each whole to one server, the one at place (client mod number of servers).
    Source,
    /// Each cut by a hash of its rows, to all servers.
    Rows,
}

/// Why a call of a cluster has no answer. The places of servers count from 0.
#[derive(Debug)]
pub enum Fault {
    /// Servers lack what they had accepted; each is told once. What was put since the last save is to be put again,
    /// with its numbers, and then what this call was given. The cluster goes on.
    WentBack(BTreeMap<usize, Error>),
    /// Batch `number` is in the sum in part: these servers refused their parts, and others accepted theirs. Where a
    /// further try with the same batch is refused too it needs a person.
    Half {
        number: u64,
        refusals: BTreeMap<usize, Refusal>,
    },
    /// No new batch is to be put: this server's book has, but for a reserve, as many batches as it takes.
    Full { place: usize },
    /// A cell is beyond the rows or columns that were given. Nothing was sent.
    OutOfRange,
    /// A total of all servers passes 64 bits, or their texts don't belong together.
    BadSum,
    /// Which rows lead isn't told by the first `MAX_PAGE` of each server, by source: rows that none has among these may
    /// have as much in all.
    Undecided,
    /// What a server's client met. Refused: the first server refused the batch, and no other was asked.
    Server { place: usize, error: Error },
}

impl fmt::Display for Fault {
    fn fmt(&self, out: &mut fmt::Formatter<'_>) -> fmt::Result {
        match self {
            Fault::WentBack(servers) => list(out, servers),
            Fault::Half { number, refusals } => {
                write!(out, "batch {number} is in the sum in part: refused by ")?;
                list(out, refusals)
            }
            Fault::Full { place } => write!(out, "server {place} is full: begin a new generation"),
            Fault::OutOfRange => out.write_str("a cell is beyond the rows or columns"),
            Fault::BadSum => out.write_str("the servers' sums don't add up"),
            Fault::Undecided => {
                out.write_str("which rows lead isn't told by the first of each server")
            }
            Fault::Server { place, error } => write!(out, "server {place}: {error}"),
        }
    }
}

fn list<T: fmt::Display>(out: &mut fmt::Formatter<'_>, of: &BTreeMap<usize, T>) -> fmt::Result {
    for (at, (place, what)) in of.iter().enumerate() {
        let between = if at == 0 { "" } else { ", " };
        write!(out, "{between}server {place}: {what}")?;
    }
    Ok(())
}

impl std::error::Error for Fault {}

/// The place of the server that has a row, by rows.
pub fn place_of_row(row: u64, servers: usize) -> usize {
    let half = row.wrapping_mul(0x9e37_79b9_7f4a_7c15) >> 32;
    ((u128::from(half) * servers as u128) >> 32) as usize
}

/// A number in which each bit depends on each of the given one; another for each other one.
fn mixed(mut number: u64) -> u64 {
    number = (number ^ (number >> 30)).wrapping_mul(0xbf58_476d_1ce4_e5b9);
    number = (number ^ (number >> 27)).wrapping_mul(0x94d0_49bb_1331_11eb);
    number ^ (number >> 31)
}

/// The number of a place's marker.
pub fn marker_of(generation: u64, way: Way, servers: usize, place: usize) -> u64 {
    let way = u64::from(way == Way::Rows);
    [1, generation, way, servers as u64, place as u64]
        .iter()
        .fold(0, |digest, number| mixed(digest ^ number))
}

/// A batch that is to be put: its number, and the part for each server that gets one.
type Batch = (u64, Vec<Vec<Cell>>);

/// What servers have answered to one call, by their places.
struct Outcome<T> {
    answers: BTreeMap<usize, T>,
    faults: BTreeMap<usize, Error>,
}

impl<T> Outcome<T> {
    /// The answers in order, or the fault that is told first: one that no further call is told.
    fn judged(mut self) -> Result<Vec<T>, Fault> {
        if self.faults.is_empty() {
            return Ok(self.answers.into_values().collect());
        }
        let back = |error: &Error| matches!(error, Error::BookWentBack { .. });
        if self.faults.values().any(back) {
            self.faults.retain(|_, error| back(error));
            return Err(Fault::WentBack(self.faults));
        }
        let other = |error: &Error| matches!(error, Error::OtherMap);
        let first = self.faults.iter().find(|(_, error)| other(error));
        let place = first
            .or_else(|| self.faults.iter().next())
            .map_or(0, |(place, _)| *place);
        let error = self.faults.remove(&place).unwrap_or(Error::BadReply);
        Err(Fault::Server { place, error })
    }
}

/// Several servers as one, by a map that stays as it is. Reads and puts ask all servers that they concern at once, from
/// a thread each.
pub struct Cluster {
    servers: Vec<Client>,
    way: Way,
    /// The places of those that get a part of each batch, the one that must accept it first before the others.
    putting: Vec<usize>,
    size: (u64, u64),
    most: u64,
    full: Option<usize>,
    has_met: bool,
}

/// A client of the server at an address of `Cluster::new`.
fn opened(address: &str, client: u64) -> Client {
    if let Some(path) = address.strip_prefix("unix:") {
        let is_path = path.bytes().any(|it| !it.is_ascii_digit());
        assert!(is_path, "{address} may be a path or a host: write unix:./{path} or tcp:{address}");
        return Client::unix(path, client);
    }
    match address.strip_prefix("tcp:") {
        Some(rest) => Client::tcp(rest, client),
        None if address.contains('/') => Client::unix(address, client),
        None => Client::tcp(address, client),
    }
}

impl Cluster {
    /// A cluster of servers in their order, each `tcp:HOST:PORT`, `unix:PATH`, `HOST:PORT` or a path with a slash. No
    /// other program puts under the client's number, which is below 2^64 - 1. `generation` belongs to these servers, to
    /// this order and to this way for ever. Panics where no server is given, the client's number is that of markers, or
    /// an address may be a path or a host, as `unix:7000`.
    pub fn new(servers: &[&str], client: u64, generation: u64, way: Way) -> Cluster {
        assert!(!servers.is_empty() && client < u64::MAX);
        let made = servers.iter().enumerate().map(|(place, address)| {
            opened(address, client).with_marker(marker_of(generation, way, servers.len(), place))
        });
        Cluster {
            servers: made.collect(),
            way,
            putting: match way {
                Way::Source => vec![(client % servers.len() as u64) as usize],
                Way::Rows => (0..servers.len()).collect(),
            },
            size: (u64::MAX, u64::MAX),
            most: 990_000,
            full: None,
            has_met: false,
        }
    }

    /// As `Client::with_timeout`, of each server.
    pub fn with_timeout(self, timeout: Option<Duration>) -> Cluster {
        self.with(|server| server.with_timeout(timeout))
    }

    /// As `Client::with_attempts`, of each server.
    pub fn with_attempts(self, attempts: u32, pause: Duration) -> Cluster {
        self.with(|server| server.with_attempts(attempts, pause))
    }

    fn with(mut self, change: impl Fn(Client) -> Client) -> Cluster {
        self.servers = self.servers.into_iter().map(change).collect();
        self
    }

    /// The servers' rows and columns: a cell beyond them is found out before anything is sent. By rows give it, since a
    /// server that refuses its part leaves a half batch.
    pub fn with_size(mut self, rows: u64, cols: u64) -> Cluster {
        self.size = (rows, cols);
        self
    }

    /// What the servers take (`--max-batches`), and how many places of it are left for batches that must be put again:
    /// 1,000,000 and 10,000 by default. A new batch behind them is a `Fault::Full`.
    pub fn with_batches(mut self, max_batches: u64, reserve: u64) -> Cluster {
        self.most = max_batches.saturating_sub(reserve);
        self
    }

    /// Closes the connections; the next call makes new ones.
    pub fn close(&mut self) {
        self.servers.iter_mut().for_each(Client::close);
    }

    /// Puts a batch, and gives the replies of the servers that got a part of it, in order.
    pub fn put(&mut self, number: u64, cells: &[Cell]) -> Result<Vec<Accepted>, Fault> {
        let mut replies = Vec::new();
        self.put_all([(number, cells)], 1, |_, accepted| replies = accepted)?;
        Ok(replies)
    }

    /// Puts batches, numbers with their cells, with up to `depth` of them on the way, 128 at most, and calls `replied`
    /// for each in order. Where one fails, those before it are given first; those behind it may have been accepted, and
    /// can be put again with their numbers, as the one that failed.
    pub fn put_all<B, C>(
        &mut self,
        batches: B,
        depth: usize,
        mut replied: impl FnMut(u64, Vec<Accepted>),
    ) -> Result<(), Fault>
    where
        B: IntoIterator<Item = (u64, C)>,
        C: AsRef<[Cell]>,
    {
        let mut batches = batches.into_iter();
        loop {
            let mut ahead = Vec::new();
            for (number, cells) in batches.by_ref().take(depth.clamp(1, MAX_DEPTH)) {
                ahead.push((number, self.cut(cells.as_ref())?));
            }
            if ahead.is_empty() {
                return Ok(());
            }
            self.meet()?;
            if let Some(place) = self.full {
                return Err(self.refused(place));
            }
            let (replies, outcome) = self.put_ahead(&ahead);
            for ((number, _), accepted) in ahead.iter().zip(whole(&replies)) {
                replied(*number, accepted);
            }
            self.judge(&ahead, &replies, outcome)?;
        }
    }

    /// The count of a cell; None where none is stored.
    pub fn cell(&mut self, row: u64, col: u64) -> Result<Option<u64>, Fault> {
        let counts = self.ask(&self.having(row), |server| server.cell(row, col))?;
        if counts.iter().all(Option::is_none) {
            return Ok(None);
        }
        added(counts.into_iter().flatten()).map(Some)
    }

    /// The sum of a row. By source a cell is counted in `entries` by each server that has it.
    pub fn row(&mut self, row: u64) -> Result<RowSum, Fault> {
        let sums = self.ask(&self.having(row), |server| server.row(row))?;
        Ok(RowSum {
            entries: added(sums.iter().map(|sum| sum.entries))?,
            total: added(sums.iter().map(|sum| sum.total))?,
        })
    }

    /// The cells of the sum whose row and column are from the first to the last of these, by row and then by column:
    /// those of all servers, merged, and where several have a cell its counts added up. Each server is asked page by
    /// page, of so many cells each. Behind a fault nothing more is given.
    pub fn range(
        &mut self,
        rows: RangeInclusive<u64>,
        cols: RangeInclusive<u64>,
        page: u64,
    ) -> impl Iterator<Item = Result<Cell, Fault>> + '_ {
        let places = match rows.start() == rows.end() {
            true => self.having(*rows.start()),
            false => self.all(),
        };
        let servers = self.servers.iter_mut().enumerate();
        let chosen = servers.filter(move |(place, _)| places.contains(place));
        let parts = chosen.map(move |(place, server)| {
            let (rows, cols) = (rows.clone(), cols.clone());
            let cells = paged(move |start| server.page(rows.clone(), cols.clone(), start, page));
            Part {
                place,
                cells: Box::new(cells),
                next: None,
            }
        });
        let mut parts: Vec<Part<'_>> = parts.collect();
        iter::from_fn(move || {
            let next = next_of(&mut parts);
            if matches!(next, Some(Err(_))) {
                parts.clear();
            }
            next
        })
    }

    /// The first `most` rows, of those that have a cell: the highest number first, and of equal ones the lowest row. By
    /// source a row's numbers are those of `row`: all servers' added up, so that `entries` counts a cell for each that
    /// has it. Each is then asked for more rows, and for single ones, until it is certain which lead.
    pub fn top(&mut self, most: u64, by: By) -> Result<Vec<TopRow>, Fault> {
        let mut depth = most;
        loop {
            let lists = self.ask(&self.all(), |server| server.top(depth, by))?;
            let lead = Lead { lists, depth, by };
            if self.way == Way::Rows {
                return lead.added(&[], most);
            }
            let missing = lead.unknown(most);
            let mut asked = Vec::new();
            for (place, rows) in missing.iter().enumerate() {
                asked.extend(self.ask(&[place], |server| sums_of(server, rows))?);
            }
            let leading = lead.added(&asked, most)?;
            if lead.is_decided(&leading) {
                return Ok(leading);
            }
            if depth == MAX_PAGE {
                return Err(Fault::Undecided);
            }
            depth = (4 * depth).min(MAX_PAGE);
        }
    }

    /// How many batches were accepted, markers aside, and their total. By rows the number is that of the server that
    /// has fewest, since each batch is at all of them.
    pub fn status(&mut self) -> Result<Status, Fault> {
        let told = self.ask(&self.all(), Client::status)?;
        self.counted(&told)
    }

    /// How many of the accepted batches are durable, and their total.
    pub fn stored(&mut self) -> Result<Status, Fault> {
        let told = self.ask(&self.all(), Client::stored)?;
        self.counted(&told)
    }

    /// The text of the sum of all accepted batches; each server's part of it has at most 64 MiB.
    pub fn export(&mut self) -> Result<Vec<u8>, Fault> {
        let texts = self.ask(&self.all(), Client::export)?;
        merged(&texts).ok_or(Fault::BadSum)
    }

    /// Saves a snapshot at each server, and gives their numbers of batches.
    pub fn save(&mut self) -> Result<Vec<u64>, Fault> {
        self.ask(&self.all(), Client::save)
    }

    /// Tells all servers to stop, as `Client::stop` does.
    pub fn stop(&mut self) -> Result<(), Fault> {
        self.ask(&self.all(), Client::stop).map(|_| ())
    }

    fn all(&self) -> Vec<usize> {
        (0..self.servers.len()).collect()
    }

    /// The places of the servers that may have cells of a row.
    fn having(&self, row: u64) -> Vec<usize> {
        match self.way {
            Way::Source => self.all(),
            Way::Rows => vec![place_of_row(row, self.servers.len())],
        }
    }

    fn counted(&self, told: &[Status]) -> Result<Status, Fault> {
        let counts = told.iter().map(|status| status.batches.saturating_sub(1));
        Ok(Status {
            batches: match self.way {
                Way::Source => added(counts)?,
                Way::Rows => counts.min().unwrap_or(0),
            },
            total: added(told.iter().map(|status| status.total))?,
        })
    }

    /// The part of a batch for each server that gets one.
    fn cut(&self, cells: &[Cell]) -> Result<Vec<Vec<Cell>>, Fault> {
        if cells
            .iter()
            .any(|cell| cell.row >= self.size.0 || cell.col >= self.size.1)
        {
            return Err(Fault::OutOfRange);
        }
        if self.way == Way::Source {
            return Ok(vec![cells.to_vec()]);
        }
        let mut parts = vec![Vec::new(); self.servers.len()];
        for cell in cells {
            parts[place_of_row(cell.row, self.servers.len())].push(*cell);
        }
        Ok(parts)
    }

    /// Before the first put: a connection to each server, over which it is known whether it is one of this map.
    fn meet(&mut self) -> Result<(), Fault> {
        if !self.has_met {
            self.ask(&self.all(), Client::status)?;
            for (place, server) in self.servers.iter_mut().enumerate() {
                if !self.putting.contains(&place) {
                    server.close();
                }
            }
            self.has_met = true;
        }
        Ok(())
    }

    /// That a book is full; but that servers went back, which then get again what they lack, comes before it.
    fn refused(&mut self, place: usize) -> Fault {
        match self.ask(&self.putting.clone(), Client::status) {
            Ok(_) => Fault::Full { place },
            Err(fault) => {
                if matches!(fault, Fault::WentBack(_)) {
                    self.full = None;
                }
                fault
            }
        }
    }

    /// What servers answer to a call, all asked at once.
    fn ask<T, F>(&mut self, places: &[usize], call: F) -> Result<Vec<T>, Fault>
    where
        T: Send,
        F: Fn(&mut Client) -> Result<T, Error> + Sync,
    {
        let call = &call;
        let outcome = thread::scope(|scope| {
            let chosen = self
                .servers
                .iter_mut()
                .enumerate()
                .filter(|(place, _)| places.contains(place));
            let threads: Vec<_> = chosen
                .map(|(place, server)| (place, scope.spawn(move || call(server))))
                .collect();
            gathered(
                threads
                    .into_iter()
                    .map(|(place, thread)| (place, thread.join())),
            )
        });
        outcome.judged()
    }

    /// Puts batches: the replies of each server to the first of them, and the faults. The others get a batch behind the
    /// reply of the first.
    fn put_ahead(&mut self, ahead: &[Batch]) -> (BTreeMap<usize, Replies>, Outcome<()>) {
        let putting = &self.putting;
        let first = putting[0];
        let mut replies: BTreeMap<usize, Replies> = putting
            .iter()
            .map(|place| (*place, Replies::default()))
            .collect();
        let outcome = thread::scope(|scope| {
            let mut lines = Vec::new();
            let mut threads = Vec::new();
            let mut lead = None;
            for ((place, server), into) in
                with_places(&mut self.servers, putting).zip(replies.values_mut())
            {
                let at = putting.iter().position(|it| *it == place).unwrap_or(0);
                if place == first {
                    lead = Some((server, into));
                    continue;
                }
                let (line, accepted) = mpsc::channel::<usize>();
                lines.push(line);
                threads.push((
                    place,
                    scope.spawn(move || {
                        let parts = accepted
                            .iter()
                            .map(|batch| (ahead[batch].0, &ahead[batch].1[at]));
                        into.put(server, parts, ahead.len(), |_| {})
                    }),
                ));
            }
            let mut ended = Vec::new();
            if let Some((server, into)) = lead {
                let parts = ahead.iter().map(|(number, parts)| (*number, &parts[0]));
                let tell = |batch| {
                    for line in &lines {
                        // (one that has met a fault takes no more)
                        let _ = line.send(batch);
                    }
                };
                ended.push((first, Ok(into.put(server, parts, ahead.len(), tell))));
            }
            drop(lines);
            gathered(
                ended.into_iter().chain(
                    threads
                        .into_iter()
                        .map(|(place, thread)| (place, thread.join())),
                ),
            )
        });
        (replies, outcome)
    }

    /// Ends a call by what its faults mean: a full book, a half batch; or notes a book that has its reserve left.
    fn judge(
        &mut self,
        ahead: &[Batch],
        replies: &BTreeMap<usize, Replies>,
        mut outcome: Outcome<()>,
    ) -> Result<(), Fault> {
        let first = self.putting[0];
        if outcome.faults.is_empty() {
            let is_full = |it: &Replies| it.highest() >= it.before && it.highest() + 1 >= self.most;
            self.full = replies
                .iter()
                .find(|(_, it)| is_full(it))
                .map(|(place, _)| *place);
            return Ok(());
        }
        let back = |error: &Error| matches!(error, Error::BookWentBack { .. });
        if outcome.faults.values().any(back) {
            return outcome.judged().map(|_| ());
        }
        let mut refusals = BTreeMap::new();
        outcome.faults.retain(|place, error| match error {
            Error::Refused(refusal) if *place != first => {
                refusals.insert(*place, *refusal).is_some()
            }
            _ => true,
        });
        if let Some(at) = refusals
            .keys()
            .map(|place| replies[place].accepted.len())
            .min()
        {
            refusals.retain(|place, _| replies[place].accepted.len() == at);
            return Err(Fault::Half {
                number: ahead[at].0,
                refusals,
            });
        }
        match outcome.faults.get(&first) {
            Some(Error::Refused(refusal)) if refusal.code == 32 => {
                Err(Fault::Full { place: first })
            }
            _ => outcome.judged().map(|_| ()),
        }
    }
}

/// The cells of a range that one server has, and the one that is next.
struct Part<'a> {
    place: usize,
    cells: Box<dyn Iterator<Item = Result<Cell, Error>> + 'a>,
    next: Option<Cell>,
}

/// The next cell of all servers, its counts added up; nothing at the end.
fn next_of(parts: &mut Vec<Part<'_>>) -> Option<Result<Cell, Fault>> {
    for part in parts.iter_mut().filter(|part| part.next.is_none()) {
        match part.cells.next() {
            Some(Err(error)) => return Some(Err(fault_of(part.place, error))),
            next => part.next = next.and_then(Result::ok),
        }
    }
    parts.retain(|part| part.next.is_some());
    let next = |part: &Part<'_>| part.next.map(|cell| (cell.row, cell.col));
    let (row, col) = parts.iter().filter_map(next).min()?;
    let here = parts
        .iter_mut()
        .filter(|part| next(part) == Some((row, col)));
    let counts = here.filter_map(|part| part.next.take());
    let count = added(counts.map(|cell| cell.count));
    Some(count.map(|count| Cell { row, col, count }))
}

/// What a server's client met, as a fault of the cluster.
fn fault_of(place: usize, error: Error) -> Fault {
    match error {
        Error::BookWentBack { .. } => Fault::WentBack(BTreeMap::from([(place, error)])),
        error => Fault::Server { place, error },
    }
}

/// What a server says of some rows.
fn sums_of(server: &mut Client, rows: &[u64]) -> Result<Vec<TopRow>, Error> {
    let sum = |row: &u64| {
        server.row(*row).map(|it| TopRow {
            row: *row,
            entries: it.entries,
            total: it.total,
        })
    };
    rows.iter().map(sum).collect()
}

/// What servers have told of the rows that lead: of each its first `depth` rows, or all that it has.
struct Lead {
    lists: Vec<Vec<TopRow>>,
    depth: u64,
    by: By,
}

impl Lead {
    /// The last row that each of the servers tells which may have others; nothing of one that tells all rows.
    fn lasts(&self) -> Vec<Option<TopRow>> {
        let is_cut = |rows: &&Vec<TopRow>| rows.len() as u64 == self.depth;
        let last = |rows| Some(rows).filter(is_cut).and_then(|rows| rows.last());
        self.lists.iter().map(|rows| last(rows).copied()).collect()
    }

    /// The most that a row may have in each of the servers which don't tell it.
    fn ends(&self) -> Vec<u128> {
        let end = |last: &Option<TopRow>| last.map_or(0, |it| it.number(self.by).into());
        self.lasts().iter().map(end).collect()
    }

    /// The rows that each of the servers must be asked for, since they may be among the first `most`.
    fn unknown(&self, most: u64) -> Vec<Vec<u64>> {
        let (lasts, ends) = (self.lasts(), self.ends());
        // (what a row has at least, and what it has at most behind that)
        let mut rows: HashMap<u64, (u128, u128)> = HashMap::new();
        let bound: u128 = ends.iter().sum();
        for (list, end) in self.lists.iter().zip(&ends) {
            for it in list {
                let known = rows.entry(it.row).or_insert((0, bound));
                known.0 += u128::from(it.number(self.by));
                known.1 -= end;
            }
        }
        let mut least: Vec<u128> = rows.values().map(|it| it.0).collect();
        least.sort_unstable_by(|one, other| other.cmp(one));
        let least = least.get(most as usize - 1).copied().unwrap_or(0);
        rows.retain(|_, known| known.0 + known.1 >= least);
        let missing = |(list, last): (&Vec<TopRow>, &Option<TopRow>)| {
            let told: HashSet<u64> = list.iter().map(|it| it.row).collect();
            let rows = rows.keys().filter(|row| !told.contains(row));
            last.map_or(Vec::new(), |_| rows.copied().collect())
        };
        self.lists.iter().zip(&lasts).map(missing).collect()
    }

    /// The first rows of those that are told, with what servers were asked for.
    fn added(&self, asked: &[Vec<TopRow>], most: u64) -> Result<Vec<TopRow>, Fault> {
        let mut sums: HashMap<u64, TopRow> = HashMap::new();
        for it in self.lists.iter().chain(asked).flatten() {
            let sum = sums.entry(it.row).or_insert(TopRow {
                row: it.row,
                entries: 0,
                total: 0,
            });
            sum.entries = added([sum.entries, it.entries].into_iter())?;
            sum.total = added([sum.total, it.total].into_iter())?;
        }
        let mut rows: Vec<TopRow> = sums.into_values().collect();
        rows.sort_unstable_by(|one, other| order_of(one, other, self.by));
        rows.truncate(most as usize);
        Ok(rows)
    }

    /// Whether no row that no server tells stands before the last of these. One with as much as all ends together
    /// stands behind the end of each list.
    fn is_decided(&self, leading: &[TopRow]) -> bool {
        let behind = self.lasts().iter().flatten().map(|it| it.row).max();
        let (Some(behind), Some(last)) = (behind, leading.last()) else {
            return behind.is_none();
        };
        let number = u128::from(last.number(self.by));
        let bound: u128 = self.ends().iter().sum();
        number > bound || (number == bound && last.row <= behind)
    }
}

/// A server's replies to the first of some batches, and how many batches its book had before.
#[derive(Default)]
struct Replies {
    before: u64,
    accepted: Vec<Accepted>,
}

impl Replies {
    fn put<'a, I>(
        &mut self,
        server: &mut Client,
        parts: I,
        depth: usize,
        tell: impl Fn(usize),
    ) -> Result<(), Error>
    where
        I: Iterator<Item = (u64, &'a Vec<Cell>)>,
    {
        self.before = server.status()?.batches;
        server.put_all(parts, depth, |_, reply| {
            tell(self.accepted.len());
            self.accepted.push(reply);
        })
    }

    fn highest(&self) -> u64 {
        self.accepted
            .iter()
            .map(|reply| reply.index)
            .max()
            .unwrap_or(0)
    }
}

/// The replies to those batches that all servers have accepted.
fn whole(replies: &BTreeMap<usize, Replies>) -> Vec<Vec<Accepted>> {
    let count = replies
        .values()
        .map(|it| it.accepted.len())
        .min()
        .unwrap_or(0);
    (0..count)
        .map(|at| replies.values().map(|it| it.accepted[at]).collect())
        .collect()
}

/// Those of the servers that stand at these places, with their places.
fn with_places<'a>(
    servers: &'a mut [Client],
    places: &'a [usize],
) -> impl Iterator<Item = (usize, &'a mut Client)> + 'a {
    servers
        .iter_mut()
        .enumerate()
        .filter(|(place, _)| places.contains(place))
}

/// The answers of threads; one that panicked passes its panic on.
fn gathered<T>(
    ended: impl Iterator<Item = (usize, thread::Result<Result<T, Error>>)>,
) -> Outcome<T> {
    let mut outcome = Outcome {
        answers: BTreeMap::new(),
        faults: BTreeMap::new(),
    };
    for (place, answer) in ended {
        match answer {
            Ok(Ok(answer)) => drop(outcome.answers.insert(place, answer)),
            Ok(Err(error)) => drop(outcome.faults.insert(place, error)),
            Err(panic) => std::panic::resume_unwind(panic),
        }
    }
    outcome
}

fn added(numbers: impl Iterator<Item = u64>) -> Result<u64, Fault> {
    numbers
        .into_iter()
        .try_fold(0u64, |sum, it| sum.checked_add(it))
        .ok_or(Fault::BadSum)
}

/// The text of the sum of texts that servers wrote; nothing where they don't belong together.
fn merged(texts: &[Vec<u8>]) -> Option<Vec<u8>> {
    let mut cells: BTreeMap<(u64, u64), u64> = BTreeMap::new();
    let mut head: Option<(String, u64, u64)> = None;
    for text in texts {
        let mut lines = std::str::from_utf8(text).ok()?.lines();
        let banner = lines.next()?.to_string();
        let [rows, cols, _] = numbers_of(lines.next()?)?;
        let this = (banner, rows, cols);
        if *head.get_or_insert_with(|| this.clone()) != this {
            return None;
        }
        for line in lines {
            let [row, col, count] = numbers_of(line)?;
            let sum = cells.entry((row, col)).or_insert(0);
            *sum = sum.checked_add(count)?;
        }
    }
    let (banner, rows, cols) = head?;
    let mut text = format!("{banner}\n{rows} {cols} {}\n", cells.len());
    for ((row, col), count) in cells {
        text += &format!("{row} {col} {count}\n");
    }
    Some(text.into_bytes())
}

fn numbers_of(line: &str) -> Option<[u64; 3]> {
    let mut words = line.split(' ').map(|word| word.parse().ok());
    Some([words.next()??, words.next()??, words.next()??])
}
