//! A client of `hhm serve`, on the standard library alone (Rust 1.65 or later, Unix).
//!
//! ```ignore
//! mod hhm_client; // this file, beside the program's
//! use hhm_client::{Cell, Client};
//!
//! fn main() -> Result<(), hhm_client::Error> {
//!     let mut hhm = Client::unix("/run/hhm/hhm.sock", 7);
//!     hhm.put(1, &[Cell { row: 0, col: 0, count: 5 }, Cell { row: 2, col: 1, count: 7 }])?;
//!     println!("{:?} {:?} {:?}", hhm.cell(0, 0)?, hhm.row(2)?, hhm.status()?);
//!     Ok(())
//! }
//! ```
//!
//! A batch counts once. It is known by two numbers, the client's and its own: where the reply to a put is lost, the
//! client connects again and sends the same batch with the same numbers, and the server answers what it answered first.
//! So a pair of numbers belongs to one batch for ever: another batch under a known pair, with as many cells and the
//! same total, is answered as the first one was, and isn't counted. `docs/OPERATING.md` tells how to choose numbers,
//! and `docs/FORMATS.md` describes the frames. Rows and columns count from 0.
//!
//! A call that panics, in what the caller gave it, closes the connection. After a fork each process makes a connection
//! of its own.

// A program uses some of it.
#![allow(dead_code)]

use std::cmp::Ordering;
use std::collections::VecDeque;
use std::fmt;
use std::io::{self, Read, Write};
use std::iter;
use std::net::{TcpStream, ToSocketAddrs};
use std::ops::RangeInclusive;
use std::os::fd::OwnedFd;
use std::os::unix::net::UnixStream;
use std::path::{Path, PathBuf};
use std::process;
use std::sync::mpsc;
use std::thread;
use std::time::{Duration, Instant};

/// The bytes of the longest body of a frame.
pub const MAX_BODY: usize = 67_108_864;
/// The most cells of a batch.
pub const MAX_CELLS: usize = 1_048_576;
/// The most batches that `put_all` has on the way: the replies to so many fit into any socket's buffer.
pub const MAX_DEPTH: usize = 128;
/// The most cells of a page of a range, and the most rows of a top.
pub const MAX_PAGE: u64 = 1_000_000;

/// A count at a place; both numbers of the place count from 0.
#[derive(Clone, Copy, Debug, PartialEq, Eq)]
pub struct Cell {
    pub row: u64,
    pub col: u64,
    pub count: u64,
}

/// The place of a batch in the list of accepted batches, from 0, and the accepted total with it.
#[derive(Clone, Copy, Debug, PartialEq, Eq)]
pub struct Accepted {
    pub index: u64,
    pub total_after: u64,
}

/// How many cells a row has, stored zeros included, and the sum of their counts.
#[derive(Clone, Copy, Debug, PartialEq, Eq)]
pub struct RowSum {
    pub entries: u64,
    pub total: u64,
}

/// How many batches were accepted, and their total.
#[derive(Clone, Copy, Debug, PartialEq, Eq)]
pub struct Status {
    pub batches: u64,
    pub total: u64,
}

/// The identity of a server's book. A server that begins again keeps it by its snapshot or log; without them it has a
/// new book. `Display` writes it as the server does: 32 hexadecimal digits.
#[derive(Clone, Copy, Debug, PartialEq, Eq, Hash)]
pub struct BookId(pub u128);

impl BookId {
    /// The identity that a reply to a Stats has; None where it has none.
    fn of(stats: &[u8]) -> Option<BookId> {
        let line = stats
            .split(|byte| *byte == b'\n')
            .find_map(|line| line.strip_prefix(b"book{id=\"")?.strip_suffix(b"\"} 1"))?;
        let is_lower_hex = |byte: &u8| matches!(byte, b'0'..=b'9' | b'a'..=b'f');
        let is_id = line.len() == 32 && line.iter().all(is_lower_hex);
        let digits = std::str::from_utf8(line).ok().filter(|_| is_id)?;
        u128::from_str_radix(digits, 16).ok().map(BookId)
    }
}

impl fmt::Display for BookId {
    fn fmt(&self, out: &mut fmt::Formatter<'_>) -> fmt::Result {
        write!(out, "{:032x}", self.0)
    }
}

/// Cells of a range, by row and then by column, and whether further ones follow.
#[derive(Clone, Debug, PartialEq, Eq)]
pub struct Page {
    pub cells: Vec<Cell>,
    pub has_more: bool,
}

/// What the rows of a top lead by.
#[derive(Clone, Copy, Debug, PartialEq, Eq)]
pub enum By {
    /// The sum of the counts.
    Total,
    /// The number of the cells, stored zeros included.
    Entries,
}

/// A row, how many cells it has, stored zeros included, and the sum of their counts.
#[derive(Clone, Copy, Debug, PartialEq, Eq)]
pub struct TopRow {
    pub row: u64,
    pub entries: u64,
    pub total: u64,
}

impl TopRow {
    /// The number that rows lead by.
    pub fn number(&self, by: By) -> u64 {
        match by {
            By::Total => self.total,
            By::Entries => self.entries,
        }
    }
}

/// Why the server refused a request; nothing was changed.
#[derive(Clone, Copy, Debug, PartialEq, Eq)]
pub struct Refusal {
    /// As `docs/FORMATS.md` has it; `Display` gives its name.
    pub code: u16,
    /// The line of a text's fault (codes above 100), the place from 0 of the first cell of a batch that is out of range
    /// (22), the accepted total (31), and else 0.
    pub detail: u64,
}

impl Refusal {
    /// The name of the code; None where the server has one that this client doesn't know.
    pub fn name(&self) -> Option<&'static str> {
        Some(match self.code {
            1 => "Memory",
            20 => "DimensionsDiffer",
            21 => "SumTooLarge",
            22 => "IndexOutOfRange",
            23 => "TooManyCells",
            30 => "NumberReused",
            31 => "OverTotal",
            32 => "BookFull",
            33 => "RecordsDiffer",
            34 => "LogFull",
            35 => "LogFailed",
            40 => "ReplyTooLarge",
            41 => "OutOfRange",
            42 => "SaveFailed",
            43 => "SaveOff",
            44 => "BadCount",
            50 => "TooLarge",
            51 => "UnknownKind",
            52 => "BadLength",
            103 => "BadBanner",
            104 => "Unsupported",
            105 => "LineTooLong",
            106 => "BadSize",
            107 => "BadDimension",
            108 => "NotSquare",
            109 => "TooManyEntries",
            110 => "BadEntry",
            111 => "Negative",
            112 => "NumberTooLarge",
            113 => "IndexOutOfRange",
            114 => "TooFewEntries",
            115 => "ExtraText",
            116 => "TooLong",
            _ => return None,
        })
    }

    /// Whether the server ends the session after this refusal.
    fn ends_session(&self) -> bool {
        matches!(self.code, 1 | 50 | 51 | 52)
    }

    /// Whether the server's log has no room or has failed, which says nothing of whether the batch is there.
    fn is_of_log(&self) -> bool {
        matches!(self.code, 34 | 35)
    }
}

impl fmt::Display for Refusal {
    fn fmt(&self, out: &mut fmt::Formatter<'_>) -> fmt::Result {
        match self.name() {
            Some(name) => out.write_str(name)?,
            None => write!(out, "code {}", self.code)?,
        }
        match self.code {
            22 => write!(out, " at cell {}", self.detail),
            31 => write!(out, ": {} accepted", self.detail),
            101.. => write!(out, " at line {}", self.detail),
            _ => Ok(()),
        }
    }
}

/// Why a call has no answer.
#[derive(Debug)]
pub enum Error {
    /// The server refused the request; nothing was changed. The client goes on.
    Refused(Refusal),
    /// A batch has more cells, or a text more bytes, than a server takes. Nothing was sent.
    TooLarge,
    /// What came is no reply to what was asked. The connection is closed.
    BadReply,
    /// The server lacks what it had accepted: it began again from an older snapshot, or without one. `had` is what this
    /// client's replies said of the accepted batches, `has` what the server says of them now. What this client put
    /// since the last save may be missing: put it again, with its numbers, and what this call was given, of which
    /// nothing was sent to the server as it is now. The client goes on. `had_id` and `has_id` are the identities of its
    /// book then and now, where it reported them; where they differ it is another book.
    BookWentBack {
        had: Status,
        has: Status,
        had_id: Option<BookId>,
        has_id: Option<BookId>,
    },
    /// The first batch of the server's book isn't the marker that this client demands (`Client::with_marker`). Nothing
    /// but the marker was put over this connection.
    OtherMap,
    /// A fault of the connection that outlasted all attempts. Whether a put was accepted isn't known: put it again with
    /// its number.
    Io(io::Error),
}

impl fmt::Display for Error {
    fn fmt(&self, out: &mut fmt::Formatter<'_>) -> fmt::Result {
        match self {
            Error::Refused(refusal) => write!(out, "refused: {refusal}"),
            Error::TooLarge => write!(
                out,
                "a batch has at most {MAX_CELLS} cells or {} bytes of text",
                MAX_BODY - 16
            ),
            Error::BadReply => out.write_str("what came is no reply to what was asked"),
            Error::BookWentBack {
                had,
                has,
                had_id,
                has_id,
            } => {
                write!(
                    out,
                    "the server went back: it had {} batches with total {}, which aren't all there, and \
                     has {} with total {}",
                    had.batches, had.total, has.batches, has.total
                )?;
                match (had_id, has_id) {
                    (Some(had), Some(has)) if had != has => {
                        write!(out, "; its book was {had}, and is {has}")
                    }
                    _ => Ok(()),
                }
            }
            Error::OtherMap => out.write_str("the server is one of another map"),
            Error::Io(fault) => fault.fmt(out),
        }
    }
}

impl std::error::Error for Error {
    fn source(&self) -> Option<&(dyn std::error::Error + 'static)> {
        match self {
            Error::Io(fault) => Some(fault),
            _ => None,
        }
    }
}

impl From<io::Error> for Error {
    fn from(fault: io::Error) -> Error {
        Error::Io(fault)
    }
}

enum Address {
    Tcp(String),
    Unix(PathBuf),
}

/// For how long a write may block before it is looked whether replies came.
const PATIENCE: Duration = Duration::from_millis(10);

/// A connection of this process. Who leaves one amid a frame or a reply drops it.
struct Link {
    /// A socket, of TCP too: reads, writes and timeouts are the same calls.
    stream: UnixStream,
    timeout: Option<Duration>,
    process: u32,
    /// What was read of replies while requests were sent.
    early: VecDeque<u8>,
    /// Whether the server needn't be asked any more which book it has, and the identity of that, where it is known.
    knows_book: bool,
    book_id: Option<BookId>,
}

impl Link {
    fn new(stream: UnixStream, timeout: Option<Duration>) -> io::Result<Link> {
        stream.set_read_timeout(timeout)?;
        stream.set_write_timeout(Some(timeout.map_or(PATIENCE, |it| it.min(PATIENCE))))?;
        Ok(Link {
            stream,
            timeout,
            process: process::id(),
            early: VecDeque::new(),
            knows_book: false,
            book_id: None,
        })
    }

    /// Asks, once over a connection, which book the server has. Gives whether the connection is still open: a server
    /// that doesn't know the question, or has no memory for its answer, ends it.
    fn ask_book(&mut self) -> Result<bool, Error> {
        if self.knows_book {
            return Ok(true);
        }
        self.knows_book = true;
        self.send(&request(12, &[]))?;
        match reply_of(self, TOLD) {
            Ok(body) => self.book_id = BookId::of(&body),
            Err(Error::Refused(refusal)) => return Ok(!refusal.ends_session()),
            Err(fault) => return Err(fault),
        }
        Ok(true)
    }

    /// What is left of the timeout since then; a fault where nothing is.
    fn left(&self, since: Instant) -> io::Result<Option<Duration>> {
        let left = self.timeout.map(|it| it.saturating_sub(since.elapsed()));
        match left {
            Some(Duration::ZERO) => Err(io::ErrorKind::TimedOut.into()),
            left => Ok(left),
        }
    }

    /// Sends a request. Replies that come meanwhile are read, since a server reads nothing while it can't write.
    /// That it closed the connection is found out when its last reply was read.
    fn send(&mut self, mut rest: &[u8]) -> io::Result<()> {
        let mut since = Instant::now();
        while !rest.is_empty() {
            match self.stream.write(rest) {
                Ok(0) => return Err(io::ErrorKind::WriteZero.into()),
                Ok(count) => {
                    rest = &rest[count..];
                    since = Instant::now();
                }
                Err(fault) if is_pause(&fault) => {
                    self.left(since)?;
                    self.read_early()?;
                }
                Err(fault) if is_end(&fault) => return Ok(()),
                Err(fault) => return Err(fault),
            }
        }
        Ok(())
    }

    /// Reads what has come, some thousand replies at most.
    fn read_early(&mut self) -> io::Result<()> {
        let mut piece = [0; 4096];
        if self.early.len() < 16 * piece.len() {
            self.stream.set_nonblocking(true)?;
            let got = self.stream.read(&mut piece);
            self.stream.set_nonblocking(false)?;
            match got {
                Ok(count) => self.early.extend(&piece[..count]),
                Err(fault) if is_pause(&fault) => {}
                Err(fault) => return Err(fault),
            }
        }
        Ok(())
    }

    /// Fills a buffer with the next bytes of replies.
    fn receive(&mut self, buffer: &mut [u8]) -> io::Result<()> {
        let mut have = self.early.len().min(buffer.len());
        buffer
            .iter_mut()
            .zip(self.early.drain(..have))
            .for_each(|(to, from)| *to = from);
        let mut since = Instant::now();
        let mut is_cut = false;
        while have < buffer.len() {
            match self.stream.read(&mut buffer[have..]) {
                Ok(0) => return Err(io::ErrorKind::UnexpectedEof.into()),
                Ok(count) => {
                    have += count;
                    since = Instant::now();
                    if is_cut {
                        self.stream.set_read_timeout(self.timeout)?;
                        is_cut = false;
                    }
                }
                Err(fault) if is_pause(&fault) => {
                    let left = self.left(since)?;
                    self.stream.set_read_timeout(left)?;
                    is_cut = true;
                }
                Err(fault) => return Err(fault),
            }
        }
        Ok(())
    }
}

/// Whether a call did nothing since nothing came in time, or a signal interrupted it.
fn is_pause(fault: &io::Error) -> bool {
    use io::ErrorKind::{Interrupted, TimedOut, WouldBlock};
    matches!(fault.kind(), Interrupted | TimedOut | WouldBlock)
}

fn is_end(fault: &io::Error) -> bool {
    use io::ErrorKind::{BrokenPipe, ConnectionReset};
    matches!(fault.kind(), BrokenPipe | ConnectionReset)
}

/// Connects to a Unix socket. The connecting blocks where the queue of those who wait there is full, and the standard
/// library has no timeout for it, so a thread does it, which is left alone after the timeout.
fn connect_unix(path: &Path, timeout: Option<Duration>) -> io::Result<UnixStream> {
    let Some(timeout) = timeout else {
        return UnixStream::connect(path);
    };
    let (sender, receiver) = mpsc::channel();
    let path = path.to_path_buf();
    thread::Builder::new().spawn(move || sender.send(UnixStream::connect(path)))?;
    receiver
        .recv_timeout(timeout)
        .unwrap_or_else(|_| Err(io::ErrorKind::TimedOut.into()))
}

/// What a reply must be: its kind, and the length of its body where that is fixed.
#[derive(Clone, Copy)]
struct Wanted {
    kind: u8,
    len: Option<usize>,
}

const fn wanted(kind: u8, len: Option<usize>) -> Wanted {
    Wanted { kind, len }
}

const ACCEPTED: Wanted = wanted(0x81, Some(16));
const VALUE: Wanted = wanted(0x82, Some(9));
const ROW_SUM: Wanted = wanted(0x83, Some(16));
const COUNTS: Wanted = wanted(0x84, Some(16));
const TEXT: Wanted = wanted(0x85, None);
const SAVED: Wanted = wanted(0x86, Some(8));
const STOPPING: Wanted = wanted(0x87, Some(0));
const CELLS: Wanted = wanted(0x88, None);
const ROWS: Wanted = wanted(0x89, None);
const TOLD: Wanted = wanted(0x8a, None);

/// A connection to a server, made when it is first needed, and made again where it is lost; every request is then sent
/// again. Over each new connection a client that has put batches asks for the book's identity and the status, and puts
/// the last of them again, which it keeps for that (`Error::BookWentBack`). A server with a log (`hhm serve --log`)
/// lost nothing that it answered, so there a program needn't keep what was accepted; without one it keeps that until a
/// save. Dropping it closes the connection; what was accepted stays.
pub struct Client {
    address: Address,
    number: u64,
    timeout: Option<Duration>,
    attempts: u32,
    pause: Duration,
    marker: Option<u64>,
    link: Option<Link>,
    last: Option<Last>,
}

/// An accepted batch, the one with the highest place of those that were put, and the identity of its book, where that
/// is known.
struct Last {
    frame: Vec<u8>,
    accepted: Accepted,
    book_id: Option<BookId>,
}

impl Last {
    /// What its reply said of the accepted batches.
    fn book(&self) -> Status {
        Status {
            batches: self.accepted.index + 1,
            total: self.accepted.total_after,
        }
    }

    /// What the server has, where it lacks what it had with this batch, as another book does. Where the status doesn't
    /// show it, since others have put meanwhile, the batch that is put again has another place, or is refused.
    fn missed(&self, link: &mut Link) -> Result<Option<Status>, Error> {
        link.send(&request(4, &[]))?;
        let has = status_of(&reply_of(link, COUNTS)?);
        let ids = self.book_id.zip(link.book_id);
        if ids.map_or(false, |(had, has)| had != has) || went_back(self.book(), has) {
            return Ok(Some(has));
        }
        link.send(&self.frame)?;
        match reply_of(link, ACCEPTED) {
            Ok(body) => Ok((accepted_of(&body) != self.accepted).then_some(has)),
            Err(Error::Refused(refusal)) if refusal.is_of_log() => Ok(None),
            Err(Error::Refused(refusal)) if !refusal.ends_session() => Ok(Some(has)),
            Err(fault) => Err(fault),
        }
    }
}

impl Client {
    /// A client of a server at `host:port`. No other program puts under this number.
    pub fn tcp(address: impl Into<String>, number: u64) -> Client {
        Client::new(Address::Tcp(address.into()), number)
    }

    /// A client of a server at a Unix socket. No other program puts under this number.
    pub fn unix(path: impl Into<PathBuf>, number: u64) -> Client {
        Client::new(Address::Unix(path.into()), number)
    }

    fn new(address: Address, number: u64) -> Client {
        Client {
            address,
            number,
            timeout: Some(Duration::from_secs(60)),
            attempts: 14,
            pause: Duration::from_millis(50),
            marker: None,
            link: None,
            last: None,
        }
    }

    /// For how long a reply, or the sending of a request, may stand still: a minute by default; None, or no time, is
    /// for ever. A timeout is a fault of the connection like others. Counts from the next connection on.
    pub fn with_timeout(mut self, timeout: Option<Duration>) -> Client {
        self.timeout = timeout.filter(|it| !it.is_zero());
        self
    }

    /// How often a request is sent before a fault of the connection is given up, and the pause after the first fault;
    /// it doubles, up to ten seconds. The default, 14 and 50 ms, tries for a minute: a server that starts from a large
    /// snapshot listens only after some seconds.
    pub fn with_attempts(mut self, attempts: u32, pause: Duration) -> Client {
        self.attempts = attempts.max(1);
        self.pause = pause;
        self
    }

    /// Over each new connection, before anything else, an empty batch of client 2^64 - 1 with this number is put, which
    /// must be the first of the server's book (`Error::OtherMap`).
    pub fn with_marker(mut self, marker: u64) -> Client {
        self.marker = Some(marker);
        self
    }

    /// Closes the connection; the next call makes a new one.
    pub fn close(&mut self) {
        self.link = None;
    }

    /// Puts a batch of cells, of which one may stand in it repeatedly. `number` belongs to this batch for ever.
    pub fn put(&mut self, number: u64, cells: &[Cell]) -> Result<Accepted, Error> {
        let frame = put_cells_frame(self.number, number, cells)?;
        let body = self.ask(&frame, ACCEPTED)?;
        let book_id = self.link.as_ref().and_then(|link| link.book_id);
        Ok(self.noted(frame, &body, book_id))
    }

    /// Puts a batch that is a Matrix Market text, with no more rows and no more columns than the server has.
    pub fn put_text(&mut self, number: u64, text: &[u8]) -> Result<Accepted, Error> {
        if text.len() > MAX_BODY - 16 {
            return Err(Error::TooLarge);
        }
        let mut frame = put_head(1, 16 + text.len(), self.number, number);
        frame.extend_from_slice(text);
        let body = self.ask(&frame, ACCEPTED)?;
        let book_id = self.link.as_ref().and_then(|link| link.book_id);
        Ok(self.noted(frame, &body, book_id))
    }

    /// Puts batches, numbers with their cells, with up to `depth` of them on the way, 128 at most, and calls `replied`
    /// for each in order. Where the connection is lost, all that had no reply yet are sent again.
    ///
    /// The first refusal, or batch that is too large, ends it. Others on the way may have been accepted: they can be
    /// put again with their numbers. Keeps the frames on the way in memory, 24 bytes a cell.
    pub fn put_all<B, C>(
        &mut self,
        batches: B,
        depth: usize,
        mut replied: impl FnMut(u64, Accepted),
    ) -> Result<(), Error>
    where
        B: IntoIterator<Item = (u64, C)>,
        C: AsRef<[Cell]>,
    {
        let mut batches = batches.into_iter();
        let mut numbers = VecDeque::new();
        let mut way = Way::over(self.link.take());
        loop {
            while numbers.len() < depth.clamp(1, MAX_DEPTH) {
                let Some((number, cells)) = batches.next() else {
                    break;
                };
                let frame = put_cells_frame(self.number, number, cells.as_ref())?;
                numbers.push_back(number);
                self.send_ahead(&mut way, frame)?;
            }
            let Some(number) = numbers.pop_front() else {
                break;
            };
            let (frame, body) = self.first_reply(&mut way, ACCEPTED)?;
            let book_id = way.link.as_ref().and_then(|link| link.book_id);
            replied(number, self.noted(frame, &body, book_id));
        }
        self.link = way.link;
        Ok(())
    }

    /// The count of a cell; None where none is stored.
    pub fn cell(&mut self, row: u64, col: u64) -> Result<Option<u64>, Error> {
        let body = self.ask(&request(2, &[row, col]), VALUE)?;
        Ok((body[0] == 1).then(|| number_at(&body, 1)))
    }

    /// The sum of a row.
    pub fn row(&mut self, row: u64) -> Result<RowSum, Error> {
        let body = self.ask(&request(3, &[row]), ROW_SUM)?;
        Ok(RowSum {
            entries: number_at(&body, 0),
            total: number_at(&body, 8),
        })
    }

    /// How many batches were accepted, and their total. Counts every put that was answered before.
    pub fn status(&mut self) -> Result<Status, Error> {
        let body = self.ask(&request(4, &[]), COUNTS)?;
        Ok(status_of(&body))
    }

    /// How many of the accepted batches are durable, the first so many, and their total: a crash of the server's
    /// machine takes none of them back. A server without a log gives all that it accepted.
    pub fn stored(&mut self) -> Result<Status, Error> {
        let body = self.ask(&request(9, &[]), COUNTS)?;
        Ok(status_of(&body))
    }

    /// The cells of the sum whose row and column are from the first to the last of these, by row and then by column.
    /// They are asked for page by page, of so many cells each, at most `MAX_PAGE` (10,000 are good): a page has what
    /// stands there when it is asked for. Behind a fault nothing more is given.
    pub fn range(
        &mut self,
        rows: RangeInclusive<u64>,
        cols: RangeInclusive<u64>,
        page: u64,
    ) -> impl Iterator<Item = Result<Cell, Error>> + '_ {
        paged(move |start| self.page(rows.clone(), cols.clone(), start, page))
    }

    /// The first `most` cells of such a range, at most `MAX_PAGE`, that stand at the place `start`, a row and a column,
    /// or behind it.
    pub fn page(
        &mut self,
        rows: RangeInclusive<u64>,
        cols: RangeInclusive<u64>,
        start: (u64, u64),
        most: u64,
    ) -> Result<Page, Error> {
        let bounds = [*rows.start(), *rows.end(), *cols.start(), *cols.end()];
        let [first_row, last_row, first_col, last_col] = bounds;
        let numbers = [
            first_row, last_row, first_col, last_col, start.0, start.1, most,
        ];
        let body = self.ask(&request(10, &numbers), CELLS)?;
        self.read(page_of(&body, &rows, &cols, start, most))
    }

    /// The first `most` rows, at most `MAX_PAGE`, of those that have a cell: the highest number first, and of equal
    /// ones the lowest row.
    pub fn top(&mut self, most: u64, by: By) -> Result<Vec<TopRow>, Error> {
        let mut frame = vec![0, 0, 0, 9, 11, u8::from(by == By::Entries)];
        frame.extend_from_slice(&most.to_be_bytes());
        let body = self.ask(&frame, ROWS)?;
        self.read(top_of(&body, most, by))
    }

    /// The first `most` groups, at most `MAX_PAGE`, of these rows. Rows are in one group if their numbers are the same
    /// without their last `shift` bits, 0 to 63; the number that is left is the group's `row`. The order is that of
    /// `top`. A server that doesn't know the question refuses it (code 51).
    pub fn groups(
        &mut self,
        rows: RangeInclusive<u64>,
        shift: u8,
        most: u64,
        by: By,
    ) -> Result<Vec<TopRow>, Error> {
        let mut frame = vec![0, 0, 0, 26, 18, u8::from(by == By::Entries), shift];
        for number in [most, *rows.start(), *rows.end()] {
            frame.extend_from_slice(&number.to_be_bytes());
        }
        let body = self.ask(&frame, ROWS)?;
        self.read(top_of(&body, most, by))
    }

    /// What the server tells of itself: names, of which a program takes those that it knows, and values. One that
    /// doesn't know the question refuses it (code 51).
    pub fn stats(&mut self) -> Result<Vec<(String, String)>, Error> {
        let body = self.ask(&request(12, &[]), TOLD)?;
        self.read(stats_of(body))
    }

    /// What was read of a reply; one that can't be what was asked for leaves no connection.
    fn read<T>(&mut self, found: Option<T>) -> Result<T, Error> {
        found.ok_or_else(|| {
            self.close();
            Error::BadReply
        })
    }

    /// The sum of all accepted batches as a Matrix Market text, whose rows and columns count from 1.
    pub fn export(&mut self) -> Result<Vec<u8>, Error> {
        self.ask(&request(5, &[]), TEXT)
    }

    /// Saves a snapshot where the server was told to, and gives its number of batches. Where no answer comes in time
    /// the save may be under way, and it isn't asked for again.
    pub fn save(&mut self) -> Result<u64, Error> {
        let body = self.ask(&request(6, &[]), SAVED)?;
        Ok(number_at(&body, 0))
    }

    /// Folds what the server has accepted, with a log once that is durable, and gives how many batches are folded then.
    /// No answer changes by it. Where no answer comes in time the fold may be under way, and it isn't asked for again.
    pub fn fold(&mut self) -> Result<u64, Error> {
        let body = self.ask(&request(13, &[]), SAVED)?;
        Ok(number_at(&body, 0))
    }

    /// Tells the server to stop. It serves its open sessions to their ends, and saves, after the answer. Where the
    /// answer is lost and the server is gone when it is asked again, that is an `Error::Io`.
    pub fn stop(&mut self) -> Result<(), Error> {
        self.ask(&request(7, &[]), STOPPING)?;
        self.close();
        Ok(())
    }

    fn ask(&mut self, frame: &[u8], wanted: Wanted) -> Result<Vec<u8>, Error> {
        let mut way = Way::over(self.link.take());
        if way.link.is_some() {
            self.send_ahead(&mut way, frame)?;
        } else {
            way.frames.push_back(frame);
        }
        let answer = self.first_reply(&mut way, wanted);
        self.link = way.link;
        answer.map(|(_, body)| body)
    }

    /// Sends a request whose reply is read later. It is sent where there is a connection, and the first one over a new
    /// one; a fault of it is found out when the reply is read.
    fn send_ahead<F: AsRef<[u8]>>(&mut self, way: &mut Way<F>, frame: F) -> Result<(), Error> {
        way.frames.push_back(frame);
        if way.link.is_none() && way.frames.len() > 1 {
            return Ok(());
        }
        match self.send(way) {
            Err(Error::Io(_)) => way.lose(),
            Err(fault) => return Err(fault),
            Ok(_) => {}
        }
        Ok(())
    }

    /// Sends the requests that weren't sent over this connection, which is made where there is none, or another process
    /// made it before a fork. Before the first put the server is asked which book it has.
    fn send<'w, F: AsRef<[u8]>>(&mut self, way: &'w mut Way<F>) -> Result<&'w mut Link, Error> {
        if way.link.as_ref().map(|link| link.process) != Some(process::id()) {
            way.lose();
        }
        let puts = way.frames.front().map_or(false, |it| is_put(it.as_ref()));
        let mut link = match way.link.take() {
            Some(link) => link,
            None => self.greeted(true)?,
        };
        if puts && !link.ask_book()? {
            link = self.greeted(false)?;
        }
        let link = way.link.insert(link);
        for frame in way.frames.iter().skip(way.sent) {
            way.sent += 1;
            link.send(frame.as_ref())?;
        }
        Ok(link)
    }

    /// The first of the requests on the way, and its reply; all are sent again where the connection failed. Where no
    /// reply was read whole, or the server ends the session behind it, the connection is dropped.
    fn first_reply<F: AsRef<[u8]>>(
        &mut self,
        way: &mut Way<F>,
        wanted: Wanted,
    ) -> Result<(F, Vec<u8>), Error> {
        let mut pause = self.pause;
        let mut attempt = 1;
        loop {
            let outcome = self.send(way).and_then(|link| reply_of(link, wanted));
            let is_asked = way.link.is_some();
            match outcome {
                Err(Error::Io(fault)) => {
                    way.lose();
                    // An address that isn't one won't become one, and a save that takes long may be under way.
                    let is_final = fault.kind() == io::ErrorKind::InvalidInput
                        || (is_asked && wanted.kind == SAVED.kind && is_pause(&fault));
                    if attempt == self.attempts || is_final {
                        return Err(Error::Io(fault));
                    }
                }
                Err(Error::Refused(refusal)) if is_asked && !refusal.ends_session() => {
                    way.answered();
                    return Err(Error::Refused(refusal));
                }
                Err(fault) => {
                    way.lose();
                    return Err(fault);
                }
                Ok(body) => return Ok((way.answered(), body)),
            }
            thread::sleep(pause);
            pause = (pause * 2).min(Duration::from_secs(10));
            attempt += 1;
        }
    }

    /// A new connection. One of a client that has put batches is first asked whether they are still there; without
    /// `asks` not which book it is.
    fn greeted(&mut self, asks: bool) -> Result<Link, Error> {
        let mut link = self.connect()?;
        link.knows_book = !asks;
        if let Some(marker) = self.marker {
            put_marker(&mut link, marker)?;
        }
        let Some(last) = &self.last else {
            return Ok(link);
        };
        if !link.ask_book()? {
            return self.greeted(false);
        }
        if let Some(has) = last.missed(&mut link)? {
            let (had, had_id, has_id) = (last.book(), last.book_id, link.book_id);
            self.last = None;
            return Err(Error::BookWentBack {
                had,
                has,
                had_id,
                has_id,
            });
        }
        link.book_id = link.book_id.or(last.book_id);
        Ok(link)
    }

    /// The reply to a put, whose frame is kept where its place is the highest.
    fn noted(&mut self, frame: Vec<u8>, body: &[u8], book_id: Option<BookId>) -> Accepted {
        let accepted = accepted_of(body);
        let seen = self.last.as_ref().map_or(0, |last| last.book().batches);
        if accepted.index >= seen {
            self.last = Some(Last {
                frame,
                accepted,
                book_id,
            });
        }
        accepted
    }

    fn connect(&self) -> io::Result<Link> {
        match &self.address {
            Address::Tcp(address) => {
                let stream = self.connect_tcp(address)?;
                stream.set_nodelay(true)?;
                Link::new(OwnedFd::from(stream).into(), self.timeout)
            }
            Address::Unix(path) => Link::new(connect_unix(path, self.timeout)?, self.timeout),
        }
    }

    /// Tries each address of the host's name.
    fn connect_tcp(&self, address: &str) -> io::Result<TcpStream> {
        let mut fault = io::Error::new(io::ErrorKind::NotFound, "the host has no address");
        for place in address.to_socket_addrs()? {
            let link = match self.timeout {
                Some(timeout) => TcpStream::connect_timeout(&place, timeout),
                None => TcpStream::connect(place),
            };
            match link {
                Ok(link) => return Ok(link),
                Err(error) => fault = error,
            }
        }
        Err(fault)
    }
}

/// Requests on the way, and the connection that the first `sent` of them were sent over. Whoever drops it before it has
/// all replies closes the connection, whose further replies nobody may take for those of later requests.
struct Way<F> {
    link: Option<Link>,
    frames: VecDeque<F>,
    sent: usize,
}

impl<F> Way<F> {
    fn over(link: Option<Link>) -> Way<F> {
        Way {
            link,
            frames: VecDeque::new(),
            sent: 0,
        }
    }

    fn lose(&mut self) {
        self.link = None;
        self.sent = 0;
    }

    fn answered(&mut self) -> F {
        self.sent -= 1;
        self.frames.pop_front().expect("a request that was sent")
    }
}

/// Puts the marker, which must be the first batch of the book.
fn put_marker(link: &mut Link, marker: u64) -> Result<(), Error> {
    link.send(&put_cells_frame(u64::MAX, marker, &[])?)?;
    match reply_of(link, ACCEPTED) {
        Ok(body) if number_at(&body, 0) == 0 => Ok(()),
        Ok(_) => Err(Error::OtherMap),
        // (NumberReused, BookFull; any other, as that of a log without room, says nothing of what the book has)
        Err(Error::Refused(Refusal { code: 30 | 32, .. })) => Err(Error::OtherMap),
        Err(fault) => Err(fault),
    }
}

/// Whether a request puts a batch.
fn is_put(frame: &[u8]) -> bool {
    matches!(frame.get(4), Some(1 | 8))
}

/// Whether a book that had, once, so many batches with such a total isn't the front of one that has these.
fn went_back(had: Status, has: Status) -> bool {
    let is_shorter = has.batches < had.batches || has.total < had.total;
    is_shorter || (has.batches == had.batches && has.total != had.total)
}

/// The body of the next reply.
fn reply_of(link: &mut Link, wanted: Wanted) -> Result<Vec<u8>, Error> {
    let mut head = [0; 5];
    link.receive(&mut head)?;
    let [a, b, c, d, kind] = head;
    let len = u32::from_be_bytes([a, b, c, d]) as usize;
    let is_refusal = kind == 0xff && len == 10;
    let fits = kind == wanted.kind && wanted.len.map_or(len <= MAX_BODY, |it| it == len);
    if !is_refusal && !fits {
        return Err(Error::BadReply);
    }
    let mut body = vec![0; len];
    link.receive(&mut body)?;
    if is_refusal {
        let code = u16::from_be_bytes([body[0], body[1]]);
        return Err(Error::Refused(Refusal {
            code,
            detail: number_at(&body, 2),
        }));
    }
    if kind == VALUE.kind && (body[0] > 1 || (body[0] == 0 && body[1..] != [0; 8])) {
        return Err(Error::BadReply);
    }
    Ok(body)
}

/// The number of eight bytes at a place that the body has.
fn number_at(body: &[u8], place: usize) -> u64 {
    body[place..place + 8]
        .iter()
        .fold(0, |n, byte| n << 8 | u64::from(*byte))
}

/// The threes of numbers that a reply has; nothing where it isn't whole.
fn threes_of(bytes: &[u8]) -> Option<impl Iterator<Item = [u64; 3]> + '_> {
    let threes = bytes.chunks_exact(24);
    let is_whole = threes.remainder().is_empty();
    is_whole.then(|| threes.map(|it| [number_at(it, 0), number_at(it, 8), number_at(it, 16)]))
}

/// The page that a reply to a Range has; nothing where it is none of what was asked for.
fn page_of(
    body: &[u8],
    rows: &RangeInclusive<u64>,
    cols: &RangeInclusive<u64>,
    start: (u64, u64),
    most: u64,
) -> Option<Page> {
    let (&more, rest) = body.split_first()?;
    let threes = threes_of(rest)?;
    let cells: Vec<Cell> = threes
        .map(|[row, col, count]| Cell { row, col, count })
        .collect();
    let count = cells.len() as u64;
    let is_long = count > most || (more == 1 && count < most) || (more == 1 && count == 0);
    let mut least = Some(start);
    let is_in_order = cells.iter().all(|it| {
        let is_behind = least.map_or(false, |least| (it.row, it.col) >= least);
        least = it.col.checked_add(1).map(|next| (it.row, next));
        is_behind && rows.contains(&it.row) && cols.contains(&it.col)
    });
    let has_more = more == 1;
    (more <= 1 && !is_long && is_in_order).then_some(Page { cells, has_more })
}

/// The cells of a range, whose pages are asked for by the places where they begin.
pub(super) fn paged<E>(
    mut ask: impl FnMut((u64, u64)) -> Result<Page, E>,
) -> impl Iterator<Item = Result<Cell, E>> {
    let mut start = Some((0, 0));
    let mut cells = Vec::new().into_iter();
    iter::from_fn(move || loop {
        if let Some(cell) = cells.next() {
            return Some(Ok(cell));
        }
        match ask(start.take()?) {
            Ok(page) => {
                if page.has_more {
                    start = page.cells.last().and_then(behind);
                }
                cells = page.cells.into_iter();
            }
            Err(fault) => return Some(Err(fault)),
        }
    })
}

/// The place behind a cell.
fn behind(cell: &Cell) -> Option<(u64, u64)> {
    Some((cell.row, cell.col.checked_add(1)?))
}

/// The rows that a reply to a Top has; nothing where it can't be one.
fn top_of(body: &[u8], most: u64, by: By) -> Option<Vec<TopRow>> {
    let rows: Vec<TopRow> = threes_of(body)?
        .map(|[row, entries, total]| TopRow {
            row,
            entries,
            total,
        })
        .collect();
    let is_in_order = rows
        .windows(2)
        .all(|it| order_of(&it[0], &it[1], by).is_lt());
    let has_entries = rows.iter().all(|it| it.entries > 0);
    (rows.len() as u64 <= most && is_in_order && has_entries).then_some(rows)
}

/// The order of the rows of a top: the highest number first, and of equal ones the lowest row.
pub(super) fn order_of(one: &TopRow, other: &TopRow, by: By) -> Ordering {
    let numbers = other.number(by).cmp(&one.number(by));
    numbers.then(one.row.cmp(&other.row))
}

/// The names of a reply to a Stats with their values; nothing where it can't be one.
fn stats_of(body: Vec<u8>) -> Option<Vec<(String, String)>> {
    let text = String::from_utf8(body).ok().filter(|it| it.is_ascii())?;
    let is_whole = text.is_empty() || text.ends_with('\n');
    let lines = text.split_terminator('\n');
    let pairs: Option<Vec<(String, String)>> = lines
        .map(|line| {
            let (name, value) = line.rsplit_once(' ')?;
            let is_pair = !name.is_empty() && !value.is_empty();
            is_pair.then(|| (name.to_string(), value.to_string()))
        })
        .collect();
    pairs.filter(|_| is_whole)
}

fn accepted_of(body: &[u8]) -> Accepted {
    Accepted {
        index: number_at(body, 0),
        total_after: number_at(body, 8),
    }
}

fn status_of(body: &[u8]) -> Status {
    Status {
        batches: number_at(body, 0),
        total: number_at(body, 8),
    }
}

/// The frame of a request that is some numbers.
fn request(kind: u8, numbers: &[u64]) -> Vec<u8> {
    let mut frame = Vec::with_capacity(5 + 8 * numbers.len());
    frame.extend_from_slice(&(8 * numbers.len() as u32).to_be_bytes());
    frame.push(kind);
    for number in numbers {
        frame.extend_from_slice(&number.to_be_bytes());
    }
    frame
}

/// The front of a put, in a list with room for its body of `len` bytes.
fn put_head(kind: u8, len: usize, client: u64, number: u64) -> Vec<u8> {
    let mut frame = Vec::with_capacity(5 + len);
    frame.extend_from_slice(&(len as u32).to_be_bytes());
    frame.push(kind);
    frame.extend_from_slice(&client.to_be_bytes());
    frame.extend_from_slice(&number.to_be_bytes());
    frame
}

fn put_cells_frame(client: u64, number: u64, cells: &[Cell]) -> Result<Vec<u8>, Error> {
    if cells.len() > MAX_CELLS {
        return Err(Error::TooLarge);
    }
    let mut frame = put_head(8, 16 + 24 * cells.len(), client, number);
    for cell in cells {
        let mut bytes = [0; 24];
        bytes[..8].copy_from_slice(&cell.row.to_be_bytes());
        bytes[8..16].copy_from_slice(&cell.col.to_be_bytes());
        bytes[16..].copy_from_slice(&cell.count.to_be_bytes());
        frame.extend_from_slice(&bytes);
    }
    Ok(frame)
}
