//! The client with which servers are measured over loopback, the same one for each: in the frames of docs/PROTOCOL.md (wire.rs), or
//! compiled with `--cfg postgres` in those of PostgreSQL (../postgres/wire.rs); beside that with `--cfg beside_postgres`, which leaves out the
//! last two parts of one connection.
//!
//! `client PORT CELLS CONNECTIONS OPERATIONS [FILE]` asks a new store everything in turn, and prints a line for each part as it ends: its
//! name, its seconds by the clock, what it counted (writes, cells or operations, which the same parts of two servers must have alike), and
//! the frames that it was told. CONNECTIONS are numbers parted by commas: a part of OPERATIONS by so many at once for each of them, and
//! OPERATIONS ranges by one before. FILE takes all cells that the first connection is told.
//! `client PORT PART ..` asks one part of ../durable/parts.rs.
#[cfg_attr(postgres, path = "../postgres/wire.rs")]
mod wire;
#[path = "../durable/parts.rs"]
mod durable;

use std::error::Error;
use std::fs::File;
use std::io::{self, BufReader, BufWriter, Write};
use std::net::TcpStream;
use std::sync::atomic::{AtomicBool, Ordering};
use std::thread;
use std::time::{Duration, Instant};

type Result<T> = std::result::Result<T, Box<dyn Error + Send + Sync>>;

const LABELS: [&str; 8] = ["A", "A&B", "A&(B|C)", "B|D", "D", "A&D", "(A|B)&E", "D&(A|E)"];
const WIDE: usize = 100;
const NEIGHBOURS: usize = 10;
const RANGES_A_REQUEST: usize = 100;
const BLOCK: usize = 1 << 16;
/// Whole scans that are timed together behind the first one, and the session of the second table, which is opened behind theirs.
const SCANS: u32 = 10;
const TALL: u32 = SCANS + 1;
/// What is written beside ranges: so many cells a millisecond at most. And how long nothing is asked before those of an idle server.
const WRITES_BESIDE: usize = 100;
const IDLE: Duration = Duration::from_secs(4);

/// Random words, by splitmix64.
struct Words(u64);

impl Words {
    fn below(&mut self, count: usize) -> usize {
        self.0 = self.0.wrapping_add(0x9E37_79B9_7F4A_7C15);
        let word = (self.0 ^ (self.0 >> 30)).wrapping_mul(0xBF58_476D_1CE4_E5B9);
        let word = (word ^ (word >> 27)).wrapping_mul(0x94D0_49BB_1331_11EB);
        ((word ^ (word >> 31)) % count as u64) as usize
    }

    fn shuffled(&mut self, count: usize) -> Vec<usize> {
        let mut order: Vec<usize> = (0..count).collect();
        for last in (1..count).rev() {
            order.swap(last, self.below(last + 1));
        }
        order
    }
}

/// The bytes of requests, one behind the other, and how many they are.
#[derive(Default)]
struct Requests {
    bytes: Vec<u8>,
    count: usize,
}

fn number(to: &mut Vec<u8>, number: usize) {
    to.extend((number as u32).to_be_bytes());
}

fn field(to: &mut Vec<u8>, bytes: &[u8]) {
    number(to, bytes.len());
    to.extend(bytes);
}

fn name_of(row: usize) -> Vec<u8> {
    format!("{row:010}").into_bytes()
}

/// So many puts of columns out of 32,000, no two of them alike: family, qualifier, label, and a value of 20 letters.
fn puts(count: usize, words: &mut Words) -> Vec<[Vec<u8>; 4]> {
    let (first, step) = (words.below(32_000), 2 * words.below(1000) * 5 + 1);
    (0..count).map(|at| put((first + at * step) % 32_000, words)).collect()
}

fn put(column: usize, words: &mut Words) -> [Vec<u8>; 4] {
    let (family, qualifier) = (format!("f{:03}", column % 4), format!("q{:03}", column / 4 % 1000));
    [family.into(), qualifier.into(), LABELS[column / 4000].into(), (0..20).map(|_| b'a' + words.below(26) as u8).collect()]
}

/// What replies have told so far.
#[derive(Default)]
struct Told {
    cells: usize,
    frames: usize,
}

struct Connection {
    input: BufReader<TcpStream>,
    frame: Vec<u8>,
    told: Told,
    /// Where all told cells go, as the fields of a Cell frame.
    kept: Option<BufWriter<File>>,
}

impl Connection {
    fn new(port: u16) -> Result<Connection> {
        let stream = TcpStream::connect(("127.0.0.1", port))?;
        stream.set_nodelay(true)?;
        let input = BufReader::with_capacity(BLOCK, stream);
        let mut connection = Connection { input, frame: Vec::new(), told: Told::default(), kept: None };
        connection.ask(&Requests::default().hello())?;
        Ok(connection)
    }

    /// Sends these requests at once, and reads their replies.
    fn ask(&mut self, requests: &Requests) -> Result<()> {
        self.input.get_mut().write_all(&requests.bytes)?;
        (0..requests.count).try_for_each(|_| self.reply())
    }

    /// Sends these requests while their replies are read.
    fn pipeline(&mut self, requests: &Requests) -> Result<()> {
        let mut output = self.input.get_ref().try_clone()?;
        thread::scope(|threads| {
            let sent = threads.spawn(move || output.write_all(&requests.bytes));
            (0..requests.count).try_for_each(|_| self.reply())?;
            sent.join().unwrap_or_else(|_| Err(io::Error::other("the sender failed"))).map_err(Into::into)
        })
    }
}

/// Does a part, and prints how long it took.
fn measure(name: &str, connection: &mut Connection, act: impl FnOnce(&mut Connection) -> Result<usize>) -> Result<()> {
    connection.told = Told::default();
    let begun = Instant::now();
    let count = act(connection)?;
    println!("{name}\t{}\t{count}\t{}", begun.elapsed().as_secs_f64(), connection.told.frames);
    Ok(())
}

/// A list of requests, made beforehand.
fn list(make: impl FnOnce(&mut Requests)) -> Requests {
    let mut requests = Requests::default();
    make(&mut requests);
    requests
}

/// The parts of one connection.
fn alone(port: u16, cells: usize, ranges: usize, file: Option<&String>) -> Result<()> {
    let mut words = Words(1);
    let mut one = Connection::new(port)?;
    one.kept = file.map(File::create).transpose()?.map(BufWriter::new);
    one.ask(&list(|to| {
        to.create_table("wide");
        to.create_table("tall");
        to.set_authorizations();
    }))?;
    let wide = list(|to| words.shuffled(cells / WIDE).into_iter().for_each(|row| to.write("wide", row, WIDE, &mut Words(row as u64))));
    measure("writes of 100", &mut one, |one| one.pipeline(&wide).map(|()| cells))?;
    drop(wide);
    measure("first whole scan", &mut one, |one| one.scan(0).map(|()| one.told.cells))?;
    measure("ten whole scans", &mut one, |one| (1..=SCANS).try_for_each(|session| one.scan(session)).map(|()| one.told.cells))?;
    let tall = list(|to| words.shuffled(cells).into_iter().for_each(|row| to.write("tall", row, 1, &mut Words(row as u64))));
    measure("writes of one", &mut one, |one| one.pipeline(&tall).map(|()| cells))?;
    drop(tall);
    measure("open behind them", &mut one, |one| {
        one.ask(&list(|to| to.open("tall")))?;
        one.ask(&list(|to| to.next(TALL))).map(|()| one.told.cells)
    })?;
    let requests = ranges / RANGES_A_REQUEST;
    let ranges = list(|to| (0..requests).for_each(|_| to.many(TALL, RANGES_A_REQUEST, cells, &mut words)));
    measure("ranges", &mut one, |one| one.pipeline(&ranges).map(|()| one.told.cells))?;
    let turns = 20_000.min(cells);
    measure("one at a time, writes", &mut one, |one| {
        (0..turns).try_for_each(|at| one.ask(&list(|to| to.write("tall", cells + at, 1, &mut words)))).map(|()| turns)
    })?;
    measure("one at a time, ranges", &mut one, |one| {
        (0..turns).try_for_each(|_| one.ask(&list(|to| to.many(TALL, 1, cells, &mut words)))).map(|()| one.told.cells)
    })?;
    if cfg!(any(postgres, beside_postgres)) {
        return Ok(());
    }
    // of a session that is opened now, so that it reads what there is by then
    let mut again = |name, session| {
        one.ask(&list(|to| to.open("tall")))?;
        let ranges = list(|to| (0..requests).for_each(|_| to.many(session, RANGES_A_REQUEST, cells, &mut words)));
        measure(name, &mut one, |one| one.pipeline(&ranges).map(|()| one.told.cells))
    };
    beside_writes(port, cells, || again("ranges beside writes", TALL + 1))?;
    thread::sleep(IDLE);
    again("ranges once idle", TALL + 2)
}

/// Does something while another connection writes cells anew that there are.
fn beside_writes(port: u16, cells: usize, act: impl FnOnce() -> Result<()>) -> Result<()> {
    let (mut other, ended) = (Connection::new(port)?, &AtomicBool::new(false));
    let mut words = Words(cells as u64);
    thread::scope(|threads| {
        let writer = threads.spawn(move || -> Result<()> {
            while !ended.load(Ordering::Relaxed) {
                let rows = (0..WRITES_BESIDE).map(|_| words.below(cells));
                other.ask(&list(|to| rows.for_each(|row| to.write("tall", row, 1, &mut Words(row as u64)))))?;
                thread::sleep(Duration::from_millis(1));
            }
            Ok(())
        });
        let outcome = act();
        ended.store(true, Ordering::Relaxed);
        writer.join().unwrap_or_else(|_| Err("the writer failed".into()))?;
        outcome
    })
}

/// One of several connections: writes of one put and ranges of ten rows in turn, each reply awaited.
fn mixed(port: u16, cells: usize, operations: usize, seed: usize) -> Result<()> {
    let mut words = Words(seed as u64);
    let mut one = Connection::new(port)?;
    one.ask(&list(|to| to.open("tall")))?;
    (0..operations).try_for_each(|at| {
        let row = words.below(cells);
        one.ask(&list(|to| if at % 2 == 0 { to.write("tall", row, 1, &mut words) } else { to.many(0, 1, cells, &mut words) }))
    })
}

/// So many connections at once, which do the operations together.
fn together(port: u16, cells: usize, connections: usize, operations: usize) -> Result<()> {
    let begun = Instant::now();
    thread::scope(|threads| {
        let all: Vec<_> = (0..connections).map(|at| threads.spawn(move || mixed(port, cells, operations / connections, at + 2))).collect();
        all.into_iter().try_for_each(|one| one.join().unwrap_or_else(|_| Err("a connection failed".into())))
    })?;
    println!("{connections} at once\t{}\t{operations}\t0", begun.elapsed().as_secs_f64());
    Ok(())
}

fn main() -> Result<()> {
    let words: Vec<String> = std::env::args().skip(1).collect();
    if let [port, part, numbers @ ..] = words.as_slice() {
        if part.starts_with(char::is_alphabetic) {
            return durable::main(port.parse()?, part, numbers);
        }
    }
    let [port, cells, connections, operations, file @ ..] = words.as_slice() else {
        return Err("client PORT CELLS CONNECTIONS OPERATIONS [FILE]".into());
    };
    let (port, cells, operations) = (port.parse()?, cells.parse()?, operations.parse()?);
    alone(port, cells, operations, file.first())?;
    for count in connections.split(',') {
        together(port, cells, count.parse()?, operations)?;
    }
    Ok(())
}
