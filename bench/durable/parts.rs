//! Parts of the client for servers that keep what they answer on a disk: each goes on for some seconds, since nobody knows beforehand how
//! long a disk takes.
//!
//! `client PORT begin ROWS` makes the tables, and writes a cell into each of so many rows; all others follow on that, with the same number.
//! `client PORT load PUTS WRITES ROWS` pipelines so many writes of so many cells.
//! `client PORT writes SECONDS CONNECTIONS ROWS`: each connection writes one cell after the other and awaits each reply.
//! `client PORT pipelined SECONDS PUTS WINDOW ROWS`: one connection writes so many cells at once, so many times before it awaits all replies.
//! `client PORT ranges|scans SECONDS WRITERS ROWS`: one connection reads ranges of ten rows of an old session, or the first thousand cells of a
//! new one, beside so many that write one cell after the other.
//!
//! They print how many were answered, in how many seconds, and the median, the 99th percentile and the most of a reply's microseconds. The last
//! part tells so of its reader.
use crate::{Connection, Requests, Result, TALL, Words, list};
use std::sync::atomic::{AtomicBool, Ordering};
use std::thread;
use std::time::{Duration, Instant};

/// What one connection was answered: microseconds of each reply, or of each window.
type Waits = Vec<f64>;

fn write_one(rows: usize, words: &mut Words) -> Requests {
    list(|to| to.write("tall", words.below(rows), 1, words))
}

/// Asks until the time is over, or until it's told to end, each time once the last is answered.
fn ask_on(one: &mut Connection, ends: impl Fn() -> bool, mut make: impl FnMut() -> Requests) -> Result<Waits> {
    let mut waits = Vec::new();
    while !ends() {
        let requests = make();
        let begun = Instant::now();
        one.pipeline_or_ask(&requests)?;
        waits.push(begun.elapsed().as_secs_f64() * 1e6);
    }
    Ok(waits)
}

impl Connection {
    fn pipeline_or_ask(&mut self, requests: &Requests) -> Result<()> {
        if requests.count > 100 { self.pipeline(requests) } else { self.ask(requests) }
    }
}

fn show(name: &str, each: usize, seconds: f64, mut waits: Waits) {
    waits.sort_by(f64::total_cmp);
    let at = |share: f64| waits.get((waits.len() as f64 * share) as usize).or(waits.last()).copied().unwrap_or(0.0);
    println!("{name}\t{}\t{seconds}\t{}\t{}\t{}", waits.len() * each, at(0.5), at(0.99), at(1.0));
}

/// Writers until the time is over.
fn writes(port: u16, seconds: f64, connections: usize, rows: usize) -> Result<()> {
    let over = Duration::from_secs_f64(seconds);
    let begun = Instant::now();
    let waits = thread::scope(|threads| {
        let all: Vec<_> = (0..connections).map(|at| threads.spawn(move || writer(port, rows, at, || begun.elapsed() >= over))).collect();
        all.into_iter().map(joined).collect::<Result<Vec<_>>>()
    })?;
    show("writes", 1, begun.elapsed().as_secs_f64(), waits.concat());
    Ok(())
}

fn joined(thread: thread::ScopedJoinHandle<'_, Result<Waits>>) -> Result<Waits> {
    thread.join().unwrap_or_else(|_| Err("a connection failed".into()))
}

fn writer(port: u16, rows: usize, seed: usize, ends: impl Fn() -> bool) -> Result<Waits> {
    let mut words = Words(seed as u64 + 7);
    let mut one = Connection::new(port)?;
    ask_on(&mut one, ends, || write_one(rows, &mut words))
}

fn pipelined(port: u16, seconds: f64, puts: usize, window: usize, rows: usize) -> Result<()> {
    let mut words = Words(3);
    let mut one = Connection::new(port)?;
    let many = list(|to| (0..window).for_each(|_| to.write("tall", words.below(rows), puts, &mut words)));
    let (begun, over) = (Instant::now(), Duration::from_secs_f64(seconds));
    let mut count = 0;
    while begun.elapsed() < over {
        one.pipeline_or_ask(&many)?;
        count += window * puts;
    }
    println!("pipelined\t{count}\t{}\t0\t0\t0", begun.elapsed().as_secs_f64());
    Ok(())
}

/// A reader beside writers.
fn reads(port: u16, is_range: bool, seconds: f64, writers: usize, rows: usize) -> Result<()> {
    let over = Duration::from_secs_f64(seconds);
    let is_over = AtomicBool::new(false);
    thread::scope(|threads| {
        let is_over = &is_over;
        let all: Vec<_> = (0..writers).map(|at| threads.spawn(move || writer(port, rows, at, || is_over.load(Ordering::SeqCst)))).collect();
        let read = reader(port, is_range, over, rows);
        is_over.store(true, Ordering::SeqCst);
        let wrote = all.into_iter().map(joined).collect::<Result<Vec<_>>>()?.concat();
        let (seconds, waits) = read?;
        show(if is_range { "ranges" } else { "scans" }, 1, seconds, waits);
        show("beside", 1, seconds, wrote);
        Ok(())
    })
}

fn reader(port: u16, is_range: bool, over: Duration, rows: usize) -> Result<(f64, Waits)> {
    let mut words = Words(5);
    let mut one = Connection::new(port)?;
    one.ask(&list(|to| to.open("tall")))?;
    let (begun, mut session) = (Instant::now(), 0);
    let waits = ask_on(&mut one, || begun.elapsed() >= over, || {
        session += 1;
        list(|to| {
            if is_range {
                to.many(0, 1, rows, &mut words);
            } else {
                to.open("tall");
                to.next(session_of(session));
            }
        })
    })?;
    Ok((begun.elapsed().as_secs_f64(), waits))
}

/// PostgreSQL has no sessions; its table goes by that number.
fn session_of(session: u32) -> u32 {
    if cfg!(postgres) { TALL } else { session }
}

fn begin(port: u16, rows: usize) -> Result<()> {
    let mut one = Connection::new(port)?;
    one.ask(&list(|to| {
        to.create_table("wide");
        to.create_table("tall");
        to.set_authorizations();
    }))?;
    load(port, 1, rows, rows)
}

fn load(port: u16, puts: usize, writes: usize, rows: usize) -> Result<()> {
    let mut one = Connection::new(port)?;
    let mut words = Words(1);
    let order = words.shuffled(rows);
    let begun = Instant::now();
    for some in (0..writes).collect::<Vec<_>>().chunks(20_000) {
        one.pipeline(&list(|to| some.iter().for_each(|at| to.write("tall", order[at % rows], puts, &mut words))))?;
    }
    println!("load\t{}\t{}\t0\t0\t0", writes * puts, begun.elapsed().as_secs_f64());
    Ok(())
}

pub fn main(port: u16, part: &str, words: &[String]) -> Result<()> {
    let numbers = words.iter().map(|word| word.parse::<f64>()).collect::<std::result::Result<Vec<_>, _>>()?;
    let count = |at: usize| numbers[at] as usize;
    match (part, numbers.len()) {
        ("begin", 1) => begin(port, count(0)),
        ("load", 3) => load(port, count(0), count(1), count(2)),
        ("writes", 3) => writes(port, numbers[0], count(1), count(2)),
        ("pipelined", 4) => pipelined(port, numbers[0], count(1), count(2), count(3)),
        ("ranges" | "scans", 3) => reads(port, part == "ranges", numbers[0], count(1), count(2)),
        _ => Err(format!("no part {part} of {} numbers", numbers.len()).into()),
    }
}
