//! A plain table beside which the engine is measured: std's `BTreeMap` from keys of four `Vec`s and a falling timestamp to values.
//!
//! Usage: plain tall|wide|long freeze|compact CELLS. It writes the cells, reads all of them in order, and, but if wide, ten neighbouring
//! rows at a time, and prints a line for each part: nanoseconds elapsed and of the processor, and behind a scan the cells and bytes that
//! it gave. Lines of /proc/self/status stand between, behind the name of the moment. In a map there is nothing to freeze or to compact.
use std::cmp::Reverse;
use std::collections::{BTreeMap, HashMap};
use std::ops::Bound::{Excluded, Included};
use std::time::Instant;

/// The labels. The reader, who holds A and B, sees the cells of the first four.
const LABELS: [&[u8]; 8] = [b"A", b"A&B", b"A&(B|C)", b"B|D", b"D", b"A&D", b"(A|B)&E", b"D&(A|E)"];

/// Rows of a short scan.
const NEIGHBOURS: u64 = 10;

/// Cells after which the buffer of frames is emptied.
const BATCH: u64 = 1000;

/// The word number `n` of splitmix64 from the seed.
fn word(seed: u64, n: u64) -> u64 {
    let word = seed.wrapping_add(n.wrapping_mul(0x9e37_79b9_7f4a_7c15));
    let word = (word ^ (word >> 30)).wrapping_mul(0xbf58_476d_1ce4_e5b9);
    let word = (word ^ (word >> 27)).wrapping_mul(0x94d0_49bb_1331_11eb);
    word ^ (word >> 31)
}

/// The numbers below `count` in random order, by Fisher and Yates.
fn shuffled(count: u64) -> Vec<u64> {
    let mut order: Vec<u64> = (0..count).collect();
    for last in (1..count).rev() {
        order.swap(last as usize, (word(1, last) % (last + 1)) as usize);
    }
    order
}

/// A number's ten digits.
fn digits(number: u64) -> [u8; 10] {
    let mut text = [b'0'; 10];
    let mut rest = number;
    for digit in text.iter_mut().rev() {
        *digit = b'0' + (rest % 10) as u8;
        rest /= 10;
    }
    text
}

/// A letter, `f` or `q`, before the three last digits of a number.
fn short_name(letter: u8, number: u64) -> [u8; 4] {
    let digit = |ten: u64| b'0' + (number / ten % 10) as u8;
    [letter, digit(100), digit(10), digit(1)]
}

/// Twenty letters of one word.
fn letters(word: u64) -> [u8; 20] {
    let mut text = [b'a'; 20];
    let mut rest = word;
    for letter in &mut text {
        *letter = b'a' + (rest % 8) as u8;
        rest /= 8;
    }
    text
}

/// A hundred cells a row in `Wide`, else one; in `Long` a row has 40 bytes, of which it shares 30 with the row before, and families,
/// labels and most of qualifiers are the same.
#[derive(Clone, Copy, PartialEq, Eq)]
enum Shape {
    Tall,
    Wide,
    Long,
}

impl Shape {
    /// Where a row begins, up to its number.
    fn front(self, row: u64) -> Vec<u8> {
        let front: &[u8] = if self == Shape::Long { b"customers/north/town/" } else { b"" };
        [front, &digits(row)].concat()
    }

    fn row(self, row: u64) -> Vec<u8> {
        let mut text = self.front(row);
        if self == Shape::Long {
            text.extend_from_slice(&letters(word(5, row))[..9]);
        }
        text
    }
}

#[derive(PartialEq, Eq, PartialOrd, Ord)]
struct Key {
    row: Vec<u8>,
    family: Vec<u8>,
    qualifier: Vec<u8>,
    label: Vec<u8>,
    timestamp: Reverse<i64>,
}

impl Key {
    /// The least key of a row.
    fn first_of(row: Vec<u8>) -> Key {
        let empty = Vec::new;
        Key { row, family: empty(), qualifier: empty(), label: empty(), timestamp: Reverse(i64::MAX) }
    }
}

type Table = BTreeMap<Key, Vec<u8>>;

/// Puts the cell of this number, which lies in this row.
fn put(table: &mut Table, shape: Shape, row: u64, number: u64) {
    let word_of = word(2, number);
    let (family, qualifier, label) = match shape {
        Shape::Long => (b"shipping".to_vec(), [&b"region"[..], &short_name(b'q', number % 100)].concat(), b"A&(B|CD)".to_vec()),
        _ => (
            short_name(b'f', word_of / 8 % 4).to_vec(),
            short_name(b'q', word_of / 32 % 10 * 100 + number % 100).to_vec(),
            LABELS[(word_of % 8) as usize].to_vec(),
        ),
    };
    let key = Key { row: shape.row(row), family, qualifier, label, timestamp: Reverse(1) };
    table.insert(key, letters(word(3, number)).to_vec());
}

/// Judges labels for the reader, each text once.
#[derive(Default)]
struct Judge {
    judged: HashMap<Vec<u8>, bool>,
}

impl Judge {
    fn admits(&mut self, label: &[u8]) -> bool {
        if let Some(verdict) = self.judged.get(label) {
            return *verdict;
        }
        let verdict = expression(&mut &label[..]);
        self.judged.insert(label.to_vec(), verdict);
        verdict
    }
}

/// Whether the operands hold that the text begins with, joined by the same joiner throughout.
fn expression(text: &mut &[u8]) -> bool {
    let mut holds = operand(text);
    while let [joiner @ (b'&' | b'|'), rest @ ..] = *text {
        *text = rest;
        let next = operand(text);
        holds = if *joiner == b'&' { holds && next } else { holds || next };
    }
    holds
}

/// Whether the term holds, or what stands in parentheses.
fn operand(text: &mut &[u8]) -> bool {
    if let [b'(', rest @ ..] = *text {
        *text = rest;
        let holds = expression(text);
        *text = &text[1..];
        return holds;
    }
    let length = text.iter().take_while(|byte| byte.is_ascii_alphanumeric()).count();
    let (term, rest) = text.split_at(length);
    *text = rest;
    term == b"A" || term == b"B"
}

/// Where frames of cells go.
#[derive(Default)]
struct Frames {
    buffer: Vec<u8>,
    cells: u64,
    bytes: u64,
}

impl Frames {
    fn put(&mut self, key: &Key, value: &[u8]) {
        let begin = self.buffer.len();
        self.buffer.extend_from_slice(&[0, 0, 0, 0, 0x82]);
        for part in [&key.row, &key.family, &key.qualifier, &key.label] {
            self.put_field(part);
        }
        self.buffer.extend_from_slice(&key.timestamp.0.to_be_bytes());
        self.put_field(value);
        let length = (self.buffer.len() - begin - 4) as u32;
        self.buffer[begin..begin + 4].copy_from_slice(&length.to_be_bytes());
        self.cells += 1;
        if self.cells % BATCH == 0 {
            self.empty();
        }
    }

    fn put_field(&mut self, bytes: &[u8]) {
        self.buffer.extend_from_slice(&(bytes.len() as u32).to_be_bytes());
        self.buffer.extend_from_slice(bytes);
    }

    fn empty(&mut self) {
        self.bytes += self.buffer.len() as u64;
        self.buffer.clear();
    }
}

/// The whole table.
fn scan(table: &Table) -> Frames {
    let mut judge = Judge::default();
    let mut frames = Frames::default();
    for (key, value) in table {
        if judge.admits(&key.label) {
            frames.put(key, value);
        }
    }
    frames.empty();
    frames
}

/// So many neighbouring rows from random places, for each ten cells once.
fn scan_ranges(table: &Table, shape: Shape, cells: u64) -> Frames {
    let mut judge = Judge::default();
    let mut frames = Frames::default();
    for range in 0..cells / 10 {
        let low = word(4, range) % (cells - NEIGHBOURS + 1);
        let rows = (Included(Key::first_of(shape.front(low))), Excluded(Key::first_of(shape.front(low + NEIGHBOURS))));
        for (key, value) in table.range(rows) {
            if judge.admits(&key.label) {
                frames.put(key, value);
            }
        }
    }
    frames.empty();
    frames
}

#[repr(C)]
#[derive(Default)]
struct Timespec {
    seconds: i64,
    nanoseconds: i64,
}

unsafe extern "C" {
    fn clock_gettime(clock: i32, time: *mut Timespec) -> i32;
}

/// Nanoseconds of the processor that the process has used.
fn processor() -> i64 {
    const CLOCK_PROCESS_CPUTIME_ID: i32 = 2;
    let mut time = Timespec::default();
    unsafe { clock_gettime(CLOCK_PROCESS_CPUTIME_ID, &mut time) };
    time.seconds * 1_000_000_000 + time.nanoseconds
}

/// Runs a part and prints its line.
fn timed<T>(part: &str, run: impl FnOnce() -> T, told: impl FnOnce(&T) -> String) -> T {
    let (begin, used) = (Instant::now(), processor());
    let made = run();
    println!("{part} {} {}{}", begin.elapsed().as_nanos(), processor() - used, told(&made));
    made
}

/// Prints what memory the process holds.
fn print_memory(moment: &str) {
    let status = std::fs::read_to_string("/proc/self/status").unwrap();
    for line in status.lines().filter(|line| line.starts_with("RssAnon:") || line.starts_with("VmHWM:")) {
        println!("{moment} {line}");
    }
}

fn main() {
    let words: Vec<String> = std::env::args().collect();
    let shape = match words[1].as_str() {
        "tall" => Shape::Tall,
        "long" => Shape::Long,
        _ => Shape::Wide,
    };
    let cells: u64 = words[3].parse().unwrap();
    let width = if shape == Shape::Wide { 100 } else { 1 };
    let order = shuffled(cells / width);
    print_memory("base");
    let mut table = Table::new();
    let write = || order.iter().for_each(|row| (0..width).for_each(|at| put(&mut table, shape, *row, row * width + at)));
    timed("W", write, |_| String::new());
    timed("F", || (), |_| String::new());
    print_memory("rest");
    let given = |frames: &Frames| format!(" {} {}", frames.cells, frames.bytes);
    timed("S", || scan(&table), given);
    if shape != Shape::Wide {
        timed("R", || scan_ranges(&table, shape, cells), given);
    }
    print_memory("end");
}
