//! A plain store beside which `tabd script` is measured.
//!
//! It reads the lines `createtable T [time=any]`, `setauths root LIST`, `insert T ROW FAM QUAL LABEL VALUE TS`,
//! `scan T AUTHS [LOW HIGH]`, `flush T` and `compact T partial|full` from standard input and answers each as `tabd` does; any
//! other line is a fault. There is nothing to flush or to compact in a map, so these two only see whether the table is there.
//! Answers are flushed whenever the lines that were read are all answered.
#[path = "../plain/mod.rs"]
mod plain;

use plain::{BLOCK, Fault, Judge, Key, Range, Refusal, Store, shown};
use std::cmp::Reverse;
use std::io::{self, BufRead, BufReader, BufWriter, Write};
use std::ops::Bound;

/// The bytes that a word spells; none where it is no byte word.
fn bytes(word: &[u8]) -> Option<Vec<u8>> {
    match word {
        b"" => return None,
        b"\\e" => return Some(Vec::new()),
        _ => {}
    }
    let mut bytes = Vec::with_capacity(word.len());
    let mut rest = word.iter();
    while let Some(byte) = rest.next() {
        bytes.push(match byte {
            b'\\' => match rest.next()? {
                b'\\' => b'\\',
                b'x' => digit(*rest.next()?)? * 16 + digit(*rest.next()?)?,
                _ => return None,
            },
            b'!'..=b'~' => *byte,
            _ => return None,
        });
    }
    Some(bytes)
}

fn digit(byte: u8) -> Option<u8> {
    match byte {
        b'0'..=b'9' => Some(byte - b'0'),
        b'a'..=b'f' => Some(byte - b'a' + 10),
        _ => None,
    }
}

/// Writes the byte word that spells the bytes.
fn write_bytes(out: &mut impl Write, bytes: &[u8]) -> io::Result<()> {
    if bytes.is_empty() {
        return out.write_all(b"\\e");
    }
    if bytes.iter().all(|byte| byte.is_ascii_graphic() && *byte != b'\\') {
        return out.write_all(bytes);
    }
    bytes.iter().try_for_each(|byte| match byte {
        b'\\' => out.write_all(b"\\\\"),
        b'!'..=b'~' => out.write_all(&[*byte]),
        _ => write!(out, "\\x{byte:02x}"),
    })
}

/// The bytes of a table's name.
fn name(word: &[u8]) -> Option<Vec<u8>> {
    let name = bytes(word)?;
    let is_name_byte = |byte: &u8| byte.is_ascii_alphanumeric() || matches!(byte, b'_' | b'-' | b'.');
    ((1..=128).contains(&name.len()) && name.iter().all(is_name_byte)).then_some(name)
}

/// The members of a list, rising, each once.
fn list(word: &[u8]) -> Option<Vec<Vec<u8>>> {
    if word == b"\\0" {
        return Some(Vec::new());
    }
    let mut members = word.split(|byte| *byte == b',').map(bytes).collect::<Option<Vec<_>>>()?;
    members.sort();
    members.dedup();
    Some(members)
}

fn bound(word: &[u8]) -> Option<Bound<Vec<u8>>> {
    match word.split_first()? {
        (b'[', row) => bytes(row).map(Bound::Included),
        (b'(', row) => bytes(row).map(Bound::Excluded),
        _ => (word == b"\\0").then_some(Bound::Unbounded),
    }
}

/// A number of digits, behind a sign where it is below zero.
fn number(word: &[u8]) -> Option<i64> {
    let number: i64 = std::str::from_utf8(word).ok()?.parse().ok()?;
    (!word.starts_with(b"+") && word.starts_with(b"-") == (number < 0)).then_some(number)
}

const ALL: Range = Range { low: Bound::Unbounded, high: Bound::Unbounded };

/// What a line asks for.
enum Act {
    CreateTable(Vec<u8>),
    SetAuths(Vec<Vec<u8>>),
    Insert(Vec<u8>, Key, Vec<u8>),
    Scan(Vec<u8>, Vec<Vec<u8>>, Range),
    Compact(Vec<u8>),
}

/// The act of a line's words; none where they are a fault.
fn act(words: &[&[u8]]) -> Option<Act> {
    match words {
        [b"createtable", table] | [b"createtable", table, b"time=any"] => Some(Act::CreateTable(name(table)?)),
        [b"setauths", b"root", auths] => Some(Act::SetAuths(list(auths)?)),
        [b"insert", table, row, family, qualifier, label, value, timestamp] => {
            let key = Key {
                row: bytes(row)?,
                family: bytes(family)?,
                qualifier: bytes(qualifier)?,
                label: bytes(label)?,
                timestamp: Reverse(number(timestamp)?),
            };
            Some(Act::Insert(name(table)?, key, bytes(value)?))
        }
        [b"scan", table, auths] => Some(Act::Scan(name(table)?, list(auths)?, ALL)),
        [b"scan", table, auths, low, high] => {
            Some(Act::Scan(name(table)?, list(auths)?, Range { low: bound(low)?, high: bound(high)? }))
        }
        [b"flush", table] | [b"compact", table, b"partial" | b"full"] => Some(Act::Compact(name(table)?)),
        _ => None,
    }
}

/// A store, and what judges the labels of its scans.
#[derive(Default)]
struct Service {
    store: Store,
    reading: Judge,
}

impl Service {
    /// Answers one line, which ends before its line feed.
    fn answer(&mut self, line: &[u8], out: &mut impl Write) -> io::Result<()> {
        let words: Vec<&[u8]> = line.split(|byte| *byte == b' ').filter(|word| !word.is_empty()).collect();
        if words.is_empty() || line[0] == b'#' {
            return Ok(());
        }
        match act(&words).map(|act| self.does(act, out)) {
            Some(Ok(())) => Ok(()),
            Some(Err(Fault::Refused(refusal))) => refuse(out, refusal),
            Some(Err(Fault::Output(error))) => Err(error),
            None => out.write_all(b"line fault\n"),
        }
    }

    fn does(&mut self, act: Act, out: &mut impl Write) -> Result<(), Fault> {
        match act {
            Act::CreateTable(table) => self.store.create_table(table)?,
            Act::SetAuths(auths) => self.store.set_auths(auths),
            Act::Insert(table, key, value) => self.store.write(&table, [(key, value)])?,
            Act::Scan(table, auths, range) => return self.scan(&table, auths, range, out),
            Act::Compact(table) => drop(self.store.table(&table)?),
        }
        Ok(out.write_all(b"ok\n")?)
    }

    fn scan(&mut self, name: &[u8], auths: Vec<Vec<u8>>, range: Range, out: &mut impl Write) -> Result<(), Fault> {
        let table = self.store.table(name)?;
        let keys = range.keys()?;
        self.store.may_read(&auths)?;
        self.reading.take(auths);
        for (key, value) in shown(table, keys, &mut self.reading) {
            write_cell(out, key, value)?;
        }
        Ok(out.write_all(b"end\n")?)
    }
}

fn refuse(out: &mut impl Write, refusal: Refusal) -> io::Result<()> {
    let (why, name) = match &refusal {
        Refusal::NoTable(name) => ("2 NoTable", name),
        Refusal::BadAuthorizations(auth) => ("4 BadAuthorizations", auth),
        Refusal::MalformedVisibility(at, offset) => {
            return writeln!(out, "refused 5 MalformedVisibility {at} {offset}");
        }
        Refusal::TableExists(name) => ("10 TableExists", name),
        Refusal::BadRange => return out.write_all(b"refused 13 BadRange\n"),
    };
    write!(out, "refused {why} ")?;
    write_bytes(out, name)?;
    out.write_all(b"\n")
}

fn write_cell(out: &mut impl Write, key: &Key, value: &[u8]) -> io::Result<()> {
    for part in [&key.row, &key.family, &key.qualifier, &key.label] {
        write_bytes(out, part)?;
        out.write_all(b" ")?;
    }
    write!(out, "{} ", key.timestamp.0)?;
    write_bytes(out, value)?;
    out.write_all(b"\n")
}

fn main() -> io::Result<()> {
    let mut input = BufReader::with_capacity(BLOCK, io::stdin().lock());
    let mut out = BufWriter::with_capacity(BLOCK, io::stdout().lock());
    let mut service = Service::default();
    let mut line = Vec::new();
    while input.read_until(b'\n', &mut line)? > 0 {
        service.answer(line.strip_suffix(b"\n").unwrap_or(&line), &mut out)?;
        line.clear();
        if input.buffer().is_empty() {
            out.flush()?;
        }
    }
    out.flush()
}
