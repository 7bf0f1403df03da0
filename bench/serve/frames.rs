//! Frames of docs/PROTOCOL.md over a plain store: what a connection is answered.
//!
//! It knows Hello, CreateTable, SetAuths, Write, Open, Next, Many and Close. Whatever else is a bad frame, and so are a delete, an update
//! without a timestamp, and an Open of some rows or columns alone. It has no user but `root`, whoever says Hello, and no limits. A session
//! reads its table as it is by then.
use crate::plain::{Fault, Judge, Key, Range, Refusal, Store, shown};
use std::cmp::Reverse;
use std::collections::HashMap;
use std::io::{self, BufRead, Write};
use std::ops::Bound;

/// The fields of a frame that are left. What isn't of a field's form is none.
struct Fields<'a>(&'a [u8]);

impl<'a> Fields<'a> {
    fn bytes<const N: usize>(&mut self) -> Option<[u8; N]> {
        let (bytes, rest) = self.0.split_first_chunk()?;
        self.0 = rest;
        Some(*bytes)
    }

    fn number(&mut self) -> Option<u32> {
        self.bytes().map(u32::from_be_bytes)
    }

    fn field(&mut self) -> Option<Vec<u8>> {
        let length = self.number()?;
        let (bytes, rest) = self.0.split_at_checked(length as usize)?;
        self.0 = rest;
        Some(bytes.to_vec())
    }

    /// As many as their count says.
    fn all<T>(&mut self, mut one: impl FnMut(&mut Self) -> Option<T>) -> Option<Vec<T>> {
        let count = self.number()?;
        (0..count).map(|_| one(self)).collect()
    }

    fn bound(&mut self) -> Option<Bound<Vec<u8>>> {
        match self.bytes()? {
            [0] => Some(Bound::Unbounded),
            [1] => self.field().map(Bound::Included),
            [2] => self.field().map(Bound::Excluded),
            _ => None,
        }
    }

    fn range(&mut self) -> Option<Range> {
        Some(Range { low: self.bound()?, high: self.bound()? })
    }

    /// A put with a timestamp.
    fn update(&mut self, row: &[u8]) -> Option<(Key, Vec<u8>)> {
        self.bytes().filter(|kind| *kind == [1])?;
        let (family, qualifier, label) = (self.field()?, self.field()?, self.field()?);
        self.bytes().filter(|timed| *timed == [1])?;
        let timestamp = self.bytes().map(i64::from_be_bytes).map(Reverse)?;
        Some((Key { row: row.to_vec(), family, qualifier, label, timestamp }, self.field()?))
    }
}

/// What a frame asks for.
enum Request {
    Hello,
    CreateTable(Vec<u8>),
    SetAuths(Vec<Vec<u8>>),
    Write(Vec<u8>, Vec<(Key, Vec<u8>)>),
    Open(Vec<u8>, Vec<Vec<u8>>),
    Next(u32, u32),
    Many(u32, Vec<Range>),
    Close(u32),
}

/// The request of a frame; none where it is a bad one.
fn request(frame: &[u8]) -> Option<Request> {
    let mut fields = Fields(frame);
    let request = match fields.bytes()? {
        [0x01] => fields.field().map(|_| Request::Hello)?,
        [0x02] => {
            let table = fields.field()?;
            fields.bytes().filter(|of_writers_and_one| *of_writers_and_one == [0, 0, 0, 0, 1])?;
            Request::CreateTable(table)
        }
        [0x06] => {
            fields.field().filter(|user| user == b"root")?;
            Request::SetAuths(fields.all(Fields::field)?)
        }
        [0x0a] => {
            let (table, row) = (fields.field()?, fields.field()?);
            Request::Write(table, fields.all(|fields| fields.update(&row))?)
        }
        [0x0b] => {
            let table = fields.field()?;
            fields.bytes().filter(|no_bounds_or_columns| *no_bounds_or_columns == [0; 6])?;
            Request::Open(table, fields.all(Fields::field)?)
        }
        [0x0c] => Request::Next(fields.number()?, fields.number()?),
        [0x0d] => Request::Many(fields.number()?, fields.all(Fields::range)?),
        [0x0e] => Request::Close(fields.number()?),
        _ => return None,
    };
    fields.0.is_empty().then_some(request)
}

/// A table under some authorizations, and where the next batch begins.
struct Session {
    table: Vec<u8>,
    judge: Judge,
    next: Bound<Key>,
}

/// The sessions of a connection.
#[derive(Default)]
pub struct Connection {
    opened: u32,
    sessions: HashMap<u32, Session>,
}

impl Connection {
    pub fn answer(&mut self, store: &mut Store, frame: &[u8], out: &mut impl Write) -> io::Result<()> {
        match request(frame).map(|request| self.does(store, request, out)) {
            Some(Ok(())) => Ok(()),
            Some(Err(Fault::Refused(refusal))) => refuse(out, refusal),
            Some(Err(Fault::Output(error))) => Err(error),
            None => write_frame(out, &[&[0x81, 16, 5]]),
        }
    }

    fn does(&mut self, store: &mut Store, request: Request, out: &mut impl Write) -> Result<(), Fault> {
        match request {
            Request::Hello => {}
            Request::CreateTable(table) => store.create_table(table)?,
            Request::SetAuths(auths) => store.set_auths(auths),
            Request::Write(table, updates) => store.write(&table, updates)?,
            Request::Open(table, auths) => return self.open(store, table, auths, out),
            Request::Next(number, count) => return self.next(store, number, count, out),
            Request::Many(number, ranges) => return self.many(store, number, ranges, out),
            Request::Close(number) if self.sessions.remove(&number).is_none() => return no_session(out, number),
            Request::Close(_) => {}
        }
        Ok(write_frame(out, &[&[0x80]])?)
    }

    fn open(&mut self, store: &Store, table: Vec<u8>, auths: Vec<Vec<u8>>, out: &mut impl Write) -> Result<(), Fault> {
        store.table(&table)?;
        store.may_read(&auths)?;
        let mut judge = Judge::default();
        judge.take(auths);
        write_frame(out, &[&[0x84], &self.opened.to_be_bytes()])?;
        self.sessions.insert(self.opened, Session { table, judge, next: Bound::Unbounded });
        self.opened += 1;
        Ok(())
    }

    fn next(&mut self, store: &Store, number: u32, count: u32, out: &mut impl Write) -> Result<(), Fault> {
        let Some(session) = self.sessions.get_mut(&number) else { return no_session(out, number) };
        let (mut given, mut last) = (0, None);
        let keys = (session.next.clone(), Bound::Unbounded);
        for (key, value) in shown(store.table(&session.table)?, keys, &mut session.judge).take(count as usize) {
            write_cell(out, key, value)?;
            (given, last) = (given + 1, Some(key));
        }
        if let Some(key) = last {
            // behind all versions of that column
            session.next = Bound::Excluded(Key { timestamp: Reverse(i64::MIN), ..key.clone() });
        }
        Ok(write_frame(out, &[&[0x83, (given < count).into()]])?)
    }

    fn many(&mut self, store: &Store, number: u32, ranges: Vec<Range>, out: &mut impl Write) -> Result<(), Fault> {
        let Some(session) = self.sessions.get_mut(&number) else { return no_session(out, number) };
        let table = store.table(&session.table)?;
        for keys in ranges.into_iter().map(Range::keys).collect::<Result<Vec<_>, _>>()? {
            for (key, value) in shown(table, keys, &mut session.judge) {
                write_cell(out, key, value)?;
            }
            write_frame(out, &[&[0x86]])?;
        }
        Ok(write_frame(out, &[&[0x83, 1]])?)
    }
}

fn no_session(out: &mut impl Write, number: u32) -> Result<(), Fault> {
    Ok(write_frame(out, &[&[0x81, 15], &number.to_be_bytes()])?)
}

fn refuse(out: &mut impl Write, refusal: Refusal) -> io::Result<()> {
    match refusal {
        Refusal::NoTable(name) => write_frame(out, &[&[0x81, 2], &length(&name), &name]),
        Refusal::BadAuthorizations(auth) => write_frame(out, &[&[0x81, 4], &length(&auth), &auth]),
        Refusal::MalformedVisibility(at, offset) => {
            write_frame(out, &[&[0x81, 5], &(at as u32).to_be_bytes(), &(offset as u32).to_be_bytes()])
        }
        Refusal::TableExists(name) => write_frame(out, &[&[0x81, 10], &length(&name), &name]),
        Refusal::BadRange => write_frame(out, &[&[0x81, 13]]),
    }
}

fn length(bytes: &[u8]) -> [u8; 4] {
    (bytes.len() as u32).to_be_bytes()
}

/// Writes a frame of these parts.
fn write_frame(out: &mut impl Write, parts: &[&[u8]]) -> io::Result<()> {
    let length: usize = parts.iter().map(|part| part.len()).sum();
    out.write_all(&(length as u32).to_be_bytes())?;
    parts.iter().try_for_each(|part| out.write_all(part))
}

fn write_cell(out: &mut impl Write, key: &Key, value: &[u8]) -> io::Result<()> {
    let parts = [&key.row, &key.family, &key.qualifier, &key.label];
    let length_of_parts: usize = parts.iter().map(|part| 4 + part.len()).sum();
    out.write_all(&((1 + length_of_parts + 8 + 4 + value.len()) as u32).to_be_bytes())?;
    out.write_all(&[0x82])?;
    parts.iter().try_for_each(|part| write_field(out, part))?;
    out.write_all(&key.timestamp.0.to_be_bytes())?;
    write_field(out, value)
}

fn write_field(out: &mut impl Write, bytes: &[u8]) -> io::Result<()> {
    out.write_all(&length(bytes))?;
    out.write_all(bytes)
}

/// The length of the next frame; none where the input has ended.
pub fn frame_length(input: &mut impl BufRead) -> io::Result<Option<usize>> {
    if input.fill_buf()?.is_empty() {
        return Ok(None);
    }
    let mut length = [0; 4];
    input.read_exact(&mut length)?;
    Ok(Some(u32::from_be_bytes(length) as usize))
}

/// Whether it begins with a whole frame.
pub fn has_frame(bytes: &[u8]) -> bool {
    bytes.split_first_chunk().is_some_and(|(length, rest)| rest.len() >= u32::from_be_bytes(*length) as usize)
}
