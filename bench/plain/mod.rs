//! A plain store beside which tabd is measured: std's `BTreeMap` from keys to values, one for each table.
//!
//! A table shows one version of a column. Its one user is `root`, who may do everything.
mod labels;

pub use self::labels::Judge;
use std::cmp::Reverse;
use std::collections::{BTreeMap, HashMap};
use std::io;
use std::ops::Bound;

/// Bytes of the blocks in which input is read and output written.
pub const BLOCK: usize = 1 << 16;

/// Where a cell lies: the cells of a column follow one another, the newest first.
#[derive(Clone, PartialEq, Eq, PartialOrd, Ord)]
pub struct Key {
    pub row: Vec<u8>,
    pub family: Vec<u8>,
    pub qualifier: Vec<u8>,
    pub label: Vec<u8>,
    pub timestamp: Reverse<i64>,
}

impl Key {
    /// The least key of the row.
    fn first_of(row: Vec<u8>) -> Key {
        let empty = Vec::new();
        Key { row, family: empty.clone(), qualifier: empty.clone(), label: empty, timestamp: Reverse(i64::MAX) }
    }

    /// The least key above the whole row.
    fn first_above(mut row: Vec<u8>) -> Key {
        row.push(0);
        Key::first_of(row)
    }

    fn is_same_column(&self, other: &Key) -> bool {
        self.row == other.row
            && self.family == other.family
            && self.qualifier == other.qualifier
            && self.label == other.label
    }
}

pub type Table = BTreeMap<Key, Vec<u8>>;

/// Between which keys cells lie.
pub type Keys = (Bound<Key>, Bound<Key>);

/// The rows of a scan.
pub struct Range {
    pub low: Bound<Vec<u8>>,
    pub high: Bound<Vec<u8>>,
}

impl Range {
    /// Whether some row could lie in it.
    fn is_valid(&self) -> bool {
        match (&self.low, &self.high) {
            (Bound::Unbounded, _) | (_, Bound::Unbounded) => true,
            (Bound::Included(low), Bound::Included(high)) => low <= high,
            (Bound::Included(low) | Bound::Excluded(low), Bound::Included(high) | Bound::Excluded(high)) => low < high,
        }
    }

    /// The same rows as bounds of keys.
    pub fn keys(self) -> Result<Keys, Refusal> {
        if !self.is_valid() {
            return Err(Refusal::BadRange);
        }
        let low = match self.low {
            Bound::Included(row) => Bound::Included(Key::first_of(row)),
            Bound::Excluded(row) => Bound::Included(Key::first_above(row)),
            Bound::Unbounded => Bound::Unbounded,
        };
        let high = match self.high {
            Bound::Included(row) => Bound::Excluded(Key::first_above(row)),
            Bound::Excluded(row) => Bound::Excluded(Key::first_of(row)),
            Bound::Unbounded => Bound::Unbounded,
        };
        Ok((low, high))
    }
}

/// Why something isn't done.
pub enum Refusal {
    NoTable(Vec<u8>),
    BadAuthorizations(Vec<u8>),
    /// The update, and how many bytes of its label begin some label.
    MalformedVisibility(usize, usize),
    TableExists(Vec<u8>),
    BadRange,
}

/// Why an answer isn't written to its end.
pub enum Fault {
    Refused(Refusal),
    Output(io::Error),
}

impl From<Refusal> for Fault {
    fn from(refusal: Refusal) -> Fault {
        Fault::Refused(refusal)
    }
}

impl From<io::Error> for Fault {
    fn from(error: io::Error) -> Fault {
        Fault::Output(error)
    }
}

/// All tables, and what `root` may see of them.
#[derive(Default)]
pub struct Store {
    tables: HashMap<Vec<u8>, Table>,
    held: Vec<Vec<u8>>,
    /// Judges the labels of writes, which need only be labels.
    writing: Judge,
}

impl Store {
    pub fn create_table(&mut self, name: Vec<u8>) -> Result<(), Refusal> {
        if self.tables.contains_key(&name) {
            return Err(Refusal::TableExists(name));
        }
        self.tables.insert(name, Table::new());
        Ok(())
    }

    pub fn set_auths(&mut self, auths: Vec<Vec<u8>>) {
        self.held = auths;
    }

    pub fn table(&self, name: &[u8]) -> Result<&Table, Refusal> {
        self.tables.get(name).ok_or_else(|| Refusal::NoTable(name.to_vec()))
    }

    /// Writes all of the updates or none.
    pub fn write<U>(&mut self, name: &[u8], updates: U) -> Result<(), Refusal>
    where
        U: AsRef<[(Key, Vec<u8>)]> + IntoIterator<Item = (Key, Vec<u8>)>,
    {
        let table = self.tables.get_mut(name).ok_or_else(|| Refusal::NoTable(name.to_vec()))?;
        for (at, (key, _)) in updates.as_ref().iter().enumerate() {
            self.writing.judge(&key.label).map_err(|offset| Refusal::MalformedVisibility(at, offset))?;
        }
        for (key, value) in updates {
            table.insert(key, value);
        }
        Ok(())
    }

    /// Whether `root` holds all of these.
    pub fn may_read(&self, auths: &[Vec<u8>]) -> Result<(), Refusal> {
        match auths.iter().find(|auth| !self.held.contains(auth)) {
            Some(auth) => Err(Refusal::BadAuthorizations(auth.clone())),
            None => Ok(()),
        }
    }
}

/// The newest version of each column whose label holds.
pub fn shown<'a>(table: &'a Table, keys: Keys, judge: &'a mut Judge) -> impl Iterator<Item = (&'a Key, &'a Vec<u8>)> {
    let mut newest: Option<&Key> = None;
    table.range(keys).filter(move |(key, _)| {
        let is_older = newest.is_some_and(|newest| newest.is_same_column(key));
        newest = Some(key);
        !is_older && judge.judge(&key.label) == Ok(true)
    })
}
