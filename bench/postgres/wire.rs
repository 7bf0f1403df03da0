//! The client's requests and their replies in PostgreSQL's protocol, version 3: statements prepared at the beginning, binary values, and
//! a Sync behind each request, so that each write is a transaction.
use crate::{Connection, NEIGHBOURS, Requests, Result, TALL, Words, field, name_of, number, puts};
use std::io::{Read, Write};

const BYTEA: u32 = 17;

impl Requests {
    fn message(&mut self, kind: u8, fields: impl FnOnce(&mut Vec<u8>)) {
        self.bytes.push(kind);
        let begin = self.bytes.len();
        self.bytes.extend([0; 4]);
        fields(&mut self.bytes);
        let length = (self.bytes.len() - begin) as u32;
        self.bytes[begin..begin + 4].copy_from_slice(&length.to_be_bytes());
    }

    fn prepare(&mut self, name: &str, text: &str) {
        self.message(b'P', |to| to.extend(format!("{name}\0{text}\0\0\0").as_bytes()));
    }

    fn execute(&mut self, name: &str, parameters: &[Vec<u8>]) {
        self.message(b'B', |to| {
            to.extend(format!("\0{name}\0").as_bytes());
            to.extend([0, 1, 0, 1, 0, parameters.len() as u8]);
            parameters.iter().for_each(|parameter| field(to, parameter));
            to.extend([0, 1, 0, 1]);
        });
        self.message(b'E', |to| to.extend([0; 5]));
    }

    /// What ends a request.
    fn sync(&mut self) {
        self.message(b'S', |_| ());
        self.count += 1;
    }

    /// Begins as the user `reader`, and prepares the statements of both tables.
    pub fn hello(mut self) -> Requests {
        let words = b"\0\x03\0\0user\0reader\0database\0postgres\0\0";
        number(&mut self.bytes, words.len() + 4);
        self.bytes.extend(words);
        self.count += 1;
        ["wide", "tall"].into_iter().for_each(|table| self.prepare_for(table));
        self.sync();
        self
    }

    /// The statements of a table, the fastest form of each.
    fn prepare_for(&mut self, table: &str) {
        let cells = format!("select row, family, qualifier, label, time, value from {table}");
        let order = "order by row, family, qualifier, label";
        let range = |low, high| format!("{cells} where row >= {low} and row < {high} {order}");
        let each = range("low", "high");
        let puts = "unnest($2::bytea[], $3::bytea[], $4::bytea[], $5::bytea[]) puts (family, qualifier, label, value)";
        let newest = format!(
            "on conflict (row, family, qualifier, label) do update
             set time = excluded.time, value = excluded.value where excluded.time >= {table}_written.time"
        );
        for (name, text) in [
            ("put", format!("insert into {table}_written values ($1, $2, $3, $4, 1, $5) {newest}")),
            ("puts", format!("insert into {table}_written select $1, family, qualifier, label, 1, value from {puts} {newest}")),
            ("scan", format!("{cells} {order}")),
            ("next", format!("{cells} {order} limit 1000")),
            ("range", range("$1", "$2")),
            ("ranges", format!("select cell.* from unnest($1::bytea[], $2::bytea[]) ranges (low, high), lateral ({each}) cell")),
        ] {
            self.prepare(&format!("{name} {table}"), &text);
        }
    }

    /// The tables, the reader and what it sees are there, by schema.sql.
    pub fn create_table(&mut self, _: &str) {}
    pub fn set_authorizations(&mut self) {}

    /// So many puts at time 1, in one transaction.
    pub fn write(&mut self, table: &str, row: usize, count: usize, words: &mut Words) {
        let puts = puts(count, words);
        let (form, parts): (_, Vec<_>) = match puts.as_slice() {
            [put] => ("put", put.to_vec()),
            _ => ("puts", (0..4).map(|part| array(puts.iter().map(|put| &put[part]))).collect()),
        };
        self.execute(&format!("{form} {table}"), &[vec![name_of(row)], parts].concat());
        self.sync();
    }

    pub fn open(&mut self, _: &str) {}

    pub fn next(&mut self, session: u32) {
        self.execute(if session == TALL { "next tall" } else { "next wide" }, &[]);
        self.sync();
    }

    /// So many ranges of neighbouring rows, from random places.
    pub fn many(&mut self, _: u32, ranges: usize, rows: usize, words: &mut Words) {
        let (lows, highs): (Vec<_>, Vec<_>) =
            (0..ranges).map(|_| words.below(rows - NEIGHBOURS + 1)).map(|low| (name_of(low), name_of(low + NEIGHBOURS))).unzip();
        match (lows.as_slice(), highs.as_slice()) {
            ([low], [high]) => self.execute("range tall", &[low.clone(), high.clone()]),
            _ => self.execute("ranges tall", &[array(lows.iter()), array(highs.iter())]),
        }
        self.sync();
    }
}

/// The parameter of a statement that stands for all of these.
fn array<'a>(values: impl ExactSizeIterator<Item = &'a Vec<u8>>) -> Vec<u8> {
    let head = [1, 0, BYTEA, values.len() as u32, 1];
    let mut to = head.map(u32::to_be_bytes).concat();
    values.for_each(|value| field(&mut to, value));
    to
}

impl Connection {
    /// Reads a whole reply, up to the server's readiness.
    pub fn reply(&mut self) -> Result<()> {
        loop {
            let mut head = [0; 5];
            self.input.read_exact(&mut head)?;
            self.frame.resize(u32::from_be_bytes([head[1], head[2], head[3], head[4]]) as usize - 4, 0);
            self.input.read_exact(&mut self.frame)?;
            match head[0] {
                b'D' => {
                    self.told.cells += 1;
                    self.keep()?;
                }
                b'E' => return Err(String::from_utf8_lossy(&self.frame).into()),
                b'Z' => return Ok(()),
                _ => {}
            }
        }
    }

    /// Keeps a row as a Cell frame has it, which says no length of the timestamp.
    fn keep(&mut self) -> Result<()> {
        if let Some(kept) = &mut self.kept {
            let length = |at: usize| u32::from_be_bytes([0, 1, 2, 3].map(|byte| self.frame[at + byte])) as usize;
            let time = (0..4).fold(2, |at, _| at + 4 + length(at));
            kept.write_all(&self.frame[2..time])?;
            kept.write_all(&self.frame[time + 4..])?;
        }
        Ok(())
    }

    /// The whole answer, as one reply.
    pub fn scan(&mut self, _: u32) -> Result<()> {
        let mut scan = Requests::default();
        scan.execute("scan wide", &[]);
        scan.sync();
        self.ask(&scan)
    }
}
