//! The client's requests and their replies, in the frames of docs/PROTOCOL.md.
use crate::{Connection, NEIGHBOURS, Requests, Result, Words, field, name_of, number, puts};
use std::io::{Read, Write};

const BATCH: u32 = 1000;

impl Requests {
    fn frame(&mut self, opcode: u8, fields: impl FnOnce(&mut Vec<u8>)) {
        let begin = self.bytes.len();
        self.bytes.extend([0, 0, 0, 0, opcode]);
        fields(&mut self.bytes);
        let length = (self.bytes.len() - begin - 4) as u32;
        self.bytes[begin..begin + 4].copy_from_slice(&length.to_be_bytes());
        self.count += 1;
    }

    pub fn hello(mut self) -> Requests {
        self.frame(0x01, |to| field(to, b"root"));
        self
    }

    pub fn create_table(&mut self, table: &str) {
        self.frame(0x02, |to| {
            field(to, table.as_bytes());
            to.extend([0, 0, 0, 0, 1]);
        });
    }

    pub fn set_authorizations(&mut self) {
        self.frame(0x06, |to| {
            field(to, b"root");
            authorizations(to);
        });
    }

    /// A Write of so many puts at time 1.
    pub fn write(&mut self, table: &str, row: usize, count: usize, words: &mut Words) {
        self.frame(0x0a, |to| {
            field(to, table.as_bytes());
            field(to, &name_of(row));
            number(to, count);
            puts(count, words).iter().for_each(|one| put(to, one));
        });
    }

    /// An Open of the whole table under A and B.
    pub fn open(&mut self, table: &str) {
        self.frame(0x0b, |to| {
            field(to, table.as_bytes());
            to.extend([0; 6]);
            authorizations(to);
        });
    }

    pub fn next(&mut self, session: u32) {
        self.frame(0x0c, |to| {
            to.extend(session.to_be_bytes());
            to.extend(BATCH.to_be_bytes());
        });
    }

    /// A Many of so many ranges of neighbouring rows, from random places.
    pub fn many(&mut self, session: u32, ranges: usize, rows: usize, words: &mut Words) {
        self.frame(0x0d, |to| {
            to.extend(session.to_be_bytes());
            number(to, ranges);
            for _ in 0..ranges {
                let low = words.below(rows - NEIGHBOURS + 1);
                to.push(1);
                field(to, &name_of(low));
                to.push(2);
                field(to, &name_of(low + NEIGHBOURS));
            }
        });
    }
}

fn authorizations(to: &mut Vec<u8>) {
    number(to, 2);
    field(to, b"A");
    field(to, b"B");
}

fn put(to: &mut Vec<u8>, [family, qualifier, label, value]: &[Vec<u8>; 4]) {
    to.push(1);
    [family, qualifier, label].into_iter().for_each(|part| field(to, part));
    to.push(1);
    to.extend(1i64.to_be_bytes());
    field(to, value);
}

impl Connection {
    /// Reads a whole reply.
    pub fn reply(&mut self) -> Result<()> {
        loop {
            let mut length = [0; 4];
            self.input.read_exact(&mut length)?;
            self.frame.resize(u32::from_be_bytes(length) as usize, 0);
            self.input.read_exact(&mut self.frame)?;
            self.told.frames += 1;
            match self.frame[0] {
                0x82 => {
                    self.told.cells += 1;
                    if let Some(kept) = &mut self.kept {
                        kept.write_all(&self.frame[1..])?;
                    }
                }
                0x86 => {}
                0x81 => return Err(format!("refused: {:?}", &self.frame[1..]).into()),
                _ => return Ok(()),
            }
        }
    }

    /// The whole answer of a new session, batch after batch.
    pub fn scan(&mut self, session: u32) -> Result<()> {
        let (mut open, mut next) = (Requests::default(), Requests::default());
        open.open("wide");
        next.next(session);
        self.ask(&open)?;
        loop {
            let before = self.told.cells;
            self.ask(&next)?;
            if self.told.cells < before + BATCH as usize {
                return Ok(());
            }
        }
    }
}
