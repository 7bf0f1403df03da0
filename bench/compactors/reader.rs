//! The reader of compactors.py, a process that does nothing else.
//!
//! `reader PORT TABLE BATCH SECONDS` reads whole sessions of the table in batches, one after another for so long, each Next awaited. Then
//! it prints of each Next its time in nanoseconds and the cells that it was told, a line for each.
use std::error::Error;
use std::io::{BufReader, Read, Write};
use std::net::TcpStream;
use std::time::{Duration, Instant};

type Result<T> = std::result::Result<T, Box<dyn Error>>;

struct Connection {
    input: BufReader<TcpStream>,
    frame: Vec<u8>,
}

impl Connection {
    fn new(port: u16) -> Result<Connection> {
        let stream = TcpStream::connect(("127.0.0.1", port))?;
        stream.set_nodelay(true)?;
        Ok(Connection { input: BufReader::with_capacity(1 << 16, stream), frame: Vec::new() })
    }

    fn send(&mut self, opcode: u8, fields: &[&[u8]]) -> Result<()> {
        let fields = fields.concat();
        let length = (fields.len() as u32 + 1).to_be_bytes();
        Ok(self.input.get_mut().write_all(&[&length[..], &[opcode], &fields].concat())?)
    }

    /// Reads the next frame, of this opcode or of the other one.
    fn frame(&mut self, opcodes: [u8; 2]) -> Result<&[u8]> {
        let mut length = [0; 4];
        self.input.read_exact(&mut length)?;
        self.frame.resize(u32::from_be_bytes(length) as usize, 0);
        self.input.read_exact(&mut self.frame)?;
        if opcodes.contains(&self.frame[0]) { Ok(&self.frame) } else { Err(format!("told {:?}", self.frame).into()) }
    }

    /// An Open of the whole table. The session's number.
    fn open(&mut self, table: &[u8]) -> Result<Vec<u8>> {
        self.send(0x0b, &[&(table.len() as u32).to_be_bytes(), table, &[0, 0], &[0; 8]])?;
        Ok(self.frame([0x84; 2])?[1..].to_vec())
    }

    /// A Next. How many cells it was told, and whether more may come.
    fn next(&mut self, session: &[u8], batch: u32) -> Result<(usize, bool)> {
        self.send(0x0c, &[session, &batch.to_be_bytes()])?;
        let mut cells = 0;
        loop {
            match self.frame([0x82, 0x83])? {
                [0x83, is_end] => return Ok((cells, *is_end == 0)),
                _ => cells += 1,
            }
        }
    }

    /// Ends the session.
    fn close(&mut self, session: &[u8]) -> Result<()> {
        self.send(0x0e, &[session])?;
        self.frame([0x80; 2])?;
        Ok(())
    }
}

fn main() -> Result<()> {
    let words: Vec<String> = std::env::args().collect();
    let [_, port, table, batch, seconds] = &words[..] else { return Err("reader PORT TABLE BATCH SECONDS".into()) };
    let (batch, lasting) = (batch.parse()?, Duration::from_secs_f64(seconds.parse()?));
    let mut connection = Connection::new(port.parse()?)?;
    connection.send(0x01, &[&4u32.to_be_bytes(), b"root"])?;
    connection.frame([0x80; 2])?;
    let (mut nexts, begun) = (Vec::with_capacity(1 << 20), Instant::now());
    while begun.elapsed() < lasting {
        let session = connection.open(table.as_bytes())?;
        let mut more = true;
        while more && begun.elapsed() < lasting {
            let asked = Instant::now();
            let (cells, goes_on) = connection.next(&session, batch)?;
            nexts.push((asked.elapsed().as_nanos(), cells));
            more = goes_on;
        }
        connection.close(&session)?;
    }
    for (nanoseconds, cells) in nexts {
        println!("{nanoseconds} {cells}");
    }
    Ok(())
}
