//! A plain program beside which connections are measured: it answers the frames of standard input on standard output (frames.rs).
mod frames;
#[path = "../plain/mod.rs"]
mod plain;

use frames::{Connection, frame_length, has_frame};
use plain::{BLOCK, Store};
use std::io::{self, BufReader, BufWriter, Read, Write};

fn main() -> io::Result<()> {
    let mut input = BufReader::with_capacity(BLOCK, io::stdin().lock());
    let mut out = BufWriter::with_capacity(BLOCK, io::stdout().lock());
    let (mut store, mut connection) = (Store::default(), Connection::default());
    let mut frame = Vec::new();
    while let Some(length) = frame_length(&mut input)? {
        frame.resize(length, 0);
        input.read_exact(&mut frame)?;
        connection.answer(&mut store, &frame, &mut out)?;
        if !has_frame(input.buffer()) {
            out.flush()?;
        }
    }
    out.flush()
}
