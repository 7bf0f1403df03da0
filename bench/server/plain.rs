//! A plain server beside which `tabd serve` is measured: one store under a lock, a thread for each connection, and the frames of
//! ../serve/frames.rs on 127.0.0.1. It is started as `plain serve --port N`, and goes on until it is killed.
#[path = "../serve/frames.rs"]
mod frames;
#[path = "../plain/mod.rs"]
mod plain;

use frames::{Connection, frame_length, has_frame};
use plain::{BLOCK, Store};
use std::io::{self, BufReader, Read, Write};
use std::net::{TcpListener, TcpStream};
use std::sync::{Arc, Mutex};
use std::thread;

/// Answers a connection to its end. The lock is held while a request is answered into memory, not while it is written.
fn serve(stream: &TcpStream, store: &Mutex<Store>) -> io::Result<()> {
    let mut input = BufReader::with_capacity(BLOCK, stream);
    let (mut frame, mut told, mut connection) = (Vec::new(), Vec::new(), Connection::default());
    while let Some(length) = frame_length(&mut input)? {
        frame.resize(length, 0);
        input.read_exact(&mut frame)?;
        connection.answer(&mut store.lock().expect("a thread failed"), &frame, &mut told)?;
        if told.len() >= BLOCK || !has_frame(input.buffer()) {
            (&mut &*stream).write_all(&told)?;
            told.clear();
        }
    }
    Ok(())
}

fn main() -> io::Result<()> {
    let words: Vec<String> = std::env::args().collect();
    let port = words.iter().skip_while(|word| *word != "--port").nth(1).and_then(|port| port.parse().ok()).expect("--port N");
    let listener = TcpListener::bind(("127.0.0.1", port))?;
    println!("listening {port}");
    let store = Arc::new(Mutex::new(Store::default()));
    for stream in listener.incoming() {
        let (stream, store) = (stream?, Arc::clone(&store));
        stream.set_nodelay(true)?;
        thread::spawn(move || serve(&stream, &store));
    }
    Ok(())
}
