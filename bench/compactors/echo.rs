//! What the machine alone makes of a request that takes so long: a client and a server of one thread each over loopback, nothing
//! beside. The server works for MICROS microseconds, watching the clock, and answers BYTES bytes; the client awaits each reply.
//! Prints the nanoseconds of each for SECONDS seconds.
//!
//! Usage: echo MICROS BYTES SECONDS
use std::io::{Read, Write};
use std::net::{TcpListener, TcpStream};
use std::thread;
use std::time::{Duration, Instant};

fn answer(mut stream: TcpStream, work: Duration, reply: &[u8]) -> std::io::Result<()> {
    stream.set_nodelay(true)?;
    let mut request = [0];
    while stream.read(&mut request)? == 1 {
        let begun = Instant::now();
        while begun.elapsed() < work {}
        stream.write_all(reply)?;
    }
    Ok(())
}

fn main() -> std::io::Result<()> {
    let words: Vec<String> = std::env::args().collect();
    let number = |at: usize| words[at].parse::<f64>().expect("a number");
    let (work, seconds) = (Duration::from_secs_f64(number(1) / 1e6), Duration::from_secs_f64(number(3)));
    let reply = vec![7; number(2) as usize];
    let listener = TcpListener::bind("127.0.0.1:0")?;
    let mut stream = TcpStream::connect(listener.local_addr()?)?;
    stream.set_nodelay(true)?;
    let (accepted, _) = listener.accept()?;
    let (mut told, mut taken) = (Vec::new(), vec![0; reply.len()]);
    thread::spawn(move || answer(accepted, work, &reply));
    let begun = Instant::now();
    while begun.elapsed() < seconds {
        let asked = Instant::now();
        stream.write_all(&[1])?;
        stream.read_exact(&mut taken)?;
        told.push(asked.elapsed().as_nanos());
    }
    told.iter().for_each(|nanoseconds| println!("{nanoseconds}"));
    Ok(())
}
