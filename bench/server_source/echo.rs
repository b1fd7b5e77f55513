//! A server of lines that answers each by itself, a thread for each connection: what a round trip
//! costs where nothing is computed.
//!
//! usage: echo. It says where it listens, as cqld does, and goes on until it is killed.

use std::io::{self, Read, Write};
use std::net::{TcpListener, TcpStream};
use std::thread;

/// Sends whole lines back, all that came at once in one send.
fn answer(mut stream: TcpStream) -> io::Result<()> {
    stream.set_nodelay(true)?;
    let mut page = vec![0; 65_536];
    let mut held = Vec::new();
    loop {
        let count = stream.read(&mut page)?;
        if count == 0 {
            return Ok(());
        }
        held.extend_from_slice(&page[..count]);
        if let Some(last) = held.iter().rposition(|byte| *byte == b'\n') {
            stream.write_all(&held[..=last])?;
            held.drain(..=last);
        }
    }
}

fn main() -> io::Result<()> {
    let listener = TcpListener::bind(("127.0.0.1", 0))?;
    println!("echo: listening on {}", listener.local_addr()?);
    for stream in listener.incoming() {
        let stream = stream?;
        // a client that goes ends only its own connection
        thread::spawn(move || answer(stream));
    }
    Ok(())
}
