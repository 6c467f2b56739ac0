//! A plain echo of WebSocket messages over the sockets of Rust's standard library, for `bench/serve` to measure beside
//! `wst serve`. It takes connections one after the other, reads 4096 bytes at a time as that does, and answers the
//! frames of a read in one write. It checks nothing of what comes: its answer to any request is the one to the key of
//! RFC 6455 section 1.3, and each data frame is a message.
//!
//!     plain_server ADDRESS COUNT

use std::env;
use std::io::{Error, Read, Result, Write};
use std::net::{Shutdown, TcpListener, TcpStream};

const READ: usize = 4096;
const RESPONSE: &[u8] =
    b"HTTP/1.1 101 Switching Protocols\r\nUpgrade: websocket\r\nConnection: Upgrade\r\n\
    Sec-WebSocket-Accept: s3pPLMBiTxaQ9kYGzzhZRbK+xOo=\r\n\r\n";

const CLOSE: u8 = 8;
const PING: u8 = 9;
const PONG: u8 = 10;

/// A masked frame at the front of some bytes: where its key and its payload begin, and where it ends.
struct Place {
    key: usize,
    payload: usize,
    end: usize,
}

fn main() -> Result<()> {
    let words: Vec<String> = env::args().collect();
    let [_, address, count] = words.as_slice() else {
        return Err(Error::other("plain_server ADDRESS COUNT"));
    };
    let listener = TcpListener::bind(address)?;
    println!("listening on {}", listener.local_addr()?);
    for _ in 0..count.parse().map_err(Error::other)? {
        serve(listener.accept()?.0)?;
    }
    Ok(())
}

/// Serves one connection to its end.
fn serve(mut stream: TcpStream) -> Result<()> {
    let mut piece = [0; READ];
    let mut kept = head(&mut stream, &mut piece)?;
    stream.write_all(RESPONSE)?;
    let mut replies = Vec::new();
    loop {
        replies.clear();
        let closed = answer(&mut kept, &mut replies);
        stream.write_all(&replies)?;
        if closed {
            stream.shutdown(Shutdown::Write)?;
            while stream.read(&mut piece)? > 0 {}
            return Ok(());
        }
        let count = stream.read(&mut piece)?;
        if count == 0 {
            return Ok(());
        }
        kept.extend_from_slice(&piece[..count]);
    }
}

/// Reads the head of a request, and gives what came behind it.
fn head(stream: &mut TcpStream, piece: &mut [u8]) -> Result<Vec<u8>> {
    let mut kept = Vec::new();
    loop {
        if let Some(at) = kept.windows(4).position(|bytes| bytes == b"\r\n\r\n") {
            return Ok(kept.split_off(at + 4));
        }
        let count = stream.read(piece)?;
        if count == 0 {
            return Err(Error::other("no request"));
        }
        kept.extend_from_slice(&piece[..count]);
    }
}

/// Takes the frames at the front of what is kept, and puts what answers them. Whether one was a close.
fn answer(kept: &mut Vec<u8>, replies: &mut Vec<u8>) -> bool {
    let mut used = 0;
    let mut closed = false;
    while let Some(place) = next_frame(&kept[used..]) {
        let frame = &mut kept[used..used + place.end];
        used += place.end;
        unmask(frame, &place);
        let opcode = frame[0] & 0x0f;
        let replied = if opcode == PING { PONG } else { opcode };
        if opcode != PONG {
            put(replied, &frame[place.payload..], replies);
        }
        if opcode == CLOSE {
            closed = true;
            break;
        }
    }
    kept.drain(..used);
    closed
}

/// A whole masked frame at the front of the bytes, if there is one.
fn next_frame(bytes: &[u8]) -> Option<Place> {
    let short = usize::from(bytes.get(1)? & 0x7f);
    let (key, length): (usize, usize) = match short {
        126 => (4, number(bytes.get(2..4)?)),
        127 => (10, number(bytes.get(2..10)?)),
        _ => (2, short),
    };
    let payload = key + 4;
    let end = payload.checked_add(length)?;
    (end <= bytes.len()).then_some(Place { key, payload, end })
}

fn number(bytes: &[u8]) -> usize {
    bytes
        .iter()
        .fold(0, |number, byte| number << 8 | usize::from(*byte))
}

fn unmask(frame: &mut [u8], place: &Place) {
    let (header, payload) = frame.split_at_mut(place.payload);
    let key = &header[place.key..];
    for part in payload.chunks_mut(4) {
        for (byte, key) in part.iter_mut().zip(key) {
            *byte ^= key;
        }
    }
}

/// Puts a frame with FIN, not masked, its length in the shortest form.
fn put(opcode: u8, payload: &[u8], replies: &mut Vec<u8>) {
    replies.push(0x80 | opcode);
    match payload.len() {
        length @ 0..126 => replies.push(length as u8),
        length @ 126..65_536 => {
            replies.push(126);
            replies.extend_from_slice(&(length as u16).to_be_bytes());
        }
        length => {
            replies.push(127);
            replies.extend_from_slice(&(length as u64).to_be_bytes());
        }
    }
    replies.extend_from_slice(payload);
}
