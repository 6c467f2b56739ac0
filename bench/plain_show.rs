//! A plain `show` of what a client sent, over Rust's standard library, for `bench/peers` to measure beside `wst show`:
//! the same lines for a stream of whole frames, which it holds in memory.
//!
//!     plain_show <STREAM

use std::io::{stdin, stdout, Read, Result, Write};

const ROOM: usize = 65536; // bytes of lines that are written at once, about
const SHOWN: usize = 16;
const DIGITS: &[u8; 16] = b"0123456789abcdef";

/// A header at the front of some bytes.
struct Header {
    first: u8,
    key: Option<[u8; 4]>,
    len: usize,
    form: &'static str,
    least: usize, // the least length that wants this form
    used: usize,
}

fn main() -> Result<()> {
    let (mut bytes, mut lines) = (Vec::new(), Vec::new());
    stdin().lock().read_to_end(&mut bytes)?;
    let mut at = 0;
    while let Some(header) = header_at(&bytes[at..]) {
        let end = at + header.used + header.len;
        put_line(&mut lines, at, &header, &bytes[at + header.used..end]);
        at = end;
        if lines.len() > ROOM {
            stdout().write_all(&lines)?;
            lines.clear();
        }
    }
    stdout().write_all(&lines)
}

fn header_at(bytes: &[u8]) -> Option<Header> {
    let (first, second) = (*bytes.first()?, *bytes.get(1)?);
    let (len, form, least, used) = match second & 127 {
        126 => (u16::from_be_bytes(bytes.get(2..4)?.try_into().ok()?) as usize, "two", 126, 4),
        127 => (u64::from_be_bytes(bytes.get(2..10)?.try_into().ok()?) as usize, "eight", 65536, 10),
        short => (short as usize, "short", 0, 2),
    };
    let masked = second & 128 != 0;
    let key = if masked { Some(bytes.get(used..used + 4)?.try_into().ok()?) } else { None };
    Some(Header { first, key, len, form, least, used: if masked { used + 4 } else { used } })
}

fn put_line(lines: &mut Vec<u8>, offset: usize, header: &Header, payload: &[u8]) {
    put_decimal(lines, offset);
    lines.push(b' ');
    match header.first & 15 {
        0 => lines.extend_from_slice(b"cont"),
        1 => lines.extend_from_slice(b"text"),
        2 => lines.extend_from_slice(b"binary"),
        8 => lines.extend_from_slice(b"close"),
        9 => lines.extend_from_slice(b"ping"),
        10 => lines.extend_from_slice(b"pong"),
        other => {
            lines.extend_from_slice(b"op");
            put_decimal(lines, other as usize);
        }
    }
    lines.extend_from_slice(b" fin=");
    lines.push(b'0' + (header.first >> 7));
    lines.extend_from_slice(b" rsv=");
    lines.push(b'0' + (header.first >> 4 & 7));
    lines.extend_from_slice(b" key=");
    match header.key {
        Some(key) => put_hex(lines, &key),
        None => lines.push(b'-'),
    }
    lines.extend_from_slice(b" len=");
    put_decimal(lines, header.len);
    lines.push(b' ');
    lines.extend_from_slice(header.form.as_bytes());
    lines.push(b' ');
    put_payload(lines, header, payload);
    if header.key.is_none() {
        lines.extend_from_slice(b" !mask");
    }
    if header.len < header.least {
        lines.extend_from_slice(b" !form");
    }
    lines.push(b'\n');
}

fn put_payload(lines: &mut Vec<u8>, header: &Header, payload: &[u8]) {
    let key = header.key.unwrap_or([0; 4]);
    let mut first = [0; SHOWN];
    let count = payload.len().min(SHOWN);
    for i in 0..count {
        first[i] = payload[i] ^ key[i % 4];
    }
    if count == 0 {
        lines.push(b'-');
    }
    put_hex(lines, &first[..count]);
    if payload.len() > SHOWN {
        lines.extend_from_slice(b"..");
    }
}

fn put_decimal(lines: &mut Vec<u8>, number: usize) {
    let mut digits = [0; 20];
    let (mut at, mut left) = (digits.len(), number);
    loop {
        at -= 1;
        digits[at] = b'0' + (left % 10) as u8;
        left /= 10;
        if left == 0 {
            return lines.extend_from_slice(&digits[at..]);
        }
    }
}

fn put_hex(lines: &mut Vec<u8>, bytes: &[u8]) {
    for byte in bytes {
        lines.extend([DIGITS[(byte >> 4) as usize], DIGITS[(byte & 15) as usize]]);
    }
}
