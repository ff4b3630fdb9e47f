//! Counts as lines.

use super::{count, entry, Uncounted};
use crate::transcript::{push_number, Line};
use std::io::{self, BufRead, Write};

/// Writes ` result=R`.
pub fn write_count(reply: &[u8], first: usize, last: usize, out: &mut Vec<u8>) {
    out.extend_from_slice(b" result=");
    let (word, number) = match count(reply, first, last) {
        Ok(parts) => ("parts:", Some(parts as usize)),
        Err(Uncounted::NoFinalCr) => ("no-cr", None),
        Err(Uncounted::FirstPiece) => ("first", None),
        Err(Uncounted::LastPiece) => ("last", None),
        Err(Uncounted::Byte(place)) => ("byte:", Some(place)),
    };
    out.extend_from_slice(word.as_bytes());
    if let Some(number) = number {
        push_number(out, number);
    }
}

/// Writes ` parts=N`.
pub fn write_entry(text: &[u8], out: &mut Vec<u8>) {
    out.extend_from_slice(b" parts=");
    push_number(out, entry(text) as usize);
}

/// A result line for each line. Another line ends it with the line's number.
pub fn answer_lines(lines: impl BufRead, mut results: impl Write) -> io::Result<Result<(), usize>> {
    for (place, line) in lines.lines().enumerate() {
        let mut out = Vec::new();
        match Line::parse(&line?) {
            Some(Line::Count { reply, first, last }) => write_count(&reply, first, last, &mut out),
            Some(Line::Entry(text)) => write_entry(&text, &mut out),
            _ => return Ok(Err(place + 1)),
        }
        out.push(b'\n');
        results.write_all(&out[1..])?;
    }
    Ok(Ok(()))
}
