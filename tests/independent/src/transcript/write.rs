//! Numbers and bytes as text.

use crate::state::{Place, Sending, ESC};

pub fn push_number(out: &mut Vec<u8>, number: usize) {
    if number >= 10 {
        push_number(out, number / 10);
    }
    out.push(b'0' + (number % 10) as u8);
}

pub fn push_flag(out: &mut Vec<u8>, on: bool) {
    out.push(b'0' + on as u8);
}

pub fn push_hex_digit(out: &mut Vec<u8>, digit: u8) {
    out.push(b"0123456789abcdef"[digit as usize]);
}

pub fn push_hex(out: &mut Vec<u8>, byte: u8) {
    push_hex_digit(out, byte >> 4);
    push_hex_digit(out, byte & 15);
}

pub fn push_bytes(out: &mut Vec<u8>, bytes: &[u8]) {
    if bytes.is_empty() {
        out.push(b'-');
    }
    for &byte in bytes {
        push_hex(out, byte);
    }
}

/// Numbers parted by commas.
pub fn push_list(out: &mut Vec<u8>, numbers: impl Iterator<Item = u16>) {
    for (place, number) in numbers.enumerate() {
        if place > 0 {
            out.push(b',');
        }
        push_number(out, number as usize);
    }
}

/// Numbers parted by colons, so many a group, the groups by commas; a dash if
/// there are none.
pub fn push_groups(out: &mut Vec<u8>, numbers: &[u16], size: usize) {
    if numbers.is_empty() {
        out.push(b'-');
    }
    for (place, &number) in numbers.iter().enumerate() {
        if place > 0 {
            out.push(if place % size == 0 { b',' } else { b':' });
        }
        push_number(out, number as usize);
    }
}

pub fn push_sending(out: &mut Vec<u8>, sending: Option<Sending>) {
    let Some(Sending { command, place }) = sending else {
        return out.push(b'-');
    };
    push_bytes(out, &[ESC, command]);
    out.push(b':');
    match place {
        Place::Cell(cell) => push_number(out, cell as usize),
        Place::RowMark(cell) => {
            out.push(b'u');
            push_number(out, cell as usize);
        }
        Place::Cr => out.extend_from_slice(b"cr"),
        Place::Byte(sent) => push_number(out, sent as usize),
    }
}

pub fn push_digest(out: &mut Vec<u8>, digest: u64) {
    for byte in digest.to_be_bytes() {
        push_hex(out, byte);
    }
}
