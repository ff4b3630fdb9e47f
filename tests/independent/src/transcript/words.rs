//! The words of a line.

use super::limits::WIDEST_ROOM;
use crate::state::{Place, Sending, ESC};

pub fn number(word: &str, largest: usize) -> Option<usize> {
    if word.is_empty() || !word.bytes().all(|byte| byte.is_ascii_digit()) {
        return None;
    }
    word.parse().ok().filter(|&number| number <= largest)
}

pub fn flag(word: &str) -> Option<bool> {
    number(word, 1).map(|number| number == 1)
}

pub fn room(word: &str) -> Option<usize> {
    number(word, WIDEST_ROOM)
}

pub fn hex(word: &str) -> Option<Vec<u8>> {
    match word {
        "" => None,
        "-" => Some(Vec::new()),
        _ if word.len() % 2 == 1 => None,
        _ => word
            .as_bytes()
            .chunks(2)
            .map(|pair| hex_pair(pair[0], pair[1]))
            .collect(),
    }
}

/// A dash, or a command and a place that fits its reply's kind.
pub fn sending(word: &str) -> Option<Option<Sending>> {
    if word == "-" {
        return Some(None);
    }
    let (sequence, place) = word.split_once(':')?;
    let command = match hex(sequence)?[..] {
        [ESC, command] => command,
        _ => return None,
    };
    let place = if Sending::short_length(command).is_some() {
        Place::Byte(number(place, 255)? as u8)
    } else if !Sending::reads_cells(command) {
        return None;
    } else if let Some(cell) = place.strip_prefix('u') {
        Place::RowMark(number(cell, 0xFFFF)? as u16)
    } else if place == "cr" {
        Place::Cr
    } else {
        Place::Cell(number(place, 0xFFFF)? as u16)
    };
    Some(Some(Sending { command, place }))
}

/// Bytes whose number a text's length can say.
pub fn text_bytes(word: &str) -> Option<Vec<u8>> {
    hex(word).filter(|bytes| bytes.len() <= 255)
}

pub fn hex_byte(word: &str) -> Option<u8> {
    match word.as_bytes() {
        &[high, low] => hex_pair(high, low),
        _ => None,
    }
}

pub fn hex_pair(high: u8, low: u8) -> Option<u8> {
    Some(hex_digit(high)? << 4 | hex_digit(low)?)
}

pub fn hex_digit(digit: u8) -> Option<u8> {
    match digit {
        b'0'..=b'9' => Some(digit - b'0'),
        b'a'..=b'f' => Some(digit - b'a' + 10),
        _ => None,
    }
}
