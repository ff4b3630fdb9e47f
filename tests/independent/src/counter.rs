//! The alert counter: how many text parts a reply to ESC 5 makes.
//!
//! The program's `counter` reads lines from standard input, spelled as in a
//! script, and writes one line for each:
//!
//! `count HEX FIRST LAST`  `result=R`, R being `parts:N`, `no-cr`, `first`,
//!                         `last` or `byte:PLACE`
//! `entry HEX`             `parts=N`, N being 2^64 - 1 for a refused byte
//!
//! `counter SEED LINES` writes so many random lines of this kind.

mod lines;

pub use lines::{answer_lines, write_count, write_entry};

const CR: u8 = 0x0D;
const FS: u8 = 0x1C;
const US: u8 = 0x1F;
const SINGLE_PART: usize = 160;
pub const LINKED_PART: usize = 153;

/// Why a reply is not counted, in the order in which it is looked at.
#[derive(Clone, Copy, PartialEq, Eq, Debug)]
pub enum Uncounted {
    NoFinalCr,
    FirstPiece,
    LastPiece,
    /// A byte outside the alphabet, at this place of the whole.
    Byte(usize),
}

/// The parts of the pieces from the first to the last, numbered from 1.
pub fn count(reply: &[u8], first: usize, last: usize) -> Result<u64, Uncounted> {
    let Some((&CR, text)) = reply.split_last() else {
        return Err(Uncounted::NoFinalCr);
    };
    if first == 0 || first > last {
        return Err(Uncounted::FirstPiece);
    }
    let pieces: Vec<&[u8]> = text.split(|&byte| byte == FS || byte == US).collect();
    if last > pieces.len() {
        return Err(Uncounted::LastPiece);
    }
    parts(&pieces[first - 1..last].concat()).map_err(Uncounted::Byte)
}

/// The C entry: the parts of a text's own bytes.
pub fn entry(text: &[u8]) -> u64 {
    parts(text).unwrap_or(u64::MAX)
}

/// The parts of a text without its trailing spaces, or the place of its first
/// byte outside the alphabet.
fn parts(text: &[u8]) -> Result<u64, usize> {
    let kept = text.iter().rposition(|&byte| byte != b' ');
    let text = &text[..kept.map_or(0, |last| last + 1)];
    let costs: Vec<usize> = text
        .iter()
        .enumerate()
        .map(|(place, &byte)| units(byte).ok_or(place))
        .collect::<Result<_, _>>()?;
    if costs.iter().sum::<usize>() <= SINGLE_PART {
        return Ok(!costs.is_empty() as u64);
    }
    Ok(filled(&costs, LINKED_PART))
}

/// How many units a character costs; none if it is outside the alphabet.
pub fn units(byte: u8) -> Option<usize> {
    match byte {
        b'^' | b'{' | b'}' | b'\\' | b'[' | b'~' | b']' | b'|' => Some(2),
        b'`' => None,
        b' '..=b'~' => Some(1),
        _ => None,
    }
}

/// The parts of at most so many units, each filled before the next is begun.
pub fn filled(costs: &[usize], most: usize) -> u64 {
    let mut parts = 0;
    let mut left = 0;
    for &cost in costs {
        if cost > left {
            parts += 1;
            left = most;
        }
        left -= cost;
    }
    parts
}
