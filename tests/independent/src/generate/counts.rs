//! Replies and texts for the alert counter.

use super::Generator;
use crate::counter::{units, LINKED_PART};
use crate::random::Random;
use crate::state::{CR, ESC};
use crate::transcript::limits::WIDEST_ROOM;
use crate::transcript::Line;

const MARKS: &[u8] = b"\x1c\x1f";
const TWO_UNITS: &[u8] = b"^{}\\[~]|";
const OUTSIDE: &[u8] = b"\x00\x0a\x0d\x1b\x1c\x1e\x1f`\x7f\x80\xa0\xe9\xff";

impl Generator {
    /// A count over the send of the page as it stands, or over random bytes.
    pub(super) fn count(&mut self) {
        let line = match self.random.below(3) {
            0 => self.count_of_send(),
            _ => count_line(&mut self.random),
        };
        self.add(line);
    }

    fn count_of_send(&mut self) -> Line {
        let mut terminal = self.bench.terminal.clone();
        let mut room = [0; WIDEST_ROOM];
        let replied = terminal.run(&[ESC, b'5'], &mut room).replied;
        numbered(&mut self.random, room[..replied].to_vec())
    }
}

/// A random count, or a random text for the C entry.
pub fn count_line(random: &mut Random) -> Line {
    let mut bytes = text(random);
    if random.once_in(3) {
        return Line::Entry(bytes);
    }
    let marks = match random.below(5) {
        0 => 0,
        1 => random.within(10..=40),
        _ => random.within(1..=4),
    };
    for _ in 0..marks {
        let place = random.below(bytes.len() + 1);
        bytes.insert(place, random.pick(MARKS));
    }
    if !random.once_in(8) {
        bytes.push(CR);
    }
    numbered(random, bytes)
}

/// Numbers of pieces that are there, or nearly so.
fn numbered(random: &mut Random, reply: Vec<u8>) -> Line {
    let pieces = reply.iter().filter(|byte| MARKS.contains(byte)).count() + 1;
    let (first, last) = match random.below(10) {
        0 => (0, random.within(0..=pieces + 1)),
        1 => (random.within(0..=pieces + 1), random.within(0..=pieces + 1)),
        2 => (
            random.within(1..=pieces),
            random.pick(&[pieces + 1, 256, 1000, 65535]),
        ),
        3 | 4 => (1, pieces),
        _ => {
            let first = random.within(1..=pieces);
            (first, random.within(first..=pieces))
        }
    };
    Line::Count { reply, first, last }
}

/// A text of about so many units that its parts are in doubt, now and then with
/// bytes outside the alphabet, with trailing spaces or without.
fn text(random: &mut Random) -> Vec<u8> {
    let mut text = Vec::new();
    let most = match random.below(8) {
        0 => random.within(0..=5),
        1 => random.within(0..=400),
        2 => random.within(158..=162),
        3 => LINKED_PART * random.within(1..=6) + random.within(0..=3) - 1,
        4 => random.pick(&[160, 161, 305, 306, 307, 459, 460]),
        _ => random.within(150..=320),
    };
    let two_units_once_in = random.pick(&[1, 1, 2, 3, 10, 200]);
    let mut left = most;
    while left > 0 {
        let seam = left % LINKED_PART < 2 && random.coin();
        let byte = if left >= 2 && (seam || random.once_in(two_units_once_in)) {
            random.pick(TWO_UNITS)
        } else {
            plain(random)
        };
        left -= units(byte).unwrap_or(1);
        text.push(byte);
    }
    if random.once_in(5) {
        for _ in 0..random.within(1..=2) {
            let place = random.below(text.len() + 1);
            text.insert(place, random.pick(OUTSIDE));
        }
    }
    if random.once_in(3) {
        let spaces = random.pick(&[1, 2, 10, 80, 200]);
        text.resize(text.len() + spaces, b' ');
    }
    text
}

/// A character of one unit.
fn plain(random: &mut Random) -> u8 {
    loop {
        let byte = match random.below(6) {
            0 => b' ',
            _ => random.byte_within(b' '..=b'~'),
        };
        if units(byte) == Some(1) {
            return byte;
        }
    }
}
