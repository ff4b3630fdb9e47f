//! Random scripts that keep the terminal doing something.

mod addresses;
mod counts;
mod excursions;
mod mending;
mod personalities;
mod phrases;
mod reading;
mod repainting;
mod rows;
mod scenes;
mod sends;
mod setups;
mod texts;
mod widths;

use crate::random::Random;
use crate::state::{Sequence, ROWS};
use crate::terminal::{Refusal, Terminal};
use crate::transcript::limits::WIDEST_ROOM;
use crate::transcript::{Bench, Line};
pub use counts::count_line;
use std::collections::VecDeque;

const MOST_BYTES: usize = 60;
/// After ESC: protect off, clear all, and sending protected text.
const EXCLUDED: &[u8] = b"'*+,67";

/// A random script with so many calls.
pub fn script(seed: u64, calls: usize) -> Vec<Line> {
    let mut generator = Generator::new(seed);
    while generator.calls < calls {
        generator.scene_or_call(calls);
    }
    generator.script
}

/// Adds lines to a script and follows them on a terminal, so that rooms can be
/// aimed and impossible states left again.
pub struct Generator {
    pub random: Random,
    pub bench: Bench,
    pub script: Vec<Line>,
    pub calls: usize,
    /// Bytes composed but not sent yet.
    stream: VecDeque<u8>,
    /// Whether steps and runs are made with the row list.
    lists: bool,
    /// Whether the excluded commands are kept from being completed.
    avoids_excluded: bool,
}

/// The lines of a script.
impl Generator {
    pub fn new(seed: u64) -> Generator {
        Generator {
            random: Random::new(seed),
            bench: Bench::new(),
            script: Vec::new(),
            calls: 0,
            stream: VecDeque::new(),
            lists: false,
            avoids_excluded: false,
        }
    }

    /// A generator whose scripts complete none of the excluded commands.
    pub fn without_excluded(seed: u64) -> Generator {
        Generator {
            avoids_excluded: true,
            ..Generator::new(seed)
        }
    }

    fn scene_or_call(&mut self, most_calls: usize) {
        match self.random.below(400) {
            0..=11 => self.scene(),
            12..=14 => self.excursion(most_calls),
            15 => self.power_on(),
            16 => self.add(Line::Show),
            17..=20 => self.count(),
            _ => self.call(),
        }
    }

    pub fn add(&mut self, line: Line) {
        let taken = self.bench.follow(&line);
        let taken = taken.unwrap_or_else(|| panic!("a line that cannot be set: {line:?}"));
        match &line {
            Line::Run { bytes, .. }
            | Line::ListRun { bytes, .. }
            | Line::Next { bytes, .. }
            | Line::ListNext { bytes, .. } => {
                self.send_again_or_forget(&bytes[taken..]);
            }
            Line::Step { byte, .. } | Line::ListStep { byte, .. } if taken == 0 => {
                self.send_again_or_forget(&[*byte]);
            }
            _ => {}
        }
        self.calls += line.is_output() as usize;
        self.script.push(line);
    }

    fn send_again_or_forget(&mut self, rest: &[u8]) {
        if self.random.coin() {
            for &byte in rest.iter().rev() {
                self.stream.push_front(byte);
            }
        }
    }

    fn power_on(&mut self) {
        if self.random.once_in(3) {
            self.stream.clear();
        }
        self.power_on_either();
    }

    pub fn call(&mut self) {
        if self.random.once_in(4) && !self.avoids_excluded {
            self.disturb_send();
        }
        if self.random.once_in(30) {
            return self.setup_call();
        }
        if self.random.once_in(30) && !self.avoids_excluded {
            return match self.random.below(6) {
                0 => self.mend(),
                1 | 2 => self.repaint(),
                _ => self.convert(),
            };
        }
        let is_of_other_length = self.bench.terminal.page.len() != self.cells();
        if self.random.once_in(if is_of_other_length { 3 } else { 12 }) {
            return self.read_page();
        }
        if self.tend_rows() {
            return self.rebuild();
        }
        match self.random.below(20) {
            0 => self.press(),
            1..=5 => self.step(),
            6..=10 => self.next(),
            _ => self.run(),
        }
    }

    fn press(&mut self) {
        let value = match self.random.below(8) {
            0 => self.random.byte(),
            1 => self
                .random
                .pick(&[0x3F, 0x40, 0x4F, 0x50, 0x5F, 0x60, 0x6F, 0x70]),
            _ => self.key_value(),
        };
        let mut room = [0; WIDEST_ROOM];
        let replied = self.bench.terminal.press(value, &mut room).unwrap_or(0);
        let room = self.room_about(replied);
        self.add(Line::Press { value, room });
    }

    fn step(&mut self) {
        let byte = self.next_bytes(1)[0];
        let mut room = [0; WIDEST_ROOM];
        let replied = self
            .bench
            .terminal
            .clone()
            .step(byte, &mut room)
            .outcome
            .unwrap_or(0);
        let room = self.room_about(replied);
        let mut bytes = vec![byte];
        self.replace_excluded(&mut bytes, room);
        let byte = bytes[0];
        self.add(if self.lists {
            Line::ListStep { byte, room }
        } else {
            Line::Step { byte, room }
        });
    }

    fn run(&mut self) {
        let mut bytes = self.some_bytes();
        let mut room = [0; WIDEST_ROOM];
        let replied = self.bench.terminal.clone().run(&bytes, &mut room).replied;
        let room = self.room_about(replied);
        self.replace_excluded(&mut bytes, room);
        self.add(if self.lists {
            Line::ListRun { bytes, room }
        } else {
            Line::Run { bytes, room }
        });
    }

    fn next(&mut self) {
        let mut bytes = self.some_bytes();
        let mut room = [0; WIDEST_ROOM];
        let next = self.bench.terminal.clone().next(&bytes, &mut room);
        let room = self.room_about(next.run.replied);
        self.replace_excluded_of_next(&mut bytes, room);
        if self.lists && self.random.once_in(12) {
            self.add(Line::Rows(0));
        }
        self.add(if self.lists {
            Line::ListNext { bytes, room }
        } else {
            Line::Next { bytes, room }
        });
    }

    fn some_bytes(&mut self) -> Vec<u8> {
        if self.is_sending() && self.random.once_in(4) {
            return vec![];
        }
        let count = match self.random.below(8) {
            0 => self.random.below(4),
            1..=3 => self.random.below(12),
            _ => self.random.within(0..=MOST_BYTES),
        };
        self.next_bytes(count)
    }

    fn next_bytes(&mut self, count: usize) -> Vec<u8> {
        while self.stream.len() < count {
            let phrase = self.phrase();
            self.stream.extend(phrase);
        }
        self.stream.drain(..count).collect()
    }

    /// A room for a call that would reply so many bytes if it could.
    fn room_about(&mut self, replied: usize) -> usize {
        let narrow = match (self.is_sending(), replied) {
            (true, _) => self.random.below(4) > 0,
            (false, 0) => self.random.once_in(8),
            (false, _) => self.random.once_in(3),
        };
        if narrow {
            return self.narrow_room();
        }
        match self.random.below(16) {
            0..=2 => self.random.within(0..=10),
            3..=6 => {
                let room = replied + self.random.within(0..=2);
                room.saturating_sub(1).min(WIDEST_ROOM)
            }
            7 => self.random.within(0..=replied),
            8 => {
                let longest = self.cells() + ROWS;
                self.random.within(longest - 4..=longest + 4)
            }
            9 | 10 => self.random.within(0..=self.cells() + ROWS),
            11 => WIDEST_ROOM,
            _ => self.cells() + 80,
        }
    }

    /// Puts other bytes in the place of those that would complete an excluded command.
    fn replace_excluded(&self, bytes: &mut [u8], room: usize) {
        while let Some(place) = self.excluded_place(bytes, room) {
            bytes[place] = b'?';
        }
    }

    /// The same for a call up to the first reply or refusal.
    fn replace_excluded_of_next(&self, bytes: &mut [u8], room: usize) {
        let terminal = &self.bench.terminal;
        while let Some(place) = self.excluded_place(taken_by_next(terminal, bytes, room), room) {
            bytes[place] = b'?';
        }
    }

    fn excluded_place(&self, bytes: &[u8], room: usize) -> Option<usize> {
        if !self.avoids_excluded {
            return None;
        }
        excluded_byte(&self.bench.terminal, bytes, room)
    }
}

/// The bytes that a call up to the first reply or refusal takes.
pub fn taken_by_next<'a>(terminal: &Terminal, bytes: &'a [u8], room: usize) -> &'a [u8] {
    let taken = terminal.clone().next(bytes, &mut vec![0; room]).run.taken;
    &bytes[..taken]
}

/// The place of the byte that would be the last of an excluded command in a run
/// and would answer 0.
pub fn excluded_byte(terminal: &Terminal, bytes: &[u8], room: usize) -> Option<usize> {
    let mut terminal = terminal.clone();
    let mut room = vec![0; room];
    let mut replied = terminal.run(&[], &mut room).replied;
    for (place, &byte) in bytes.iter().enumerate() {
        if !terminal.is_possible() || terminal.state.sending.is_some() {
            break;
        }
        let escaped = terminal.state.sequence == Sequence::Escape;
        match terminal.step(byte, &mut room[replied..]).outcome {
            Ok(_) if escaped && EXCLUDED.contains(&byte) => return Some(place),
            Ok(count) => replied += count,
            Err(Refusal::NoRoom) => break,
            Err(_) => {}
        }
    }
    None
}
