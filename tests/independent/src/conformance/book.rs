//! The script as it grows, and its lines.

use crate::state::{Personality, CELLS};
use crate::transcript::Line;

const WIDE: usize = 2000;
const PROTECTED: u16 = 128;

/// The script as it grows.
pub struct Book {
    pub text: Vec<u8>,
}

impl Book {
    /// A comment, then a terminal as at power-on.
    pub fn case(&mut self, title: &str) {
        self.comment(title);
        self.line(Line::Length(CELLS));
        self.line(Line::On(None));
    }

    /// The same as WY-60.
    pub fn case_60(&mut self, title: &str) {
        self.comment(title);
        self.line(Line::Length(CELLS));
        self.line(Line::On(Some(Personality::Wy60)));
    }

    pub fn comment(&mut self, title: &str) {
        self.text
            .extend_from_slice(format!("# {title}\n").as_bytes());
    }

    pub fn line(&mut self, line: Line) {
        line.write(&mut self.text);
    }

    pub fn step(&mut self, byte: u8) {
        self.step_in(byte, WIDE);
    }

    pub fn step_in(&mut self, byte: u8, room: usize) {
        self.line(Line::Step { byte, room });
    }

    pub fn run(&mut self, bytes: &[u8]) {
        self.run_in(bytes, WIDE);
    }

    pub fn run_in(&mut self, bytes: &[u8], room: usize) {
        self.line(Line::Run {
            bytes: bytes.to_vec(),
            room,
        });
    }

    /// Each byte a call of its own.
    pub fn steps(&mut self, bytes: &[u8]) {
        for &byte in bytes {
            self.step(byte);
        }
    }

    pub fn press(&mut self, value: u8) {
        self.press_in(value, WIDE);
    }

    pub fn press_in(&mut self, value: u8, room: usize) {
        self.line(Line::Press { value, room });
    }

    pub fn show(&mut self) {
        self.line(Line::Show);
    }

    pub fn fill(&mut self, index: usize, count: usize, value: u16) {
        self.line(Line::Fill {
            index,
            count,
            value,
        });
    }

    pub fn cell(&mut self, index: usize, value: u16) {
        self.line(Line::Cell { index, value });
    }

    pub fn cursor(&mut self, segment: usize, cell: u16) {
        self.line(Line::Cursor { segment, cell });
    }

    pub fn protect(&mut self, on: bool) {
        self.line(Line::Mode { mode: 0, on });
    }

    pub fn key(&mut self, key: usize, bytes: &[u8]) {
        self.line(Line::Key {
            key,
            bytes: bytes.to_vec(),
        });
    }

    pub fn pending(&mut self, bytes: &[u8]) {
        self.line(Line::Pending {
            bytes: bytes.to_vec(),
            spoilt: false,
        });
    }

    /// Some text of all kinds, some of it protected, and the cursor among it.
    pub fn mixed_page(&mut self) {
        self.line(Line::Noise {
            seed: 1,
            mask: 0x037F,
            share: 64,
        });
        self.cursor(0, 805);
    }

    /// A form: every cell protected but those of the given fields.
    pub fn form(&mut self, fields: &[(usize, usize)]) {
        self.fill(0, CELLS, b'#' as u16 | PROTECTED);
        for &(index, count) in fields {
            self.fill(index, count, b'.' as u16);
        }
        self.protect(true);
    }
}

pub fn cursor_line(segment: usize, cell: u16) -> Line {
    Line::Cursor { segment, cell }
}

pub fn key_line(key: usize, bytes: &[u8]) -> Line {
    Line::Key {
        key,
        bytes: bytes.to_vec(),
    }
}

pub fn on_or_off(on: bool) -> &'static str {
    if on {
        "on"
    } else {
        "off"
    }
}
