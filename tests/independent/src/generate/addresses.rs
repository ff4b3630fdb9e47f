//! Addresses and splits, most of them within the segment.

use super::Generator;
use crate::state::{COLUMNS, ESC, ROWS};

impl Generator {
    /// The rows of a segment, as near as an impossible split row allows.
    fn rows_of(&self, segment: u8) -> usize {
        let cells = self.bench.terminal.state.segment(segment as usize & 1);
        (cells.len() / self.columns()).clamp(1, ROWS)
    }

    pub(super) fn active_rows(&self) -> usize {
        self.rows_of(self.bench.terminal.state.active)
    }

    pub(super) fn row_code(&mut self, rows: usize) -> u8 {
        let row = match self.random.below(12) {
            0 => return self.random.byte_within(0x00..=0x7F),
            1 => return self.random.pick(&[0x1F, 0x37, 0x38, 0x6F, 0x70]),
            2 => rows,
            3 | 4 => rows - 1,
            5 => 0,
            _ => self.random.below(rows),
        };
        0x20 + row as u8
    }

    fn column_code(&mut self) -> u8 {
        let column = match self.random.below(12) {
            0 => return self.random.byte_within(0x00..=0x7F),
            1 => return self.random.pick(&[0x1F, 0x6F, 0x70]),
            2 => 0,
            3..=5 => self.random.within(70..=79),
            _ => self.random.below(COLUMNS),
        };
        0x20 + column as u8
    }

    pub(super) fn compose_address(&mut self, phrase: &mut Vec<u8>) {
        let rows = self.active_rows();
        phrase.extend([ESC, b'=', self.row_code(rows), self.column_code()]);
    }

    pub(super) fn compose_segment_address(&mut self, phrase: &mut Vec<u8>) {
        let segment = match self.random.below(8) {
            0 => self.random.byte_within(0x00..=0x7F),
            1 => b'2',
            _ => self.random.pick(b"01"),
        };
        let rows = self.rows_of(segment);
        phrase.extend([ESC, b'-', segment, self.row_code(rows), self.column_code()]);
    }

    pub(super) fn compose_decimal_address(&mut self, phrase: &mut Vec<u8>) {
        phrase.extend([ESC, b'a']);
        let row = self.random.within(0..=self.active_rows() + 1);
        let edges = [0, 1, 2, 79, 80, 81, 99, 100, 131, 132, 133, 999];
        let column = match self.random.below(3) {
            0 => self.random.pick(&edges),
            1 => self.random.within(1..=self.columns()),
            _ => self.random.within(1..=COLUMNS),
        };
        let text = match self.random.below(10) {
            0..=3 => format!("{row}R{column}C"),
            4 | 5 => format!("{row:02}R{column:03}C"),
            6 => format!("{row:02}R{column:02}C"),
            7 => format!("{row}R{column}"),
            8 => format!("{}R{}C", self.random.below(120), self.random.below(1200)),
            _ => self.scrambled(b"0123456789RC", 7),
        };
        phrase.extend(text.bytes());
    }

    /// A column of the active segment's first row, more often one that codes do
    /// not reach if there are such.
    pub(super) fn compose_column(&mut self, phrase: &mut Vec<u8>) {
        let first = if self.random.coin() { COLUMNS } else { 1 };
        let column = self.random.within(first..=self.columns());
        phrase.extend([ESC, b'a']);
        phrase.extend(format!("1R{column}C").bytes());
    }

    fn scrambled(&mut self, letters: &[u8], most: usize) -> String {
        (0..self.random.within(1..=most))
            .map(|_| self.random.pick(letters) as char)
            .collect()
    }

    pub(super) fn compose_split(&mut self, phrase: &mut Vec<u8>) {
        phrase.extend([ESC, b'x']);
        match self.random.below(10) {
            0 => phrase.push(self.random.byte_within(0x00..=0x7F)),
            1 | 2 => phrase.push(b'0'),
            3 => phrase.extend([b'1', self.random.byte_within(0x00..=0x7F)]),
            4 => phrase.extend([b'1', self.random.pick(&[0x20, 0x21, 0x37, 0x38])]),
            _ => phrase.extend([b'1', self.random.byte_within(0x21..=0x37)]),
        }
        if self.random.coin() {
            phrase.extend([ESC, self.random.pick(b"}}JK]")]);
        }
    }
}
