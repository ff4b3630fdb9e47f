//! Row lists: right ones, wrong ones and rebuilt ones.

use super::Generator;
use crate::terminal::ROW_NUMBERS;
use crate::transcript::Line;

impl Generator {
    /// Turns to calls with the list and away from them, and spoils the list now
    /// and then. Whether a rebuild shall be the next call.
    pub(super) fn tend_rows(&mut self) -> bool {
        if self.random.once_in(if self.lists { 20 } else { 60 }) {
            self.lists = !self.lists;
        }
        if !self.lists {
            return self.random.once_in(200);
        }
        if self.random.once_in(40) {
            self.row_scene();
        }
        let is_refused = !self.bench.terminal.agrees_with(&self.bench.rows);
        if is_refused {
            self.random.below(3) > 0
        } else {
            self.random.once_in(30)
        }
    }

    pub(super) fn rebuild(&mut self) {
        if self.bench.rows.len() != ROW_NUMBERS && self.random.below(4) > 0 {
            self.add(Line::Rows(ROW_NUMBERS));
        }
        self.add(Line::Rebuild);
    }

    /// A list set by lines.
    pub fn row_scene(&mut self) {
        match self.random.below(8) {
            0 => {
                let lengths = [0, 1, 2, 24, 46, 47, 49, 50, 96, 1000];
                let length = self.random.pick(&lengths);
                self.add(Line::Rows(length));
            }
            1 => self.add(Line::Rows(ROW_NUMBERS)),
            2..=4 => self.right_rows(),
            _ => self.row_off(),
        }
    }

    pub fn right_rows(&mut self) {
        if !self.bench.terminal.is_possible() {
            return;
        }
        if self.bench.rows.len() != ROW_NUMBERS {
            self.add(Line::Rows(ROW_NUMBERS));
        }
        let list = self.bench.terminal.rows_with_room();
        for (index, value) in list.into_iter().enumerate() {
            if self.bench.rows[index] != value {
                self.add(Line::Row { index, value });
            }
        }
    }

    /// One number of the list off, by a little or by much.
    fn row_off(&mut self) {
        if self.bench.rows.is_empty() {
            return;
        }
        let index = self.random.below(self.bench.rows.len());
        let old = self.bench.rows[index];
        let value = match self.random.below(6) {
            0 => old.wrapping_add(1),
            1 => old.wrapping_sub(1),
            2 => old ^ 0x8000,
            3 => self.random.pick(&[0, 1, 80, 81, 132, 133]),
            4 => self.random.number() as u16,
            _ => old + 128 * (old < 128) as u16,
        };
        self.add(Line::Row { index, value });
    }
}
