//! Reading the page: fields, texts, places.

use super::Generator;
use crate::reading::{field_text, fields, row_text};
use crate::state::{COLUMNS, ROWS, WIDEST};
use crate::transcript::limits::{FARTHEST, WIDEST_ROOM};
use crate::transcript::Line;

impl Generator {
    /// A row's text has labels in it, so where they must not tell it is not read.
    pub(super) fn read_page(&mut self) {
        match self.random.below(10) {
            0..=2 => {
                let from = self.cell_to_read();
                self.add(Line::Field(from));
            }
            3..=5 => self.read_field(),
            6 | 7 if !self.avoids_excluded => self.read_row(),
            8 => {
                let row = self.random.pick(&[0, 1, ROWS - 1, ROWS, FARTHEST]);
                let columns = [0, 1, COLUMNS - 1, COLUMNS, WIDEST - 1, WIDEST, FARTHEST];
                let column = self.random.pick(&columns);
                self.add(Line::Place { row, column });
            }
            _ => {
                let cell = self.cell_to_read();
                self.add(Line::Position(cell));
            }
        }
    }

    fn read_field(&mut self) {
        let (start, trim) = (self.cell_to_read(), self.random.coin());
        let page = &self.bench.terminal.page;
        let length = field_text(page, start, trim, &mut [0; WIDEST]).unwrap_or(0);
        let room = self.room_for_text(length);
        self.add(Line::FieldText { start, trim, room });
    }

    fn read_row(&mut self) {
        let row = match self.random.below(8) {
            0 => self.random.pick(&[ROWS - 1, ROWS, ROWS + 1, FARTHEST]),
            _ => self.random.below(ROWS),
        };
        let trim = self.random.coin();
        let page = &self.bench.terminal.page;
        let length = row_text(page, row, trim, &mut [0; WIDEST]).unwrap_or(0);
        let room = self.room_for_text(length);
        self.add(Line::RowText { row, trim, room });
    }

    fn room_for_text(&mut self, length: usize) -> usize {
        match self.random.below(8) {
            0 => 0,
            1 => length.saturating_sub(1),
            2 | 3 => length,
            4 => length + 1,
            5 => self.random.within(0..=WIDEST),
            6 => WIDEST,
            _ => WIDEST_ROOM,
        }
    }

    /// A cell, mostly the start of a field or one about it, now and then none.
    fn cell_to_read(&mut self) -> usize {
        let length = self.bench.terminal.page.len();
        let fields = fields(&self.bench.terminal.page);
        match self.random.below(10) {
            0..=6 if !fields.is_empty() => {
                let field = self.random.pick(&fields);
                let end = field.start + field.length;
                let (before, inside) = (field.start.saturating_sub(1), field.start + 1);
                self.random.weighted(&[
                    (8, field.start),
                    (2, before),
                    (2, inside),
                    (1, end - 1),
                    (2, end),
                ])
            }
            0 | 1 => length.saturating_sub(self.random.below(3)),
            2 => self.random.pick(&[length + 1, FARTHEST]),
            3 => self.random.below(ROWS) * self.columns(),
            _ => self.random.within(0..=length),
        }
    }
}
