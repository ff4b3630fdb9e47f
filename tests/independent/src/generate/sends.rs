//! Sends in parts: small rooms, and pages changed in the middle.

use super::Generator;
use crate::state::{Place, Sending};
use crate::transcript::Line;

const COMMANDS: &[u8] = b" /4567?b";
const PROTECTED: u16 = 128;

impl Generator {
    pub(super) fn is_sending(&self) -> bool {
        self.bench.terminal.state.sending.is_some()
    }

    /// A room for a call that goes on with a send or begins one.
    pub(super) fn narrow_room(&mut self) -> usize {
        match self.random.below(8) {
            0 => 0,
            1 | 2 => 1,
            3 => 2,
            4 => self.random.within(0..=8),
            5 => 64,
            6 => self
                .random
                .within(self.columns() - 10..=self.columns() + 10),
            _ => self.random.within(0..=1000),
        }
    }

    /// The caller changes something if a send is under way.
    pub(super) fn disturb_send(&mut self) {
        if !self.is_sending() || !self.bench.terminal.is_possible() {
            return;
        }
        let cell = match self.bench.terminal.state.sending {
            Some(Sending {
                place: Place::Cell(cell) | Place::RowMark(cell),
                ..
            }) => cell as usize,
            _ => self.active_cursor(),
        };
        match self.random.below(12) {
            0 => self.place_cursors(),
            1 => self.page_scene(),
            2 => self.set_something(),
            _ => {
                for _ in 0..self.random.within(1..=4) {
                    self.change_cell_about(cell);
                }
            }
        }
        if !self.bench.terminal.is_possible() && self.random.coin() {
            self.forget_send();
        }
    }

    fn active_cursor(&self) -> usize {
        let state = &self.bench.terminal.state;
        state.cursors[state.active as usize & 1] as usize
    }

    /// Marks or unmarks a cell near this one, mostly just before or at it.
    fn change_cell_about(&mut self, cell: usize) {
        let index = match self.random.below(4) {
            0 => cell,
            1 => cell.saturating_sub(1),
            _ => (cell + self.random.below(8)).saturating_sub(2),
        };
        let index = index.min(self.cells() - 1);
        let value = self.bench.terminal.page[index].0 ^ PROTECTED;
        self.add(Line::Cell { index, value });
    }

    pub(super) fn forget_send(&mut self) {
        self.add(Line::Sending(None));
    }

    /// A command that sends, not one that sends protected text if that is excluded.
    /// For ESC ? and ESC / on a wide page another is taken.
    fn send_command(&mut self) -> u8 {
        let command = self.random.pick(COMMANDS);
        match command {
            b'6' | b'7' if self.avoids_excluded => command - 2,
            b'?' | b'/' if self.bench.terminal.state.wide => b'b',
            _ => command,
        }
    }

    /// A send at a possible place.
    pub fn sending(&mut self) -> Line {
        let command = self.send_command();
        let places = self.bench.terminal.state.places(command);
        let place = match self.random.below(6) {
            0 => places[1],
            1 => places[places.len() - 1],
            2 => self.row_mark_among(&places[1..]),
            _ => places[self.random.within(1..=places.len() - 1)],
        };
        Line::Sending(Some(Sending { command, place }))
    }

    fn row_mark_among(&mut self, places: &[Place]) -> Place {
        let marks = places
            .iter()
            .filter(|place| matches!(place, Place::RowMark(_)));
        let marks: Vec<Place> = marks.copied().collect();
        if marks.is_empty() {
            return places[0];
        }
        self.random.pick(&marks)
    }

    /// A send at a first place, past the end, at a US that is not there, or of
    /// ESC ? and ESC / on a wide page.
    pub(super) fn impossible_sending(&mut self) -> Line {
        if self.bench.terminal.state.wide && self.random.once_in(3) {
            let command = self.random.pick(b"?/");
            let place = Place::Byte(self.random.byte_within(1..=3));
            return Line::Sending(Some(Sending { command, place }));
        }
        let command = self.send_command();
        let (columns, cells) = (self.columns(), self.cells());
        let state = &self.bench.terminal.state;
        let (cursor, first) = (self.active_cursor(), state.places(command)[0]);
        let place = if let Some(length) = Sending::short_length(command) {
            let past = self.random.pick(&[0, length, length + 1, 255]);
            Place::Byte(past as u8)
        } else {
            let below = (state.row_start(cursor) + columns) as u16;
            let off_page = self.random.pick(&[cells as u16, 3168, 65535]);
            let far = 65535 / columns * columns;
            let row_off_page = self.random.pick(&[cells, cells + columns, far]) as u16;
            self.random.pick(&[
                first,
                Place::Cell(cursor as u16 + 1),
                Place::Cell(off_page),
                Place::RowMark(0),
                Place::RowMark(below),
                Place::RowMark(row_off_page),
            ])
        };
        Line::Sending(Some(Sending { command, place }))
    }
}
