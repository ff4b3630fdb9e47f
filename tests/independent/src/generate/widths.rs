//! Both widths: pages set so, and conversions.

use super::Generator;
use crate::state::{CELLS, COLUMNS, ROWS, WIDEST};
use crate::transcript::limits::LONGEST_PAGE;
use crate::transcript::Line;

impl Generator {
    pub(super) fn columns(&self) -> usize {
        self.bench.terminal.state.columns()
    }

    pub(super) fn cells(&self) -> usize {
        self.bench.terminal.state.cells()
    }

    /// A page and a state of one width, set by lines.
    pub fn choose_width(&mut self) {
        let wide = self.random.below(3) > 0;
        self.forget_send();
        if !wide {
            self.clear_wide_stops();
        }
        self.add(Line::Wide(wide));
        let wish = self.random.coin();
        self.add(Line::Wish(wish));
        let length = self.cells();
        self.add(Line::Length(length));
        self.place_cursors();
        self.page_scene();
    }

    fn clear_wide_stops(&mut self) {
        for column in COLUMNS..WIDEST {
            if self.bench.terminal.state.tab_stops.has(column) {
                self.add(Line::Tab { column, on: false });
            }
        }
    }

    pub(super) fn convert(&mut self) {
        let is_wide = self.bench.terminal.state.wide;
        if is_wide && self.bench.terminal.is_possible() && self.random.below(3) > 0 {
            self.clear_wide_columns();
        }
        let other = ROWS * self.bench.terminal.state.other_columns();
        let target = match self.random.below(8) {
            0 => {
                let lengths = [0, 1, 1919, 1920, 1921, 3167, 3168, 3169, LONGEST_PAGE];
                self.random.pick(&lengths)
            }
            _ => other,
        };
        self.add(Line::Convert(target));
    }

    /// Nulls beyond column 80, but for one cell now and then.
    fn clear_wide_columns(&mut self) {
        for row in 0..ROWS {
            self.add(Line::Fill {
                index: row * WIDEST + COLUMNS,
                count: WIDEST - COLUMNS,
                value: 0,
            });
        }
        if self.random.once_in(4) {
            let row = self.random.pick(&[0, 11, ROWS - 1]);
            let column = self.random.pick(&[COLUMNS - 1, COLUMNS, WIDEST - 1]);
            let value = self.random.pick(&[1, 32, 128, 256, 32768]);
            self.add(Line::Cell {
                index: row * WIDEST + column,
                value,
            });
        }
    }

    /// Power-on takes a narrow page alone.
    pub(super) fn narrow_page(&mut self) {
        if self.bench.terminal.page.len() != CELLS {
            self.add(Line::Length(CELLS));
        }
    }
}
