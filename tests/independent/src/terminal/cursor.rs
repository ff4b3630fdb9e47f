//! Where the cursor may go.

use super::*;
use std::ops::Range;

impl Terminal {
    pub(super) fn cursor(&self) -> usize {
        self.state.cursor()
    }

    pub(super) fn columns(&self) -> usize {
        self.state.columns()
    }

    pub(super) fn row_start(&self, place: usize) -> usize {
        self.state.row_start(place)
    }

    pub(super) fn segment(&self) -> Range<usize> {
        self.state.active_segment()
    }

    pub(super) fn is_guarded(&self, place: usize) -> bool {
        self.state.modes.protect && self.page[place].is_protected()
    }

    pub(super) fn is_open(&self, place: usize) -> bool {
        !self.is_guarded(place)
    }

    pub(super) fn scrolls(&self) -> bool {
        self.state.modes.autoscroll && !self.state.modes.protect
    }

    pub(super) fn settle(&mut self, place: usize) -> Outcome {
        let segment = self.segment();
        let settled = (place..segment.end)
            .find(|&place| self.is_open(place))
            .or_else(|| (segment.start..place).find(|&place| self.is_open(place)))
            .unwrap_or(segment.start);
        self.state.cursors[self.state.active as usize] = settled as u16;
        DONE
    }

    pub(super) fn home(&mut self) -> Outcome {
        self.settle(self.segment().start)
    }

    pub(super) fn left(&mut self) -> Outcome {
        let cursor = self.cursor();
        let previous = (self.segment().start..cursor)
            .rev()
            .find(|&place| self.is_open(place));
        self.settle(previous.unwrap_or(cursor))
    }

    pub(super) fn right(&mut self) -> Outcome {
        let next = self.cursor() + 1;
        if next == self.segment().end {
            self.home()
        } else {
            self.settle(next)
        }
    }

    pub(super) fn carriage_return(&mut self) -> Outcome {
        self.settle(self.row_start(self.cursor()))
    }

    pub(super) fn up(&mut self) -> Outcome {
        let (cursor, segment) = (self.cursor(), self.segment());
        let above = if cursor < segment.start + self.columns() {
            cursor + segment.len() - self.columns()
        } else {
            cursor - self.columns()
        };
        self.settle(above)
    }

    pub(super) fn up_or_scroll(&mut self) -> Outcome {
        let (cursor, segment) = (self.cursor(), self.segment());
        if cursor >= segment.start + self.columns() {
            return self.settle(cursor - self.columns());
        }
        if !self.state.modes.protect {
            self.push_rows_down(segment);
        }
        self.settle(cursor)
    }

    pub(super) fn down(&mut self) -> Outcome {
        let below = self.make_row_below();
        self.settle(below)
    }

    pub(super) fn new_line(&mut self) -> Outcome {
        let below = self.make_row_below();
        self.settle(self.row_start(below))
    }

    /// The place below the cursor, after scrolling if that is what it takes.
    fn make_row_below(&mut self) -> usize {
        let (cursor, segment) = (self.cursor(), self.segment());
        if cursor + self.columns() < segment.end {
            cursor + self.columns()
        } else if self.scrolls() {
            self.pull_rows_up(segment);
            cursor
        } else {
            cursor + self.columns() - segment.len()
        }
    }

    pub(super) fn tab(&mut self) -> Outcome {
        let cursor = self.cursor();
        let place = if self.state.modes.protect {
            self.next_field_start(cursor)
        } else {
            let stop = self.state.tab_stops.next_after(cursor % self.columns());
            stop.map_or(cursor, |column| self.row_start(cursor) + column)
        };
        self.settle(place)
    }

    pub(super) fn back_tab(&mut self) -> Outcome {
        let cursor = self.cursor();
        let place = if self.state.modes.protect {
            self.previous_field_start(cursor)
        } else {
            let stop = self.state.tab_stops.last_before(cursor % self.columns());
            self.row_start(cursor) + stop.unwrap_or(0)
        };
        self.settle(place)
    }

    fn next_field_start(&self, cursor: usize) -> usize {
        let segment = self.segment();
        (cursor + 1..segment.end)
            .chain(segment.start..cursor + 1)
            .find(|&place| self.is_field_start(place, segment.start))
            .unwrap_or(segment.start)
    }

    fn previous_field_start(&self, cursor: usize) -> usize {
        let segment = self.segment();
        (cursor..segment.end)
            .chain(segment.start..cursor)
            .rev()
            .find(|&place| self.is_field_start(place, segment.start))
            .unwrap_or(segment.start)
    }

    fn is_field_start(&self, place: usize, home: usize) -> bool {
        self.is_open(place) && (place == home || self.is_guarded(place - 1))
    }

    pub(super) fn activate_other(&mut self) -> Outcome {
        if self.state.split == 0 {
            return DONE;
        }
        self.activate(1 - self.state.active)
    }

    pub(super) fn activate(&mut self, segment: u8) -> Outcome {
        if segment == 1 && self.state.split == 0 {
            return Err(Refusal::BadArgument);
        }
        self.state.active = segment;
        self.settle(self.cursor())
    }
}
