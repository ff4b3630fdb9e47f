//! Writing and clearing.

use super::*;
use std::ops::Range;

impl Terminal {
    pub(super) fn check_cursor_open(&self) -> Result<(), Refusal> {
        if self.is_guarded(self.cursor()) {
            return Err(Refusal::Barred);
        }
        Ok(())
    }

    pub(super) fn store_with_attribute(&mut self, cell: Cell) -> Outcome {
        self.store(cell.with_flags(self.state.remembered))
    }

    pub(super) fn store(&mut self, cell: Cell) -> Outcome {
        self.check_cursor_open()?;
        let cursor = self.cursor();
        if self.state.modes.insert {
            self.shift_right(cursor);
        }
        let write_protect = self.state.modes.write_protect;
        self.page[cursor] = if write_protect {
            cell.with_protection()
        } else {
            cell
        };
        self.advance(cursor)
    }

    fn advance(&mut self, cursor: usize) -> Outcome {
        let segment = self.segment();
        if cursor + 1 < segment.end {
            return self.settle(cursor + 1);
        }
        if !self.scrolls() {
            return self.home();
        }
        let bottom = segment.end - self.columns();
        self.pull_rows_up(segment);
        self.settle(bottom)
    }

    /// The cells from the cursor up to the next guarded cell or row end.
    fn edit_run(&self, cursor: usize) -> Range<usize> {
        let row_end = self.row_start(cursor) + self.columns();
        let guarded = (cursor + 1..row_end).find(|&place| self.is_guarded(place));
        cursor..guarded.unwrap_or(row_end)
    }

    fn shift_right(&mut self, cursor: usize) {
        let run = self.edit_run(cursor);
        self.page.copy_within(run.start..run.end - 1, run.start + 1);
    }

    pub(super) fn insert_space(&mut self) -> Outcome {
        self.check_cursor_open()?;
        let cursor = self.cursor();
        self.shift_right(cursor);
        self.page[cursor] = Cell::SPACE;
        DONE
    }

    pub(super) fn delete_cell(&mut self) -> Outcome {
        self.check_cursor_open()?;
        let run = self.edit_run(self.cursor());
        self.page.copy_within(run.start + 1..run.end, run.start);
        self.page[run.end - 1] = Cell::SPACE;
        DONE
    }

    pub(super) fn insert_row(&mut self) -> Outcome {
        let rows = self.rows_from_cursor()?;
        let first = rows.start;
        self.push_rows_down(rows);
        self.settle(first)
    }

    pub(super) fn delete_row(&mut self) -> Outcome {
        let rows = self.rows_from_cursor()?;
        let first = rows.start;
        self.pull_rows_up(rows);
        self.settle(first)
    }

    fn rows_from_cursor(&self) -> Result<Range<usize>, Refusal> {
        if self.state.modes.protect {
            return Err(Refusal::Barred);
        }
        Ok(self.row_start(self.cursor())..self.segment().end)
    }

    pub(super) fn push_rows_down(&mut self, rows: Range<usize>) {
        let (first, second) = (rows.start, rows.start + self.columns());
        let last = rows.end - self.columns();
        self.page.copy_within(first..last, second);
        self.page[first..second].fill(Cell::SPACE);
    }

    pub(super) fn pull_rows_up(&mut self, rows: Range<usize>) {
        let second = rows.start + self.columns();
        let last = rows.end - self.columns();
        self.page.copy_within(second..rows.end, rows.start);
        self.page[last..rows.end].fill(Cell::SPACE);
    }

    fn fill_open(&mut self, cells: Range<usize>, cell: Cell) {
        let protect = self.state.modes.protect;
        for old in &mut self.page[cells] {
            if !(protect && old.is_protected()) {
                *old = cell;
            }
        }
    }

    pub(super) fn clear_row_rest(&mut self, cell: Cell) -> Outcome {
        let cursor = self.cursor();
        self.fill_open(cursor..self.row_start(cursor) + self.columns(), cell);
        DONE
    }

    pub(super) fn clear_segment_rest(&mut self, cell: Cell) -> Outcome {
        self.fill_open(self.cursor()..self.segment().end, cell);
        DONE
    }

    pub(super) fn clear_open_cells(&mut self, cell: Cell) -> Outcome {
        self.fill_open(self.segment(), cell);
        self.home()
    }

    pub(super) fn clear_all_cells(&mut self, cell: Cell) -> Outcome {
        let segment = self.segment();
        self.page[segment].fill(cell);
        self.home()
    }

    pub(super) fn clear_all_to_protected(&mut self) -> Outcome {
        self.state.modes.protect = false;
        self.clear_all_cells(Cell::SPACE.with_protection())
    }

    pub(super) fn protect_column(&mut self) -> Outcome {
        let (cursor, segment) = (self.cursor(), self.segment());
        let top = segment.start + cursor % self.columns();
        for place in (top..segment.end).step_by(self.columns()) {
            if self.is_open(place) {
                self.page[place] = Cell::SPACE.with_protection();
            }
        }
        self.settle(cursor)
    }
}
