//! Tab stops.

use super::WIDEST;

/// Tab stops by column, as many as the widest page has.
#[derive(Clone, Copy, PartialEq, Eq, Debug)]
pub struct TabStops([bool; WIDEST]);

impl TabStops {
    pub const NONE: TabStops = TabStops([false; WIDEST]);

    pub fn set(&mut self, column: usize, on: bool) {
        self.0[column] = on;
    }

    pub fn has(&self, column: usize) -> bool {
        self.0[column]
    }

    /// The columns with a stop, from the left.
    pub fn columns(self) -> impl Iterator<Item = usize> {
        (0..WIDEST).filter(move |&column| self.has(column))
    }

    pub fn next_after(self, column: usize) -> Option<usize> {
        self.columns().find(|&stop| stop > column)
    }

    pub fn last_before(self, column: usize) -> Option<usize> {
        self.columns().take_while(|&stop| stop < column).last()
    }

    /// Forgets the stops from a column on.
    pub fn clear_from(&mut self, column: usize) {
        self.0[column..].fill(false);
    }
}
