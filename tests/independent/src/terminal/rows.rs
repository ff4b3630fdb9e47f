//! The list of rows that have room, kept beside the page.

use super::*;

/// Two numbers for each row.
pub const ROW_NUMBERS: usize = 2 * ROWS;

impl Terminal {
    /// For each row the number of open cells, and the column of the first one or 0.
    pub fn rows_with_room(&self) -> Vec<u16> {
        let mut list = Vec::new();
        for row in 0..ROWS {
            let start = row * self.columns();
            let columns: Vec<usize> = (1..=self.columns())
                .filter(|column| self.is_open(start + column - 1))
                .collect();
            list.push(columns.len() as u16);
            list.push(columns.first().map_or(0, |&column| column as u16));
        }
        list
    }

    pub fn rebuild_rows(&self, list: &mut [u16]) -> Outcome {
        if !self.is_possible() || list.len() != ROW_NUMBERS {
            return Err(Refusal::Impossible);
        }
        list.copy_from_slice(&self.rows_with_room());
        DONE
    }

    /// Whether page, state and list are such that a call with the list works.
    pub fn agrees_with(&self, list: &[u16]) -> bool {
        self.is_possible() && *list == self.rows_with_room()
    }

    pub fn step_with_rows(&mut self, byte: u8, room: &mut [u8], list: &mut [u16]) -> Step {
        if !self.agrees_with(list) {
            return Step::IMPOSSIBLE;
        }
        let step = self.step(byte, room);
        list.copy_from_slice(&self.rows_with_room());
        step
    }

    pub fn run_with_rows<'a>(
        &mut self,
        input: &'a [u8],
        room: &mut [u8],
        list: &mut [u16],
    ) -> Run<'a> {
        if !self.agrees_with(list) {
            return Run::impossible(input);
        }
        let report = self.run(input, room);
        list.copy_from_slice(&self.rows_with_room());
        report
    }
}
