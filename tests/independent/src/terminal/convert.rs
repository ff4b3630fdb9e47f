//! The change between 80 and 132 columns.

use super::*;

impl Terminal {
    /// Converts to the other width, the page into the target. The page stays; on 0
    /// the target is the page that fits the state.
    pub fn convert(&mut self, target: &mut [Cell]) -> Outcome {
        let (old, new) = (self.state.columns(), self.state.other_columns());
        if !self.is_possible() || target.len() != ROWS * new {
            return Err(Refusal::Impossible);
        }
        if self.state.sending.is_some() {
            return Err(Refusal::NoRoom);
        }
        let rows: Vec<&[Cell]> = self.page.chunks(old).collect();
        let kept = old.min(new);
        let loses_something = |row: &&[Cell]| row[kept..].iter().any(|&cell| cell != Cell::NULL);
        if rows.iter().any(loses_something) {
            return Err(Refusal::Barred);
        }
        for (row, new_row) in rows.iter().zip(target.chunks_mut(new)) {
            new_row.fill(Cell::NULL);
            new_row[..kept].copy_from_slice(&row[..kept]);
        }
        let mut converted = Terminal {
            page: target.to_vec(),
            state: self.state.clone(),
        };
        converted.state.wide = !self.state.wide;
        converted.state.tab_stops.clear_from(new);
        converted.split_screen(0)?;
        self.state = converted.state;
        DONE
    }
}
