//! Reading the page: fields, texts, places.

use super::Replay;
use crate::reading::{cell_at, field_text, next_field, position, row_text};
use crate::terminal::{answer_number, Outcome};
use crate::transcript::write::push_number;

impl Replay {
    pub(super) fn field(&self, from: usize, out: &mut Vec<u8>) {
        let field = next_field(&self.bench.terminal.page, from);
        out.extend_from_slice(b" field start=");
        push_number(out, field.map_or(0, |field| field.start));
        out.extend_from_slice(b" length=");
        push_number(out, field.map_or(0, |field| field.length));
        out.extend_from_slice(b" row=");
        push_number(out, field.map_or(0, |field| field.row));
        out.extend_from_slice(b" column=");
        push_number(out, field.map_or(0, |field| field.column));
    }

    pub(super) fn field_text(&mut self, start: usize, trim: bool, room: usize, out: &mut Vec<u8>) {
        let page = &self.bench.terminal.page;
        let outcome = field_text(page, start, trim, &mut self.room[..room]);
        out.extend_from_slice(b" fieldtext");
        self.write_page_text(outcome, room, out);
    }

    pub(super) fn row_text(&mut self, row: usize, trim: bool, room: usize, out: &mut Vec<u8>) {
        let page = &self.bench.terminal.page;
        let outcome = row_text(page, row, trim, &mut self.room[..room]);
        out.extend_from_slice(b" rowtext");
        self.write_page_text(outcome, room, out);
    }

    pub(super) fn position(&self, cell: usize, out: &mut Vec<u8>) {
        let position = position(self.bench.terminal.page.len(), cell);
        out.extend_from_slice(b" position answer=");
        push_number(out, position.err().map_or(0, |refusal| refusal as usize));
        let (row, column) = position.unwrap_or((0, 0));
        out.extend_from_slice(b" row=");
        push_number(out, row);
        out.extend_from_slice(b" column=");
        push_number(out, column);
    }

    pub(super) fn place(&self, row: usize, column: usize, out: &mut Vec<u8>) {
        out.extend_from_slice(b" place cell=");
        push_number(out, cell_at(self.bench.terminal.page.len(), row, column));
    }

    fn write_page_text(&mut self, outcome: Outcome, room: usize, out: &mut Vec<u8>) {
        out.extend_from_slice(b" answer=");
        push_number(out, answer_number(outcome) as usize);
        let length = outcome.unwrap_or(0);
        out.extend_from_slice(b" length=");
        push_number(out, length);
        out.extend_from_slice(b" text=");
        self.write_room(length, room, out);
    }
}
