//! The calls, and the trace that they leave.

mod reading;

use super::bench::Bench;
use super::digest::{bytes_digest, PageDigest};
use super::limits::WIDEST_ROOM;
use super::line::Line;
use super::set::set;
use super::state::write_state;
use super::write::*;
use super::ROOM_FILLER;
use crate::counter::{write_count, write_entry};
use crate::setups::{self, Unkept};
use crate::state::Personality;
use crate::terminal::next::Next;
use crate::terminal::{answer_number, Outcome, Run, Step};

/// A terminal that obeys script lines and writes the trace.
pub struct Replay {
    bench: Bench,
    room: Vec<u8>,
    count: u64,
    digest: PageDigest,
}

impl Replay {
    pub fn new() -> Replay {
        Replay {
            bench: Bench::new(),
            room: vec![ROOM_FILLER; WIDEST_ROOM],
            count: 0,
            digest: PageDigest::new(),
        }
    }

    /// False if the line is bad.
    pub fn obey(&mut self, line: &Line, out: &mut Vec<u8>) -> bool {
        if !line.is_output() {
            return set(&mut self.bench, line);
        }
        self.count += 1;
        push_number(out, self.count as usize);
        match line {
            Line::On(personality) => self.on(*personality, out),
            Line::Step { byte, room } => self.step(*byte, *room, out),
            Line::Run { bytes, room } => self.run(bytes, *room, out),
            Line::Press { value, room } => self.press(*value, *room, out),
            Line::Rebuild => self.rebuild(out),
            Line::ListStep { byte, room } => self.list_step(*byte, *room, out),
            Line::ListRun { bytes, room } => self.list_run(bytes, *room, out),
            Line::Next { bytes, room } => self.next(bytes, *room, out),
            Line::ListNext { bytes, room } => self.list_next(bytes, *room, out),
            Line::Field(from) => self.field(*from, out),
            Line::FieldText { start, trim, room } => self.field_text(*start, *trim, *room, out),
            Line::RowText { row, trim, room } => self.row_text(*row, *trim, *room, out),
            Line::Position(cell) => self.position(*cell, out),
            Line::Place { row, column } => self.place(*row, *column, out),
            Line::Convert(count) => self.convert(*count, out),
            Line::Mend {
                personality,
                entries,
            } => self.bench.trace_mend(*personality, *entries, out),
            Line::Spans(spans) => self.bench.trace_spans(spans, out),
            Line::Bytes { personality, bytes } => self.bench.trace_bytes(*personality, bytes, out),
            Line::Propose {
                personality,
                spans,
                bytes,
            } => {
                let bench = &self.bench;
                bench.trace_proposal(*personality, *spans, *bytes, out);
            }
            Line::Save => self.save(out),
            Line::Restore(number) => self.restore(*number, out),
            Line::Count { reply, first, last } => {
                out.extend_from_slice(b" count");
                write_count(reply, *first, *last, out);
            }
            Line::Entry(text) => {
                out.extend_from_slice(b" entry");
                write_entry(text, out);
            }
            _ => self.show(out),
        }
        write_state(&self.bench.terminal.state, out);
        out.extend_from_slice(b" page=");
        push_digest(out, self.digest.of(&self.bench.terminal.page));
        out.push(b'\n');
        true
    }

    fn on(&mut self, personality: Option<Personality>, out: &mut Vec<u8>) {
        let personality = personality.unwrap_or(Personality::Wy50);
        let outcome = self.bench.terminal.power_on(personality);
        out.extend_from_slice(b" on answer=");
        push_number(out, answer_number(outcome) as usize);
    }

    fn step(&mut self, byte: u8, room: usize, out: &mut Vec<u8>) {
        let step = self.bench.terminal.step(byte, &mut self.room[..room]);
        out.extend_from_slice(b" step");
        self.write_step(step, room, out);
    }

    fn press(&mut self, value: u8, room: usize, out: &mut Vec<u8>) {
        let outcome = self.bench.terminal.press(value, &mut self.room[..room]);
        out.extend_from_slice(b" press");
        self.write_outcome(outcome, room, out);
    }

    fn run(&mut self, bytes: &[u8], room: usize, out: &mut Vec<u8>) {
        let report = self.bench.terminal.run(bytes, &mut self.room[..room]);
        out.extend_from_slice(b" run");
        write_report(&report, out);
        self.write_run_reply(&report, room, out);
    }

    fn rebuild(&mut self, out: &mut Vec<u8>) {
        let Bench { terminal, rows, .. } = &mut self.bench;
        let outcome = terminal.rebuild_rows(rows);
        out.extend_from_slice(b" rebuild answer=");
        push_number(out, answer_number(outcome) as usize);
        self.write_rows(out);
    }

    fn list_step(&mut self, byte: u8, room: usize, out: &mut Vec<u8>) {
        let Bench { terminal, rows, .. } = &mut self.bench;
        let step = terminal.step_with_rows(byte, &mut self.room[..room], rows);
        out.extend_from_slice(b" liststep");
        self.write_step(step, room, out);
        self.write_rows(out);
    }

    fn list_run(&mut self, bytes: &[u8], room: usize, out: &mut Vec<u8>) {
        let Bench { terminal, rows, .. } = &mut self.bench;
        let report = terminal.run_with_rows(bytes, &mut self.room[..room], rows);
        out.extend_from_slice(b" listrun");
        write_report(&report, out);
        self.write_run_reply(&report, room, out);
        self.write_rows(out);
    }

    fn next(&mut self, bytes: &[u8], room: usize, out: &mut Vec<u8>) {
        let next = self.bench.terminal.next(bytes, &mut self.room[..room]);
        out.extend_from_slice(b" next");
        self.write_next(next, room, out);
    }

    fn list_next(&mut self, bytes: &[u8], room: usize, out: &mut Vec<u8>) {
        let Bench { terminal, rows, .. } = &mut self.bench;
        let next = terminal.next_with_rows(bytes, &mut self.room[..room], rows);
        out.extend_from_slice(b" listnext");
        self.write_next(next, room, out);
        self.write_rows(out);
    }

    fn convert(&mut self, count: usize, out: &mut Vec<u8>) {
        let (outcome, is_as_it_was, target) = self.bench.convert(count);
        out.extend_from_slice(b" convert answer=");
        push_number(out, answer_number(outcome) as usize);
        out.extend_from_slice(b" old=");
        push_flag(out, is_as_it_was);
        out.extend_from_slice(b" target=");
        push_digest(out, PageDigest::new().of(&target));
    }

    fn save(&mut self, out: &mut Vec<u8>) {
        let result = setups::save(&self.bench.terminal.state, &mut self.bench.store);
        out.extend_from_slice(b" save result=");
        match result {
            Ok(number) => {
                out.extend_from_slice(b"saved:");
                push_number(out, number as usize);
            }
            Err(unkept) => out.extend_from_slice(unkept_name(unkept)),
        }
        self.write_store(out);
    }

    fn restore(&mut self, number: u16, out: &mut Vec<u8>) {
        let Bench {
            terminal, store, ..
        } = &mut self.bench;
        let result = setups::restore(&mut terminal.state, store, number);
        out.extend_from_slice(b" restore result=");
        out.extend_from_slice(result.map_or_else(unkept_name, |()| b"restored"));
        self.write_store(out);
    }

    fn write_store(&self, out: &mut Vec<u8>) {
        out.extend_from_slice(b" store=");
        push_digest(out, bytes_digest(&self.bench.store));
    }

    fn write_rows(&self, out: &mut Vec<u8>) {
        out.extend_from_slice(b" rows=");
        if self.bench.rows.is_empty() {
            out.push(b'-');
        }
        push_list(out, self.bench.rows.iter().copied());
    }

    fn write_next(&mut self, next: Next, room: usize, out: &mut Vec<u8>) {
        write_report(&next.run, out);
        out.extend_from_slice(b" asked=");
        push_bytes(out, next.asked.as_slice());
        self.write_run_reply(&next.run, room, out);
    }

    fn write_run_reply(&mut self, report: &Run, room: usize, out: &mut Vec<u8>) {
        out.extend_from_slice(b" rest=");
        push_bytes(out, report.rest);
        self.write_reply(report.replied, room, out);
    }

    fn show(&mut self, out: &mut Vec<u8>) {
        out.extend_from_slice(b" show cells=");
        push_list(out, self.bench.terminal.page.iter().map(|cell| cell.0));
    }

    fn write_step(&mut self, step: Step, room: usize, out: &mut Vec<u8>) {
        self.write_outcome(step.outcome, room, out);
        out.extend_from_slice(b" own=");
        push_flag(out, step.own);
    }

    fn write_outcome(&mut self, outcome: Outcome, room: usize, out: &mut Vec<u8>) {
        out.extend_from_slice(b" answer=");
        push_number(out, answer_number(outcome) as usize);
        self.write_reply(outcome.unwrap_or(0), room, out);
    }

    fn write_reply(&mut self, replied: usize, room: usize, out: &mut Vec<u8>) {
        out.extend_from_slice(b" reply=");
        self.write_room(replied, room, out);
    }

    /// Writes the room's front and fills the room again for the next call.
    fn write_room(&mut self, length: usize, room: usize, out: &mut Vec<u8>) {
        let (front, beyond) = self.room[..room].split_at_mut(length);
        push_bytes(out, front);
        let untouched = beyond
            .iter()
            .fold(0, |sum, byte| sum | (byte ^ ROOM_FILLER))
            == 0;
        out.extend_from_slice(if untouched {
            b" beyond=1"
        } else {
            b" beyond=0"
        });
        front.fill(ROOM_FILLER);
        beyond.fill(ROOM_FILLER);
    }
}

fn write_report(report: &Run, out: &mut Vec<u8>) {
    out.extend_from_slice(b" answer=");
    push_number(out, report.answer as usize);
    out.extend_from_slice(b" taken=");
    push_number(out, report.taken);
    out.extend_from_slice(b" replied=");
    push_number(out, report.replied);
    out.extend_from_slice(b" refused=");
    push_number(out, report.refused);
}

fn unkept_name(unkept: Unkept) -> &'static [u8] {
    match unkept {
        Unkept::State => b"state",
        Unkept::Store => b"store",
        Unkept::Full => b"full",
        Unkept::Number => b"number",
    }
}
