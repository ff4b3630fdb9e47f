//! The tools that look at pages alone: mending and repainting.

use super::bench::{Bench, NUMBER_FILLER};
use super::write::*;
use super::ROOM_FILLER;
use crate::mending::{Mended, ENTRY_NUMBERS};
use crate::repainting::{judge_bytes, judge_spans, propose, Span};
use crate::state::Personality;

pub const SPAN_NUMBERS: usize = 3;

const SPAN_FILLER: Span = Span {
    row: NUMBER_FILLER,
    column: NUMBER_FILLER,
    length: NUMBER_FILLER,
};

impl Bench {
    pub(super) fn trace_mend(
        &mut self,
        personality: Personality,
        entries: usize,
        out: &mut Vec<u8>,
    ) {
        let (mended, list) = self.mend(personality, entries);
        let Mended { answer, needed } = mended;
        out.extend_from_slice(b" mend answer=");
        push_number(out, answer as usize);
        out.extend_from_slice(b" needed=");
        push_number(out, needed);
        let written = if answer == 0 { needed } else { 0 };
        let (entries, beyond) = list.split_at(written * ENTRY_NUMBERS);
        out.extend_from_slice(b" entries=");
        push_groups(out, entries, ENTRY_NUMBERS);
        out.extend_from_slice(b" beyond=");
        push_flag(out, beyond.iter().all(|&number| number == NUMBER_FILLER));
    }

    pub(super) fn trace_spans(&self, spans: &[Span], out: &mut Vec<u8>) {
        let answer = judge_spans(&self.display, &self.terminal.page, spans);
        out.extend_from_slice(b" spans answer=");
        push_number(out, answer as usize);
    }

    pub(super) fn trace_bytes(&self, personality: Personality, bytes: &[u8], out: &mut Vec<u8>) {
        let answer = judge_bytes(&self.display, &self.terminal.page, personality, bytes);
        out.extend_from_slice(b" bytes answer=");
        push_number(out, answer as usize);
    }

    pub(super) fn trace_proposal(
        &self,
        personality: Personality,
        spans: usize,
        bytes: usize,
        out: &mut Vec<u8>,
    ) {
        let mut spans = vec![SPAN_FILLER; spans];
        let mut bytes = vec![ROOM_FILLER; bytes];
        let (shown, wanted) = (&self.display, &self.terminal.page);
        let result = propose(shown, wanted, personality, &mut spans, &mut bytes);
        let (span_count, byte_count) = result.unwrap_or((0, 0));
        let (spans, spans_beyond) = spans.split_at(span_count);
        let (bytes, bytes_beyond) = bytes.split_at(byte_count);
        out.extend_from_slice(b" propose answer=");
        push_number(out, result.err().unwrap_or(0) as usize);
        out.extend_from_slice(b" spans=");
        push_spans(out, spans);
        out.extend_from_slice(b" bytes=");
        push_bytes(out, bytes);
        out.extend_from_slice(b" beyond=");
        let is_untouched = spans_beyond.iter().all(|&span| span == SPAN_FILLER)
            && bytes_beyond.iter().all(|&byte| byte == ROOM_FILLER);
        push_flag(out, is_untouched);
    }
}

pub fn push_spans(out: &mut Vec<u8>, spans: &[Span]) {
    let numbers = spans
        .iter()
        .flat_map(|span| [span.row, span.column, span.length]);
    push_groups(out, &numbers.collect::<Vec<u16>>(), SPAN_NUMBERS);
}
