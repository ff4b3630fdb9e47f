//! What crosses to the library: the structs of include/wy50.h and its calls. All members are numbers, so every bit pattern is a value.

use crate::{Mended, Span, KEYS, KEY_BYTES, LABELS, MESSAGE_BYTES, ROW_NUMBERS, STORE_BYTES, WIDE_COLUMNS};

/// A function key or a key label: the first `len` of `bytes`.
#[repr(C)]
#[derive(Clone, Copy, Debug, PartialEq, Eq)]
pub struct Key {
    pub len: u8,
    pub bytes: [u8; KEY_BYTES],
}

/// The host message: the first `len` of `bytes`.
#[repr(C)]
#[derive(Clone, Copy, Debug, PartialEq, Eq)]
pub struct Message {
    pub len: u8,
    pub bytes: [u8; MESSAGE_BYTES],
}

/// `wide` is 1 for 132 columns, 0 for 80. `split` is the first row of segment 1, from 1, and 0 if there is none. A cursor is a cell of the page,
/// from 0.
#[repr(C)]
#[derive(Clone, Copy, Debug, PartialEq, Eq)]
pub struct Screen {
    pub wide: u16,
    pub active: u8,
    pub split: u8,
    pub cursor0: u16,
    pub cursor1: u16,
}

/// Each 0 or 1.
#[repr(C)]
#[derive(Clone, Copy, Debug, PartialEq, Eq)]
pub struct Modes {
    pub protect: u8,
    pub write_protect: u8,
    pub insert: u8,
    pub autoscroll: u8,
    pub locked: u8,
    pub local_edit: u8,
}

/// The sequence under way: its kind, by the number of a [`SequenceKind`](crate::SequenceKind) (0: none), and its numbers, as that says.
#[repr(C)]
#[derive(Clone, Copy, Debug, PartialEq, Eq)]
pub struct Sequence {
    pub kind: u16,
    pub first: u8,
    pub second: u8,
    pub third: u16,
}

/// The send under way: the byte after ESC of its command (0: none), what stands at its place and the number of the place, as the constants of wy50.h
/// say. [`Sending::at`](crate::Sending::at) has them by name.
#[repr(C)]
#[derive(Clone, Copy, Debug, PartialEq, Eq)]
pub struct RawSending {
    pub command: u8,
    pub kind: u8,
    pub place: u16,
}

/// All that a terminal remembers but its page. It may be filled in: a state that is not possible answers [`Answer::BadCall`]. What stands behind the
/// length of a text, and behind the bytes gathered, is not looked at and comes back as it came; what a call writes has zeros behind it.
///
/// [`Answer::BadCall`]: crate::Answer::BadCall
#[repr(C)]
#[derive(Clone, Copy, Debug, PartialEq, Eq)]
pub struct State {
    pub screen: Screen,
    pub modes: Modes,
    pub bells: u16,
    /// 50 or 60, as [`Personality`](crate::Personality) has them.
    pub personality: u8,
    /// The attribute that ESC G sets in a WY-60, as [`Attributes`](crate::Attributes) has it.
    pub remembered: u8,
    pub sequence: Sequence,
    pub sending: RawSending,
    /// The bytes of a text under way, as many as the sequence counts.
    pub gathered: [u8; MESSAGE_BYTES],
    /// By column, 1 a tab stop, 0 none; none beyond the width.
    pub tabs: [u8; WIDE_COLUMNS],
    pub attributes: [u8; 4],
    /// By code, as [`Features`](crate::Features) has them.
    pub features: [u8; 5],
    pub keys: [Key; KEYS],
    pub labels: [Key; LABELS],
    pub message: Message,
    pub shifted: u16,
    /// 1: ESC \` wishes for 132 columns, 0: for 80.
    pub wish: u16,
}

#[repr(C)]
pub struct RawPowerOn {
    pub answer: u8,
    pub state: State,
}

#[repr(C)]
pub struct RawStep {
    pub answer: u8,
    pub taken: u8,
    pub replied: usize,
    pub state: State,
}

#[repr(C)]
pub struct RawRun {
    pub answer: u8,
    pub taken: usize,
    pub replied: usize,
    pub refused: usize,
    pub state: State,
}

#[repr(C)]
pub struct RawNext {
    pub answer: u8,
    pub command: u8,
    pub taken: usize,
    pub replied: usize,
    pub refused: usize,
    pub state: State,
}

#[repr(C)]
pub struct RawPress {
    pub answer: u8,
    pub replied: usize,
}

#[repr(C)]
pub struct RawField {
    pub start: usize,
    pub length: usize,
    pub row: usize,
    pub column: usize,
}

#[repr(C)]
pub struct RawText {
    pub answer: u8,
    pub length: usize,
}

#[repr(C)]
pub struct RawPosition {
    pub answer: u8,
    pub row: usize,
    pub column: usize,
}

#[repr(C)]
pub struct RawSave {
    pub answer: u8,
    pub number: u16,
}

#[repr(C)]
pub struct RawRestore {
    pub answer: u8,
    pub state: State,
}

#[repr(C)]
pub struct RawConvert {
    pub answer: u8,
    pub state: State,
}

#[repr(C)]
pub struct RawMend {
    pub answer: u8,
    pub needed: u16,
}

#[repr(C)]
pub struct RawPropose {
    pub answer: u8,
    pub spans: u16,
    pub bytes: u16,
}

mod linked {
    use super::*;

    // SAFETY: these are the calls of include/wy50.h, with its types. Those marked safe take and give numbers alone.
    unsafe extern "C" {
        pub safe fn wy50_version() -> u32;
        pub fn wy50_power_on(page: *mut u16, page_len: usize, personality: u8) -> RawPowerOn;
        pub fn wy50_step(page: *mut u16, page_len: usize, state: State, byte: u8, reply: *mut u8, reply_len: usize) -> RawStep;
        pub fn wy50_run(
            page: *mut u16,
            page_len: usize,
            state: State,
            input: *const u8,
            input_len: usize,
            reply: *mut u8,
            reply_len: usize,
        ) -> RawRun;
        pub fn wy50_next(
            page: *mut u16,
            page_len: usize,
            rows: *mut u16,
            rows_len: usize,
            state: State,
            input: *const u8,
            input_len: usize,
            reply: *mut u8,
            reply_len: usize,
        ) -> RawNext;
        pub fn wy50_press(page: *const u16, page_len: usize, state: State, key: u8, reply: *mut u8, reply_len: usize) -> RawPress;
        pub fn wy50_step_rows(
            page: *mut u16,
            page_len: usize,
            rows: *mut u16,
            rows_len: usize,
            state: State,
            byte: u8,
            reply: *mut u8,
            reply_len: usize,
        ) -> RawStep;
        pub fn wy50_run_rows(
            page: *mut u16,
            page_len: usize,
            rows: *mut u16,
            rows_len: usize,
            state: State,
            input: *const u8,
            input_len: usize,
            reply: *mut u8,
            reply_len: usize,
        ) -> RawRun;
        pub fn wy50_rebuild_rows(page: *const u16, page_len: usize, rows: *mut u16, rows_len: usize, state: State) -> u8;
        pub fn wy50_save(state: State, store: *mut u8, store_len: usize) -> RawSave;
        pub fn wy50_restore(state: State, store: *const u8, store_len: usize, number: u16) -> RawRestore;
        pub fn wy50_convert(page: *const u16, page_len: usize, state: State, target: *mut u16, target_len: usize) -> RawConvert;
        pub fn wy50_mend(page: *mut u16, page_len: usize, personality: u8, list: *mut u16, list_len: usize) -> RawMend;
        pub fn wy50_judge_spans(
            before: *const u16,
            before_len: usize,
            after: *const u16,
            after_len: usize,
            spans: *const Span,
            spans_len: usize,
        ) -> u8;
        pub fn wy50_judge_bytes(
            before: *const u16,
            before_len: usize,
            after: *const u16,
            after_len: usize,
            personality: u8,
            bytes: *const u8,
            bytes_len: usize,
        ) -> u8;
        pub fn wy50_propose_numbers(
            before: *const u16,
            before_len: usize,
            after: *const u16,
            after_len: usize,
            personality: u8,
            numbers: *mut u16,
            numbers_len: usize,
            bytes: *mut u8,
            bytes_len: usize,
        ) -> RawPropose;
        pub safe fn wy50_cell_code(cell: u16) -> u8;
        pub safe fn wy50_cell_protected(cell: u16) -> u8;
        pub safe fn wy50_cell_kind(cell: u16) -> u8;
        pub safe fn wy50_cell_attribute(cell: u16) -> u8;
        pub safe fn wy50_cell_sent(cell: u16) -> u8;
        pub fn wy50_next_field(page: *const u16, page_len: usize, from: usize) -> RawField;
        pub fn wy50_field_text(page: *const u16, page_len: usize, start: usize, trim: u8, text: *mut u8, text_len: usize) -> RawText;
        pub fn wy50_row_text(page: *const u16, page_len: usize, row: usize, trim: u8, text: *mut u8, text_len: usize) -> RawText;
        pub safe fn wy50_position_of(page_len: usize, cell: usize) -> RawPosition;
        pub safe fn wy50_cell_at(page_len: usize, row: usize, column: usize) -> usize;
        pub safe fn wy50_cursor(state: State) -> RawPosition;
    }
}

pub use linked::{
    wy50_cell_at as cell_at, wy50_cell_attribute as cell_attribute, wy50_cell_code as cell_code, wy50_cell_kind as cell_kind,
    wy50_cell_protected as cell_protected, wy50_cell_sent as cell_sent, wy50_cursor as cursor, wy50_position_of as position_of,
    wy50_version as version,
};

pub fn power_on(page: &mut [u16], personality: u8) -> RawPowerOn {
    // SAFETY: the pointer and the count are those of one slice that nothing else reads or writes meanwhile.
    unsafe { linked::wy50_power_on(page.as_mut_ptr(), page.len(), personality) }
}

pub fn step(page: &mut [u16], state: State, byte: u8, reply: &mut [u8]) -> RawStep {
    // SAFETY: as above, for each of two slices, which do not overlap since both are lent for writing.
    unsafe { linked::wy50_step(page.as_mut_ptr(), page.len(), state, byte, reply.as_mut_ptr(), reply.len()) }
}

pub fn run(page: &mut [u16], state: State, input: &[u8], reply: &mut [u8]) -> RawRun {
    // SAFETY: as above; the input is only read, and overlaps neither of the slices that are lent for writing.
    unsafe { linked::wy50_run(page.as_mut_ptr(), page.len(), state, input.as_ptr(), input.len(), reply.as_mut_ptr(), reply.len()) }
}

// The row list is of no numbers where there is none.
pub fn next(page: &mut [u16], rows: &mut [u16], state: State, input: &[u8], reply: &mut [u8]) -> RawNext {
    let (page, page_len) = (page.as_mut_ptr(), page.len());
    let (rows, rows_len) = (rows.as_mut_ptr(), rows.len());
    // SAFETY: as above, with three slices that are lent for writing.
    unsafe { linked::wy50_next(page, page_len, rows, rows_len, state, input.as_ptr(), input.len(), reply.as_mut_ptr(), reply.len()) }
}

pub fn press(page: &[u16], state: State, key: u8, reply: &mut [u8]) -> RawPress {
    // SAFETY: as above; the page is only read.
    unsafe { linked::wy50_press(page.as_ptr(), page.len(), state, key, reply.as_mut_ptr(), reply.len()) }
}

pub fn step_rows(page: &mut [u16], rows: &mut [u16; ROW_NUMBERS], state: State, byte: u8, reply: &mut [u8]) -> RawStep {
    let (page, page_len) = (page.as_mut_ptr(), page.len());
    let (rows, rows_len) = (rows.as_mut_ptr(), rows.len());
    // SAFETY: as above, for each of three slices.
    unsafe { linked::wy50_step_rows(page, page_len, rows, rows_len, state, byte, reply.as_mut_ptr(), reply.len()) }
}

pub fn run_rows(page: &mut [u16], rows: &mut [u16; ROW_NUMBERS], state: State, input: &[u8], reply: &mut [u8]) -> RawRun {
    let (page, page_len) = (page.as_mut_ptr(), page.len());
    let (rows, rows_len) = (rows.as_mut_ptr(), rows.len());
    // SAFETY: as above; the input is only read.
    unsafe { linked::wy50_run_rows(page, page_len, rows, rows_len, state, input.as_ptr(), input.len(), reply.as_mut_ptr(), reply.len()) }
}

pub fn rebuild_rows(page: &[u16], rows: &mut [u16; ROW_NUMBERS], state: State) -> u8 {
    // SAFETY: as above; the page is only read.
    unsafe { linked::wy50_rebuild_rows(page.as_ptr(), page.len(), rows.as_mut_ptr(), rows.len(), state) }
}

pub fn next_field(page: &[u16], from: usize) -> RawField {
    // SAFETY: as above; the page is only read.
    unsafe { linked::wy50_next_field(page.as_ptr(), page.len(), from) }
}

pub fn field_text(page: &[u16], start: usize, trim: bool, text: &mut [u8]) -> RawText {
    // SAFETY: as above.
    unsafe { linked::wy50_field_text(page.as_ptr(), page.len(), start, trim.into(), text.as_mut_ptr(), text.len()) }
}

pub fn row_text(page: &[u16], row: usize, trim: bool, text: &mut [u8]) -> RawText {
    // SAFETY: as above.
    unsafe { linked::wy50_row_text(page.as_ptr(), page.len(), row, trim.into(), text.as_mut_ptr(), text.len()) }
}

pub fn convert(page: &[u16], state: State, target: &mut [u16]) -> RawConvert {
    // SAFETY: as above, for two slices; the page is only read.
    unsafe { linked::wy50_convert(page.as_ptr(), page.len(), state, target.as_mut_ptr(), target.len()) }
}

pub fn mend(page: &mut [u16], personality: u8, list: &mut [Mended]) -> RawMend {
    let (numbers, count) = (list.as_mut_ptr().cast(), size_of_val(list) / size_of::<u16>());
    // SAFETY: as above, for two slices that are lent for writing; an entry is four numbers, without padding.
    unsafe { linked::wy50_mend(page.as_mut_ptr(), page.len(), personality, numbers, count) }
}

pub fn judge_spans(before: &[u16], after: &[u16], spans: &[Span]) -> u8 {
    // SAFETY: as above, for three slices that are only read.
    unsafe { linked::wy50_judge_spans(before.as_ptr(), before.len(), after.as_ptr(), after.len(), spans.as_ptr(), spans.len()) }
}

pub fn judge_bytes(before: &[u16], after: &[u16], personality: u8, bytes: &[u8]) -> u8 {
    let (before, before_len) = (before.as_ptr(), before.len());
    // SAFETY: as above.
    unsafe { linked::wy50_judge_bytes(before, before_len, after.as_ptr(), after.len(), personality, bytes.as_ptr(), bytes.len()) }
}

pub fn propose(before: &[u16], after: &[u16], personality: u8, spans: &mut [Span], bytes: &mut [u8]) -> RawPropose {
    let (before, before_len) = (before.as_ptr(), before.len());
    let (after, after_len) = (after.as_ptr(), after.len());
    let (numbers, count) = (spans.as_mut_ptr().cast(), size_of_val(spans) / size_of::<u16>());
    let (bytes, bytes_len) = (bytes.as_mut_ptr(), bytes.len());
    // SAFETY: as above, for two slices that are only read and two that are lent for writing; a span is three numbers, without padding.
    unsafe { linked::wy50_propose_numbers(before, before_len, after, after_len, personality, numbers, count, bytes, bytes_len) }
}

pub fn save(state: State, store: &mut [u8; STORE_BYTES]) -> RawSave {
    // SAFETY: as above, for one slice.
    unsafe { linked::wy50_save(state, store.as_mut_ptr(), store.len()) }
}

pub fn restore(state: State, store: &[u8; STORE_BYTES], number: u16) -> RawRestore {
    // SAFETY: as above; the store is only read.
    unsafe { linked::wy50_restore(state, store.as_ptr(), store.len(), number) }
}
