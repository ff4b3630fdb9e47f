//! The lines of a script.

mod parse;
mod spell;

use crate::repainting::Span;
use crate::state::{Personality, Sending};

/// One line of a script.
#[derive(Clone, PartialEq, Eq, Debug)]
pub enum Line {
    Length(usize),
    Noise {
        seed: u32,
        mask: u16,
        share: u16,
    },
    Cell {
        index: usize,
        value: u16,
    },
    Fill {
        index: usize,
        count: usize,
        value: u16,
    },
    Active(u8),
    Cursor {
        segment: usize,
        cell: u16,
    },
    Split(u8),
    Mode {
        mode: usize,
        on: bool,
    },
    Tab {
        column: usize,
        on: bool,
    },
    Attribute {
        field: usize,
        value: u8,
    },
    Feature {
        feature: usize,
        value: u8,
    },
    Key {
        key: usize,
        bytes: Vec<u8>,
    },
    Bells(u8),
    Pending {
        bytes: Vec<u8>,
        spoilt: bool,
    },
    Message(Vec<u8>),
    Label {
        label: usize,
        bytes: Vec<u8>,
    },
    Shifted(bool),
    Rows(usize),
    Row {
        index: usize,
        value: u16,
    },
    Personality(Personality),
    Remembered(u8),
    Sending(Option<Sending>),
    Wide(bool),
    Wish(bool),
    Display,
    Store(usize),
    Byte {
        index: usize,
        value: u8,
    },
    /// WY-50 if none is named.
    On(Option<Personality>),
    Step {
        byte: u8,
        room: usize,
    },
    Run {
        bytes: Vec<u8>,
        room: usize,
    },
    Press {
        value: u8,
        room: usize,
    },
    Show,
    Count {
        reply: Vec<u8>,
        first: usize,
        last: usize,
    },
    Entry(Vec<u8>),
    Rebuild,
    ListStep {
        byte: u8,
        room: usize,
    },
    ListRun {
        bytes: Vec<u8>,
        room: usize,
    },
    Next {
        bytes: Vec<u8>,
        room: usize,
    },
    ListNext {
        bytes: Vec<u8>,
        room: usize,
    },
    Field(usize),
    FieldText {
        start: usize,
        trim: bool,
        room: usize,
    },
    RowText {
        row: usize,
        trim: bool,
        room: usize,
    },
    Position(usize),
    Place {
        row: usize,
        column: usize,
    },
    Save,
    Restore(u16),
    Convert(usize),
    Mend {
        personality: Personality,
        entries: usize,
    },
    Spans(Vec<Span>),
    Bytes {
        personality: Personality,
        bytes: Vec<u8>,
    },
    /// With rooms for so many spans and bytes.
    Propose {
        personality: Personality,
        spans: usize,
        bytes: usize,
    },
}

impl Line {
    /// Whether the line leaves a line in the trace.
    pub fn is_output(&self) -> bool {
        matches!(
            self,
            Line::On(_)
                | Line::Step { .. }
                | Line::Run { .. }
                | Line::Press { .. }
                | Line::Show
                | Line::Count { .. }
                | Line::Entry(_)
                | Line::Rebuild
                | Line::ListStep { .. }
                | Line::ListRun { .. }
                | Line::Next { .. }
                | Line::ListNext { .. }
                | Line::Field(_)
                | Line::FieldText { .. }
                | Line::RowText { .. }
                | Line::Position(_)
                | Line::Place { .. }
                | Line::Save
                | Line::Restore(_)
                | Line::Convert(_)
                | Line::Mend { .. }
                | Line::Spans(_)
                | Line::Bytes { .. }
                | Line::Propose { .. }
        )
    }

    /// How many bytes the line sends to the terminal.
    pub fn byte_count(&self) -> usize {
        match self {
            Line::Step { .. } | Line::ListStep { .. } => 1,
            Line::Run { bytes, .. }
            | Line::ListRun { bytes, .. }
            | Line::Next { bytes, .. }
            | Line::ListNext { bytes, .. } => bytes.len(),
            _ => 0,
        }
    }

    /// The bytes that the line hands to a call, if it is one over many.
    pub fn bytes_mut(&mut self) -> Option<&mut Vec<u8>> {
        match self {
            Line::Run { bytes, .. }
            | Line::ListRun { bytes, .. }
            | Line::Next { bytes, .. }
            | Line::ListNext { bytes, .. } => Some(bytes),
            Line::Count { reply, .. } => Some(reply),
            Line::Entry(text) => Some(text),
            Line::Bytes { bytes, .. } => Some(bytes),
            _ => None,
        }
    }
}

pub fn write_script(script: &[Line]) -> Vec<u8> {
    let mut out = Vec::new();
    for line in script {
        line.write(&mut out);
    }
    out
}
