//! The lines of a script, read.

use super::Line;
use crate::repainting::Span;
use crate::state::{Personality, KEYS, LABELS, WIDEST};
use crate::transcript::limits::*;
use crate::transcript::words::*;

impl Line {
    pub fn parse(text: &str) -> Option<Line> {
        let mut words = text.split(' ');
        let line = match words.next()? {
            "length" => Line::Length(number(words.next()?, LONGEST_PAGE)?),
            "noise" => Line::Noise {
                seed: number(words.next()?, u32::MAX as usize)? as u32,
                mask: number(words.next()?, 0xFFFF)? as u16,
                share: number(words.next()?, 0xFFFF)? as u16,
            },
            "cell" => Line::Cell {
                index: number(words.next()?, LONGEST_PAGE)?,
                value: number(words.next()?, 0xFFFF)? as u16,
            },
            "fill" => Line::Fill {
                index: number(words.next()?, LONGEST_PAGE)?,
                count: number(words.next()?, LONGEST_PAGE)?,
                value: number(words.next()?, 0xFFFF)? as u16,
            },
            "active" => Line::Active(number(words.next()?, 255)? as u8),
            "cursor" => Line::Cursor {
                segment: number(words.next()?, 1)?,
                cell: number(words.next()?, 0xFFFF)? as u16,
            },
            "split" => Line::Split(number(words.next()?, 255)? as u8),
            "mode" => Line::Mode {
                mode: number(words.next()?, 5)?,
                on: flag(words.next()?)?,
            },
            "tab" => Line::Tab {
                column: number(words.next()?, WIDEST - 1)?,
                on: flag(words.next()?)?,
            },
            "attribute" => Line::Attribute {
                field: number(words.next()?, 3)?,
                value: number(words.next()?, 255)? as u8,
            },
            "feature" => Line::Feature {
                feature: number(words.next()?, 4)?,
                value: number(words.next()?, 255)? as u8,
            },
            "key" => Line::Key {
                key: number(words.next()?, KEYS - 1)?,
                bytes: text_bytes(words.next()?)?,
            },
            "bells" => Line::Bells(number(words.next()?, 255)? as u8),
            "pending" => pending(words.next()?)?,
            "message" => Line::Message(text_bytes(words.next()?)?),
            "label" => Line::Label {
                label: number(words.next()?, LABELS - 1)?,
                bytes: text_bytes(words.next()?)?,
            },
            "shifted" => Line::Shifted(flag(words.next()?)?),
            "rows" => Line::Rows(number(words.next()?, LONGEST_ROW_LIST)?),
            "row" => Line::Row {
                index: number(words.next()?, LONGEST_ROW_LIST)?,
                value: number(words.next()?, 0xFFFF)? as u16,
            },
            "personality" => Line::Personality(personality(words.next()?)?),
            "remembered" => Line::Remembered(number(words.next()?, 31)? as u8),
            "sending" => Line::Sending(sending(words.next()?)?),
            "wide" => Line::Wide(flag(words.next()?)?),
            "wish" => Line::Wish(flag(words.next()?)?),
            "display" => Line::Display,
            "store" => Line::Store(number(words.next()?, LONGEST_STORE)?),
            "byte" => Line::Byte {
                index: number(words.next()?, LONGEST_STORE)?,
                value: number(words.next()?, 255)? as u8,
            },
            "on" => Line::On(match words.next() {
                Some(word) => Some(personality(word)?),
                None => None,
            }),
            "step" => Line::Step {
                byte: hex_byte(words.next()?)?,
                room: room(words.next()?)?,
            },
            "run" => Line::Run {
                bytes: hex(words.next()?)?,
                room: room(words.next()?)?,
            },
            "press" => Line::Press {
                value: hex_byte(words.next()?)?,
                room: room(words.next()?)?,
            },
            "show" => Line::Show,
            "save" => Line::Save,
            "restore" => Line::Restore(number(words.next()?, 0xFFFF)? as u16),
            "convert" => Line::Convert(number(words.next()?, LONGEST_PAGE)?),
            "mend" => Line::Mend {
                personality: personality(words.next()?)?,
                entries: number(words.next()?, MOST_ENTRIES)?,
            },
            "spans" => Line::Spans(spans(words.next()?)?),
            "bytes" => Line::Bytes {
                personality: personality(words.next()?)?,
                bytes: hex(words.next()?)?,
            },
            "propose" => Line::Propose {
                personality: personality(words.next()?)?,
                spans: number(words.next()?, MOST_SPANS)?,
                bytes: number(words.next()?, MOST_PAINT_BYTES)?,
            },
            "rebuild" => Line::Rebuild,
            "liststep" => Line::ListStep {
                byte: hex_byte(words.next()?)?,
                room: room(words.next()?)?,
            },
            "listrun" => Line::ListRun {
                bytes: hex(words.next()?)?,
                room: room(words.next()?)?,
            },
            "next" => Line::Next {
                bytes: hex(words.next()?)?,
                room: room(words.next()?)?,
            },
            "listnext" => Line::ListNext {
                bytes: hex(words.next()?)?,
                room: room(words.next()?)?,
            },
            "field" => Line::Field(number(words.next()?, FARTHEST)?),
            "fieldtext" => Line::FieldText {
                start: number(words.next()?, FARTHEST)?,
                trim: flag(words.next()?)?,
                room: room(words.next()?)?,
            },
            "rowtext" => Line::RowText {
                row: number(words.next()?, FARTHEST)?,
                trim: flag(words.next()?)?,
                room: room(words.next()?)?,
            },
            "position" => Line::Position(number(words.next()?, FARTHEST)?),
            "place" => Line::Place {
                row: number(words.next()?, FARTHEST)?,
                column: number(words.next()?, FARTHEST)?,
            },
            "count" => Line::Count {
                reply: hex(words.next()?)?,
                first: number(words.next()?, usize::MAX)?,
                last: number(words.next()?, usize::MAX)?,
            },
            "entry" => Line::Entry(hex(words.next()?)?),
            _ => return None,
        };
        words.next().is_none().then_some(line)
    }
}

fn personality(word: &str) -> Option<Personality> {
    [Personality::Wy50, Personality::Wy60]
        .into_iter()
        .find(|personality| personality.digits() == word)
}

fn spans(word: &str) -> Option<Vec<Span>> {
    if word == "-" {
        return Some(vec![]);
    }
    word.split(',').map(span).collect()
}

fn span(word: &str) -> Option<Span> {
    let mut numbers = word
        .split(':')
        .map(|word| Some(number(word, 0xFFFF)? as u16));
    let span = Span {
        row: numbers.next()??,
        column: numbers.next()??,
        length: numbers.next()??,
    };
    numbers.next().is_none().then_some(span)
}

fn pending(word: &str) -> Option<Line> {
    let bare = word.strip_suffix('+');
    Some(Line::Pending {
        bytes: hex(bare.unwrap_or(word))?,
        spoilt: bare.is_some(),
    })
}
