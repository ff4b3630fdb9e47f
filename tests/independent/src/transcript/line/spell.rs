//! The lines of a script, written.

use super::Line;
use crate::transcript::tools::push_spans;
use crate::transcript::write::*;

impl Line {
    pub fn write(&self, out: &mut Vec<u8>) {
        let word = |out: &mut Vec<u8>, word: &str| out.extend_from_slice(word.as_bytes());
        match self {
            Line::Length(count) => word(out, &format!("length {count}")),
            Line::Noise { seed, mask, share } => word(out, &format!("noise {seed} {mask} {share}")),
            Line::Cell { index, value } => word(out, &format!("cell {index} {value}")),
            Line::Fill {
                index,
                count,
                value,
            } => word(out, &format!("fill {index} {count} {value}")),
            Line::Active(segment) => word(out, &format!("active {segment}")),
            Line::Cursor { segment, cell } => word(out, &format!("cursor {segment} {cell}")),
            Line::Split(row) => word(out, &format!("split {row}")),
            Line::Mode { mode, on } => word(out, &format!("mode {mode} {}", *on as u8)),
            Line::Tab { column, on } => word(out, &format!("tab {column} {}", *on as u8)),
            Line::Attribute { field, value } => word(out, &format!("attribute {field} {value}")),
            Line::Feature { feature, value } => word(out, &format!("feature {feature} {value}")),
            Line::Key { key, bytes } => {
                word(out, &format!("key {key} "));
                push_bytes(out, bytes);
            }
            Line::Bells(count) => word(out, &format!("bells {count}")),
            Line::Pending { bytes, spoilt } => {
                word(out, "pending ");
                push_bytes(out, bytes);
                word(out, if *spoilt { "+" } else { "" });
            }
            Line::Message(bytes) => {
                word(out, "message ");
                push_bytes(out, bytes);
            }
            Line::Label { label, bytes } => {
                word(out, &format!("label {label} "));
                push_bytes(out, bytes);
            }
            Line::Shifted(on) => word(out, &format!("shifted {}", *on as u8)),
            Line::Rows(count) => word(out, &format!("rows {count}")),
            Line::Row { index, value } => word(out, &format!("row {index} {value}")),
            Line::Personality(personality) => {
                word(out, &format!("personality {}", personality.digits()));
            }
            Line::Remembered(number) => word(out, &format!("remembered {number}")),
            Line::Sending(sending) => {
                word(out, "sending ");
                push_sending(out, *sending);
            }
            Line::Wide(on) => word(out, &format!("wide {}", *on as u8)),
            Line::Wish(on) => word(out, &format!("wish {}", *on as u8)),
            Line::Display => word(out, "display"),
            Line::Store(count) => word(out, &format!("store {count}")),
            Line::Byte { index, value } => word(out, &format!("byte {index} {value}")),
            Line::On(None) => word(out, "on"),
            Line::On(Some(personality)) => word(out, &format!("on {}", personality.digits())),
            Line::Step { byte, room } => word(out, &format!("step {byte:02x} {room}")),
            Line::Run { bytes, room } => {
                word(out, "run ");
                push_bytes(out, bytes);
                word(out, &format!(" {room}"));
            }
            Line::Press { value, room } => word(out, &format!("press {value:02x} {room}")),
            Line::Show => word(out, "show"),
            Line::Count { reply, first, last } => {
                word(out, "count ");
                push_bytes(out, reply);
                word(out, &format!(" {first} {last}"));
            }
            Line::Save => word(out, "save"),
            Line::Restore(number) => word(out, &format!("restore {number}")),
            Line::Convert(count) => word(out, &format!("convert {count}")),
            Line::Mend {
                personality,
                entries,
            } => word(out, &format!("mend {} {entries}", personality.digits())),
            Line::Spans(spans) => {
                word(out, "spans ");
                push_spans(out, spans);
            }
            Line::Bytes { personality, bytes } => {
                word(out, &format!("bytes {} ", personality.digits()));
                push_bytes(out, bytes);
            }
            Line::Propose {
                personality,
                spans,
                bytes,
            } => word(
                out,
                &format!("propose {} {spans} {bytes}", personality.digits()),
            ),
            Line::Rebuild => word(out, "rebuild"),
            Line::ListStep { byte, room } => word(out, &format!("liststep {byte:02x} {room}")),
            Line::ListRun { bytes, room } => {
                word(out, "listrun ");
                push_bytes(out, bytes);
                word(out, &format!(" {room}"));
            }
            Line::Next { bytes, room } => {
                word(out, "next ");
                push_bytes(out, bytes);
                word(out, &format!(" {room}"));
            }
            Line::ListNext { bytes, room } => {
                word(out, "listnext ");
                push_bytes(out, bytes);
                word(out, &format!(" {room}"));
            }
            Line::Field(from) => word(out, &format!("field {from}")),
            Line::FieldText { start, trim, room } => {
                word(out, &format!("fieldtext {start} {} {room}", *trim as u8));
            }
            Line::RowText { row, trim, room } => {
                word(out, &format!("rowtext {row} {} {room}", *trim as u8));
            }
            Line::Position(cell) => word(out, &format!("position {cell}")),
            Line::Place { row, column } => word(out, &format!("place {row} {column}")),
            Line::Entry(text) => {
                word(out, "entry ");
                push_bytes(out, text);
            }
        }
        out.push(b'\n');
    }
}
