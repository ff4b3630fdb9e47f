//! Lines that set something.

use super::bench::Bench;
use super::line::Line;
use crate::state::{key_number, Cell, Flags, Place, Sending, Sequence, State, Text};
use crate::terminal::Terminal;

/// What spoils a text under way.
const PAST_KEY_TEXT: &[u8] = &[0x30; 9];
const BAD_CHARACTER: &[u8] = &[0x00];

/// Obeys a line that sets something. False if it doesn't fit the page or a list,
/// or has a sequence that is not in its one spelling.
pub fn set(bench: &mut Bench, line: &Line) -> bool {
    let Bench {
        terminal,
        rows,
        store,
        display,
    } = bench;
    let Terminal { page, state } = terminal;
    match line {
        Line::Length(count) => *page = vec![Cell::NULL; *count],
        Line::Noise { seed, mask, share } => fill_with_noise(page, *seed, *mask, *share),
        Line::Cell { index, value } => match page.get_mut(*index) {
            Some(cell) => *cell = Cell(*value),
            None => return false,
        },
        Line::Fill {
            index,
            count,
            value,
        } => match page.get_mut(*index..*index + *count) {
            Some(cells) => cells.fill(Cell(*value)),
            None => return false,
        },
        Line::Active(segment) => state.active = *segment,
        Line::Cursor { segment, cell } => state.cursors[*segment] = *cell,
        Line::Split(row) => state.split = *row,
        Line::Mode { mode, on } => set_mode(state, *mode, *on),
        Line::Tab { column, on } => state.tab_stops.set(*column, *on),
        Line::Attribute { field, value } => state.attributes[*field] = *value,
        Line::Feature { feature, value } => state.features[*feature] = *value,
        Line::Key { key, bytes } => state.keys[*key] = Text::holding(bytes),
        Line::Bells(count) => state.bells = *count,
        Line::Pending { bytes, spoilt } => match sequence_left_by(bytes, *spoilt) {
            Some(sequence) => {
                state.sequence = sequence;
                state.sending = None;
            }
            None => return false,
        },
        Line::Message(bytes) => state.message = Text::holding(bytes),
        Line::Label { label, bytes } => state.labels[*label] = Text::holding(bytes),
        Line::Shifted(on) => state.shifted = *on,
        Line::Display => display.clone_from(page),
        Line::Store(count) => *store = vec![0; *count],
        Line::Byte { index, value } => match store.get_mut(*index) {
            Some(byte) => *byte = *value,
            None => return false,
        },
        Line::Personality(personality) => state.personality = *personality,
        Line::Wide(on) => state.wide = *on,
        Line::Wish(on) => state.wish = *on,
        Line::Sending(Some(Sending {
            place: Place::RowMark(cell),
            ..
        })) if state.row_start(*cell as usize) != *cell as usize => return false,
        Line::Sending(sending) => {
            state.sending = *sending;
            state.sequence = Sequence::None;
        }
        Line::Remembered(number) => state.remembered = Flags(*number),
        Line::Rows(count) => *rows = vec![0; *count],
        Line::Row { index, value } => match rows.get_mut(*index) {
            Some(number) => *number = *value,
            None => return false,
        },
        _ => return false,
    }
    true
}

fn fill_with_noise(page: &mut [Cell], seed: u32, mask: u16, share: u16) {
    let mut x = seed;
    let mut draw = || {
        x = x.wrapping_mul(1664525).wrapping_add(1013904223);
        x
    };
    for cell in page {
        let contents = (draw() >> 16) as u16 & mask & 0xFF7F;
        let protected = draw() >> 24 < share as u32;
        *cell = Cell(contents + if protected { 128 } else { 0 });
    }
}

fn set_mode(state: &mut State, mode: usize, on: bool) {
    let modes = &mut state.modes;
    *[
        &mut modes.protect,
        &mut modes.write_protect,
        &mut modes.insert,
        &mut modes.autoscroll,
        &mut modes.locked,
        &mut modes.local_edit,
    ][mode] = on;
}

fn sequence_left_by(bytes: &[u8], spoilt: bool) -> Option<Sequence> {
    let mut terminal = Terminal::new();
    terminal.run(bytes, &mut []);
    if spoilt {
        let is_key_text = bytes
            .get(2)
            .is_some_and(|&value| key_number(value).is_some());
        let spoiler = if is_key_text {
            PAST_KEY_TEXT
        } else {
            BAD_CHARACTER
        };
        terminal.run(spoiler, &mut []);
    }
    let sequence = terminal.state.sequence;
    let mut spelled = Vec::new();
    sequence.spell(&mut spelled);
    let is_spoilt = matches!(sequence, Sequence::Spoilt(_));
    (spelled == bytes && is_spoilt == spoilt).then_some(sequence)
}
