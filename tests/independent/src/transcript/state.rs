//! The state as a trace shows it.

use super::write::*;
use crate::state::{Sequence, State, Text, WIDEST};

pub fn write_state(state: &State, out: &mut Vec<u8>) {
    out.extend_from_slice(b" active=");
    push_number(out, state.active as usize);
    out.extend_from_slice(b" cursors=");
    push_number(out, state.cursors[0] as usize);
    out.push(b',');
    push_number(out, state.cursors[1] as usize);
    out.extend_from_slice(b" split=");
    push_number(out, state.split as usize);
    out.extend_from_slice(b" modes=");
    write_modes(state, out);
    out.extend_from_slice(b" tabs=");
    write_tab_stops(state, out);
    out.extend_from_slice(b" attributes=");
    push_bytes(out, &state.attributes);
    out.extend_from_slice(b" features=");
    push_bytes(out, &state.features);
    out.extend_from_slice(b" keys=");
    write_texts(&state.keys, out);
    out.extend_from_slice(b" bells=");
    push_number(out, state.bells as usize);
    out.extend_from_slice(b" pending=");
    write_sequence(&state.sequence, out);
    out.extend_from_slice(b" message=");
    write_text(&state.message, out);
    out.extend_from_slice(b" labels=");
    write_texts(&state.labels, out);
    out.extend_from_slice(b" shifted=");
    push_flag(out, state.shifted);
    out.extend_from_slice(b" personality=");
    out.extend_from_slice(state.personality.digits().as_bytes());
    out.extend_from_slice(b" remembered=");
    push_number(out, state.remembered.0 as usize);
    out.extend_from_slice(b" sending=");
    push_sending(out, state.sending);
    out.extend_from_slice(b" wide=");
    push_flag(out, state.wide);
    out.extend_from_slice(b" wish=");
    push_flag(out, state.wish);
}

/// Four columns a digit, the first of them the highest.
fn write_tab_stops(state: &State, out: &mut Vec<u8>) {
    for first in (0..WIDEST).step_by(4) {
        let columns = first..first + 4;
        let digit = columns.fold(0, |digit, column| {
            digit << 1 | state.tab_stops.has(column) as u8
        });
        push_hex_digit(out, digit);
    }
}

fn write_modes(state: &State, out: &mut Vec<u8>) {
    let modes = &state.modes;
    for on in [
        modes.protect,
        modes.write_protect,
        modes.insert,
        modes.autoscroll,
        modes.locked,
        modes.local_edit,
    ] {
        push_flag(out, on);
    }
}

fn write_sequence(sequence: &Sequence, out: &mut Vec<u8>) {
    let mut spelled = Vec::new();
    sequence.spell(&mut spelled);
    push_bytes(out, &spelled);
    if let Sequence::Spoilt(_) = sequence {
        out.push(b'+');
    }
}

/// The texts that are not empty, by number.
fn write_texts<const MOST: usize>(texts: &[Text<MOST>], out: &mut Vec<u8>) {
    let mut is_first = true;
    for (number, text) in texts.iter().enumerate() {
        if text.length == 0 {
            continue;
        }
        if !is_first {
            out.push(b',');
        }
        is_first = false;
        push_number(out, number);
        out.push(b':');
        write_text(text, out);
    }
    if is_first {
        out.push(b'-');
    }
}

/// The bytes kept, and a plus if the length says more.
fn write_text<const MOST: usize>(text: &Text<MOST>, out: &mut Vec<u8>) {
    push_bytes(out, text.kept());
    if text.length as usize > MOST {
        out.push(b'+');
    }
}
