//! Saved set-ups: the last eight, by number, as the terminal's own command bytes.
//!
//! The store has the last number, then eight places, number n's being place
//! (n - 1) mod 8. A place has a length, a set-up of so many bytes, and zeros.
//! Numbers and lengths take two bytes, the low one first.

use crate::state::{State, COLUMNS, CR, DEL, ESC};
use crate::terminal::Terminal;
use std::ops::Range;

const PLACES: usize = 8;
pub const LONGEST_SETUP: usize = 1087;
pub const PLACE: usize = 2 + LONGEST_SETUP;
pub const STORE: usize = 2 + PLACES * PLACE;

/// Why nothing is saved or restored, in the order in which it is looked at.
#[derive(Clone, Copy, PartialEq, Eq, Debug)]
pub enum Unkept {
    State,
    /// A store that no saves could leave.
    Store,
    /// Number 65,535 is used up.
    Full,
    /// A number never saved, or overwritten.
    Number,
}

/// Saves the settings and gives their number.
pub fn save(state: &State, store: &mut [u8]) -> Result<u16, Unkept> {
    check(state, store)?;
    let number = last_number(store).checked_add(1).ok_or(Unkept::Full)?;
    let setup = setup_of(state);
    let place = &mut store[place_of(number)];
    place.fill(0);
    place[..2].copy_from_slice(&(setup.len() as u16).to_le_bytes());
    place[2..][..setup.len()].copy_from_slice(&setup);
    store[..2].copy_from_slice(&number.to_le_bytes());
    Ok(number)
}

/// Sets the settings saved under a number, and nothing else.
pub fn restore(state: &mut State, store: &[u8], number: u16) -> Result<(), Unkept> {
    check(state, store)?;
    if !kept_numbers(store).any(|kept| kept == number) {
        return Err(Unkept::Number);
    }
    let setup = setup_in(&store[place_of(number)]).ok_or(Unkept::Store)?;
    let saved = state_left_by(setup);
    for column in 0..COLUMNS {
        state.tab_stops.set(column, saved.tab_stops.has(column));
    }
    state.features = saved.features;
    state.attributes = saved.attributes;
    state.keys = saved.keys;
    state.labels = saved.labels;
    Ok(())
}

fn check(state: &State, store: &[u8]) -> Result<(), Unkept> {
    if !state.is_possible() {
        return Err(Unkept::State);
    }
    if !is_left_by_saves(store) {
        return Err(Unkept::Store);
    }
    Ok(())
}

/// The commands that give these settings from power-on, each group by value.
pub fn setup_of(state: &State) -> Vec<u8> {
    let mut setup = Vec::new();
    for column in state.tab_stops.columns().filter(|&column| column < COLUMNS) {
        setup.extend([ESC, b'=', 0x20, 0x20 + column as u8, ESC, b'1']);
    }
    let mut features = state.features;
    features.sort_unstable();
    for code in features {
        setup.extend([ESC, b'`', code]);
    }
    for (field, code) in (b'0'..).zip(state.attributes) {
        setup.extend([ESC, b'A', field, code]);
    }
    for (value, key) in (0x40..=0x4F).chain(0x60..=0x6F).zip(&state.keys) {
        setup.extend([ESC, b'z', value]);
        setup.extend_from_slice(key.kept());
        setup.push(DEL);
    }
    for (field, label) in (0x30..=0x37).chain(0x50..=0x57).zip(&state.labels) {
        setup.extend([ESC, b'z', field]);
        setup.extend_from_slice(label.kept());
        setup.push(CR);
    }
    setup
}

/// What these bytes make of a terminal just powered on.
fn state_left_by(setup: &[u8]) -> State {
    let mut terminal = Terminal::new();
    terminal.run(setup, &mut []);
    terminal.state
}

pub fn is_left_by_saves(store: &[u8]) -> bool {
    store.len() == STORE
        && (0..PLACES).all(|number| {
            let place = &store[2 + number * PLACE..][..PLACE];
            if kept_numbers(store).any(|kept| place_number(kept) == number) {
                setup_in(place).is_some()
            } else {
                place.iter().all(|&byte| byte == 0)
            }
        })
}

/// The set-up in a place that a save has written.
fn setup_in(place: &[u8]) -> Option<&[u8]> {
    let length = u16::from_le_bytes([place[0], place[1]]) as usize;
    let setup = place[2..].get(..length)?;
    let is_setup = setup_of(&state_left_by(setup)) == setup;
    let is_zero_behind = place[2 + length..].iter().all(|&byte| byte == 0);
    (is_setup && is_zero_behind).then_some(setup)
}

pub fn last_number(store: &[u8]) -> u16 {
    u16::from_le_bytes([store[0], store[1]])
}

fn kept_numbers(store: &[u8]) -> impl Iterator<Item = u16> {
    let last = last_number(store);
    (last.saturating_sub(PLACES as u16 - 1).max(1)..=last).take(PLACES)
}

fn place_number(number: u16) -> usize {
    (number as usize - 1) % PLACES
}

fn place_of(number: u16) -> Range<usize> {
    let start = 2 + place_number(number) * PLACE;
    start..start + PLACE
}
