//! Saved set-ups.

use super::*;
use crate::setups::{restore, save, setup_of, Unkept, LONGEST_SETUP, PLACE, STORE};
use crate::state::{State, Text, CR, DEL};

/// The bytes of the settings at power-on, with this text in every key and label.
fn plain_setup(text: &[u8]) -> Vec<u8> {
    let mut setup = b"\x1b`1\x1b`5\x1b`7\x1b`9\x1b`@\x1bA00\x1bA10\x1bA20\x1bA30".to_vec();
    for (values, end) in [
        ([0x40..=0x4F, 0x60..=0x6F], DEL),
        ([0x30..=0x37, 0x50..=0x57], CR),
    ] {
        for value in values.into_iter().flatten() {
            setup.extend([ESC, b'z', value]);
            setup.extend_from_slice(text);
            setup.push(end);
        }
    }
    setup
}

fn fullest() -> State {
    let mut state = State::power_on(Personality::Wy60);
    (0..80).for_each(|column| state.tab_stops.set(column, true));
    state.features = *b"02A8<";
    state.attributes = *b" ~p?";
    state.keys.fill(Text::holding(b"\r2345678"));
    state.labels.fill(Text::holding(b" 234567~"));
    state
}

#[test]
fn a_setup_is_commands_in_order() {
    let mut state = State::power_on(Personality::Wy50);
    assert_eq!(setup_of(&state), plain_setup(b""));
    state.tab_stops.set(79, true);
    state.tab_stops.set(0, true);
    state.features[2] = b'A';
    let start = b"\x1b=\x20\x20\x1b1\x1b=\x20\x6f\x1b1\x1b`1\x1b`5\x1b`9\x1b`@\x1b`A\x1bA00";
    assert!(setup_of(&state).starts_with(start));
    assert_eq!(setup_of(&fullest()).len(), LONGEST_SETUP);
}

#[test]
fn a_save_writes_its_whole_place() {
    let mut store = vec![0; STORE];
    let state = State::power_on(Personality::Wy50);
    for number in 1..=8 {
        assert_eq!(save(&fullest(), &mut store), Ok(number));
    }
    assert!(store[4..].iter().any(|&byte| byte == b'~'));
    for number in 9..=16 {
        assert_eq!(save(&state, &mut store), Ok(number));
    }
    let setup = plain_setup(b"");
    let mut place = vec![setup.len() as u8, 0];
    place.extend(setup);
    place.resize(PLACE, 0);
    assert_eq!(store, [&[16, 0], &place.repeat(8)[..]].concat());
}

#[test]
fn a_restore_sets_only_the_settings() {
    let mut store = vec![0; STORE];
    save(&fullest(), &mut store).unwrap();
    let mut terminal = Terminal::new();
    replies(&mut terminal, b"\x1bx1\x26\x1b}AB\x1bFhi\r\x1b&\x07\x1b=");
    let before = terminal.state.clone();
    assert_eq!(restore(&mut terminal.state, &store, 1), Ok(()));
    let expected = State {
        tab_stops: fullest().tab_stops,
        features: fullest().features,
        attributes: fullest().attributes,
        keys: fullest().keys,
        labels: fullest().labels,
        ..before
    };
    assert_eq!(terminal.state, expected);
    assert!(!terminal.state.shifted);
}

#[test]
fn the_last_eight_are_kept() {
    let mut store = vec![0; STORE];
    let mut state = State::power_on(Personality::Wy50);
    assert_eq!(restore(&mut state, &store, 0), Err(Unkept::Number));
    assert_eq!(restore(&mut state, &store, 1), Err(Unkept::Number));
    for number in 1..=20_u16 {
        state.keys[0] = Text::holding(&[number as u8]);
        assert_eq!(save(&state, &mut store), Ok(number));
        for other in 0..=22 {
            let is_kept = other > 0 && other <= number && other + 8 > number;
            let mut restored = fullest();
            let expected = if is_kept { Ok(()) } else { Err(Unkept::Number) };
            assert_eq!(restore(&mut restored, &store, other), expected);
            assert!(!is_kept || restored.keys[0].kept() == [other as u8]);
        }
    }
    store[..2].fill(0xFF);
    let full = store.clone();
    assert_eq!(save(&state, &mut store), Err(Unkept::Full));
    assert_eq!(store, full);
    assert_eq!(restore(&mut state, &store, 65535), Ok(()));
    assert_eq!(restore(&mut state, &store, 65527), Err(Unkept::Number));
}

#[test]
fn damaged_stores_are_refused() {
    let state = State::power_on(Personality::Wy50);
    let refused = |change: &dyn Fn(&mut Vec<u8>)| {
        let mut store = vec![0; STORE];
        save(&state, &mut store).unwrap();
        change(&mut store);
        let damaged = store.clone();
        let result = save(&state, &mut store);
        assert!(result.is_ok() || store == damaged);
        result == Err(Unkept::Store)
    };
    assert!(!refused(&|_| {}));
    assert!(refused(&|store| store.truncate(STORE - 1)));
    assert!(refused(&|store| store.push(0)));
    assert!(refused(&|store| store.clear()));
    let length = plain_setup(b"").len();
    for (index, value) in [
        (0, 0),
        (0, 2),
        (2, length as u8 - 1),
        (2, length as u8 + 1),
        (3, 0xFF),
        (4 + length, 1),
        (2 + PLACE, 1),
        (STORE - 1, 1),
        (6, b'0' + 8),
        (22, b'!'),
    ] {
        assert!(refused(&|store| store[index] = value), "{index} {value}");
    }
    assert!(!refused(&|store| store[6] = b'0'));
    assert!(!refused(&|store| store[22] = b' '));
}

#[test]
fn impossible_states_come_first() {
    let mut state = State::power_on(Personality::Wy50);
    state.split = 1;
    assert_eq!(save(&state, &mut []), Err(Unkept::State));
    assert_eq!(restore(&mut state, &[], 0), Err(Unkept::State));
}
