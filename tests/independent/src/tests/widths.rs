//! 132 columns.

use super::*;
use crate::setups::{restore, save, STORE};
use crate::state::{Place, Sending, CELLS, WIDEST};

const WIDE_CELLS: usize = 24 * WIDEST;

/// A terminal converted to the other width.
fn converted(mut terminal: Terminal) -> Terminal {
    let mut target = vec![Cell(0xEEEE); 24 * terminal.state.other_columns()];
    let before = terminal.page.clone();
    assert_eq!(terminal.convert(&mut target), Ok(0));
    assert!(terminal.page == before);
    terminal.page = target;
    assert!(terminal.is_possible());
    terminal
}

pub(super) fn wide() -> Terminal {
    converted(Terminal::new())
}

#[test]
fn rows_widen_with_nulls_and_narrow_again() {
    let mut terminal = Terminal::new();
    for (place, cell) in terminal.page.iter_mut().enumerate() {
        *cell = Cell(place as u16);
    }
    let narrow = terminal.page.clone();
    let terminal = converted(terminal);
    for (row, cells) in terminal.page.chunks(WIDEST).enumerate() {
        assert_eq!(cells[..80], narrow[row * 80..][..80]);
        assert!(cells[80..].iter().all(|&cell| cell == Cell::NULL));
    }
    assert!(converted(terminal).page == narrow);
}

#[test]
fn a_conversion_unsplits_and_keeps_the_rest() {
    let mut terminal = Terminal::new();
    replies(
        &mut terminal,
        b"\x1bx1\x26\x1b}AB\x1b1\x1b`;\x1bFhi\r\x1bz@",
    );
    terminal.page[0] = Cell::text(b'x').with_protection();
    terminal.state.modes.protect = true;
    let before = terminal.state.clone();
    let mut expected = before.clone();
    expected.wide = true;
    expected.split = 0;
    expected.active = 0;
    expected.cursors = [1, 0];
    let mut terminal = converted(terminal);
    assert_eq!(terminal.state, expected);
    terminal.state.tab_stops.set(100, true);
    terminal.state.cursors = [500, 600];
    expected.wide = false;
    assert_eq!(converted(terminal).state, expected);
}

#[test]
fn refused_conversions_change_nothing() {
    let refusal = |mut terminal: Terminal, length: usize| {
        let (page, state) = (terminal.page.clone(), terminal.state.clone());
        let mut target = vec![Cell(0xEEEE); length];
        let outcome = terminal.convert(&mut target);
        assert!(terminal.page == page && terminal.state == state);
        assert!(target.iter().all(|&cell| cell == Cell(0xEEEE)));
        answer_number(outcome)
    };
    assert_eq!(refusal(Terminal::new(), CELLS), 7);
    assert_eq!(refusal(wide(), WIDE_CELLS), 7);
    assert_eq!(refusal(Terminal::new(), WIDE_CELLS + 1), 7);
    let mut terminal = wide();
    terminal.page[WIDEST - 1] = Cell(128);
    assert_eq!(refusal(terminal.clone(), CELLS), 4);
    replies(&mut terminal, b"\x1b4");
    terminal.run(b"\x1bb", &mut [0; 1]);
    assert_eq!(refusal(terminal.clone(), CELLS), 6);
    assert_eq!(refusal(terminal.clone(), 5), 7);
    terminal.page.pop();
    assert_eq!(refusal(terminal, CELLS), 7);
}

#[test]
fn addresses_of_a_wide_page() {
    let mut terminal = wide();
    assert_eq!(answers(&mut terminal, b"\x1b=\x20\x6f"), [0, 0, 0, 0]);
    assert_eq!(answers(&mut terminal, b"\x1b=\x20\x70"), [0, 0, 0, 3]);
    assert_eq!(answers(&mut terminal, b"\x1b-0\x20\x70"), [0, 0, 0, 0, 3]);
    assert_eq!(replies(&mut terminal, b"\x1ba24R132C\x1bb"), b"24R132C");
    assert_eq!(answers(&mut terminal, b"\x1ba1R133C").last(), Some(&3));
    assert_eq!(answers(&mut terminal, b"\x1b?\x1b/"), [0, 3, 0, 3]);
    let step = terminal.run(b"\x1b?", &mut []);
    assert_eq!((step.answer, step.refused), (0, 1));
}

#[test]
fn the_longest_reply() {
    let mut terminal = wide();
    let mut room = [0; 4000];
    assert_eq!(terminal.run(b"\x1ba24R132C\x1b7", &mut room).replied, 3192);
}

#[test]
fn the_wish_changes_nothing_else() {
    for terminal in [Terminal::new(), wide()] {
        for (code, wish) in [(b';', true), (b':', false)] {
            let mut wishing = terminal.clone();
            assert_eq!(answers(&mut wishing, &[ESC, b'`', code]), [0, 0, 0]);
            let mut expected = terminal.state.clone();
            expected.wish = wish;
            assert_eq!(wishing.state, expected);
        }
    }
}

#[test]
fn stops_beyond_column_80() {
    let mut terminal = wide();
    replies(&mut terminal, b"\x1ba1R100C\x1b1\x1ba1R132C\x1b1\r\x09");
    assert_eq!(terminal.state.cursors[0], 99);
    replies(&mut terminal, b"\x09");
    assert_eq!(terminal.state.cursors[0], 131);
    replies(&mut terminal, b"\x1bI");
    assert_eq!(terminal.state.cursors[0], 99);
    let mut store = vec![0; STORE];
    assert_eq!(save(&terminal.state, &mut store), Ok(1));
    assert_eq!(restore(&mut terminal.state, &store, 1), Ok(()));
    assert!(terminal.state.tab_stops.has(99) && terminal.state.tab_stops.has(131));
    terminal.state.wide = false;
    terminal.page.truncate(CELLS);
    terminal.state.cursors = [0; 2];
    assert!(!terminal.is_possible());
    terminal.state.tab_stops.clear_from(80);
    assert!(terminal.is_possible());
}

#[test]
fn row_lists_of_a_wide_page() {
    assert_eq!(wide().rows_with_room(), [132, 1].repeat(24));
}

#[test]
fn no_send_of_addresses_on_a_wide_page() {
    for (command, expected) in [(b' ', true), (b'b', true), (b'?', false), (b'/', false)] {
        let mut terminal = wide();
        let place = Place::Byte(1);
        terminal.state.sending = Some(Sending { command, place });
        assert_eq!(terminal.is_possible(), expected);
    }
}
