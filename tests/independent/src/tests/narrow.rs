//! Replies through a narrow line.

use super::*;
use crate::state::{Place, Sending};
use crate::terminal::Step;

/// Two rows: FS a b FS, US, c FS d, CR; the cursor on the d.
fn form() -> Terminal {
    let mut terminal = Terminal::new();
    for place in (0..10).chain(12..80).chain(81..85) {
        terminal.page[place] = Cell::text(b'#').with_protection();
    }
    for (place, letter) in [(10, b'a'), (11, b'b'), (80, b'c'), (85, b'd')] {
        terminal.page[place] = Cell::text(letter);
    }
    terminal.state.cursors[0] = 85;
    terminal
}

const FORM_SENT: &[u8] = b"\x1cab\x1c\x1fc\x1cd\r";

fn place(terminal: &Terminal) -> Option<Place> {
    terminal.state.sending.map(|sending| sending.place)
}

fn go_on(terminal: &mut Terminal, size: usize) -> Vec<u8> {
    let mut room = vec![0; size];
    let report = terminal.run(b"", &mut room);
    assert_eq!((report.answer, report.taken), (0, 0));
    room[..report.replied].to_vec()
}

#[test]
fn the_place_is_the_one_after_the_last_byte() {
    let places = [
        Place::Cell(1),
        Place::Cell(11),
        Place::Cell(12),
        Place::Cell(13),
        Place::Cell(80),
        Place::Cell(81),
        Place::Cell(82),
        Place::Cr,
    ];
    for (number, expected) in places.into_iter().enumerate() {
        let mut terminal = form();
        assert_eq!(terminal.run(b"\x1b5", &mut vec![0; number + 1]).taken, 2);
        assert_eq!(place(&terminal), Some(expected));
        assert!(terminal.is_possible());
    }
    let mut terminal = form();
    terminal.run(b"\x1b7", &mut [0; 80]);
    assert_eq!(place(&terminal), Some(Place::RowMark(80)));
}

#[test]
fn parts_join_to_one_roomy_call() {
    for command in *b" ?/b4567" {
        let whole = replies(&mut form(), &[ESC, command]);
        for size in (1..=12).chain([64, 79, 80, 81, 82]) {
            let mut terminal = form();
            let mut room = vec![0; size];
            let mut joined = Vec::new();
            let input = [ESC, command, b'x'];
            let report = terminal.run(&input, &mut room);
            let begun = report.replied;
            assert_eq!((report.answer, begun), (0, whole.len().min(size)));
            joined.extend_from_slice(&room[..begun]);
            while terminal.state.sending.is_some() {
                assert!(terminal.is_possible());
                joined.extend(go_on(&mut terminal, size));
            }
            assert_eq!(joined, whole);
        }
    }
    assert_eq!(replies(&mut form(), b"\x1b5"), FORM_SENT);
}

#[test]
fn a_step_during_a_send_keeps_its_byte_waiting() {
    let mut terminal = form();
    terminal.run(b"\x1b5", &mut [0; 3]);
    for (room, outcome) in [
        (0, Err(Refusal::NoRoom)),
        (1, Ok(1)),
        (0, Err(Refusal::NoRoom)),
        (9, Ok(5)),
    ] {
        let step = terminal.step(0xFF, &mut vec![0; room]);
        assert_eq!(
            step,
            Step {
                outcome,
                own: false
            }
        );
    }
    assert_eq!(place(&terminal), None);
    let refused = Err(Refusal::HighByte);
    let step = terminal.step(0xFF, &mut []);
    assert_eq!((step.outcome, step.own), (refused, true));
}

#[test]
fn runs_during_a_send() {
    let report_of = |input: &'static [u8], size: usize| {
        let mut terminal = form();
        terminal.run(b"\x1b5", &mut [0; 5]);
        let report = terminal.run(input, &mut vec![0; size]);
        (report.answer, report.taken, report.replied, report.rest)
    };
    assert_eq!(report_of(b"xy", 0), (6, 0, 0, &b"xy"[..]));
    assert_eq!(report_of(b"", 0), (0, 0, 0, &b""[..]));
    assert_eq!(report_of(b"xy", 3), (0, 0, 3, &b"xy"[..]));
    assert_eq!(report_of(b"xy", 4), (0, 2, 4, &b""[..]));
    assert_eq!(report_of(b"x\x05y", 4), (6, 1, 4, &b"\x05y"[..]));
    assert_eq!(report_of(b"\x1b?y", 4), (6, 1, 4, &b"?y"[..]));
    assert_eq!(report_of(b"\x1b?y", 5), (0, 2, 5, &b"y"[..]));
    assert_eq!(report_of(b"\x1b?y", 7), (0, 3, 7, &b""[..]));
}

#[test]
fn the_rest_is_read_from_the_page_as_it_stands() {
    let begun = || {
        let mut terminal = form();
        terminal.run(b"\x1b5", &mut [0; 2]);
        assert_eq!(place(&terminal), Some(Place::Cell(11)));
        terminal
    };
    let mark = |terminal: &mut Terminal, place: usize| {
        terminal.page[place] = Cell::text(b'x').with_protection();
    };
    let mut terminal = begun();
    mark(&mut terminal, 11);
    assert_eq!(go_on(&mut terminal, 20), b"\x1c\x1fc\x1cd\r");
    mark(&mut terminal, 10);
    let mut terminal = begun();
    mark(&mut terminal, 10);
    mark(&mut terminal, 11);
    assert_eq!(go_on(&mut terminal, 20), b"\x1fc\x1cd\r");
    let mut terminal = form();
    terminal.run(b"\x1b5", &mut [0; 1]);
    terminal.page[1] = Cell::text(b'y');
    assert_eq!(go_on(&mut terminal, 3), b"y\x1ca");
}

#[test]
fn keys_wait_for_the_end_of_a_send() {
    let mut terminal = form();
    terminal.run(b"\x1b?", &mut [0; 2]);
    assert_eq!(terminal.press(0x40, &mut [0; 9]), Err(Refusal::NoRoom));
    assert_eq!(terminal.press(0x20, &mut []), Err(Refusal::BadArgument));
    terminal.state.modes.locked = true;
    assert_eq!(terminal.press(0x20, &mut []), Err(Refusal::Locked));
    terminal.state.split = 1;
    assert_eq!(terminal.press(0x20, &mut []), Err(Refusal::Impossible));
}

#[test]
fn possible_places() {
    let possible = |command: u8, place: Place| {
        let mut terminal = form();
        terminal.state.sending = Some(Sending { command, place });
        terminal.is_possible()
    };
    for (command, length) in [(b' ', 3), (b'?', 3), (b'/', 4), (b'b', 7)] {
        for sent in 0..=255 {
            let expected = sent > 0 && sent < length;
            assert_eq!(possible(command, Place::Byte(sent)), expected);
        }
    }
    for cell in 0..2000 {
        assert_eq!(possible(b'4', Place::Cell(cell)), cell > 80 && cell <= 85);
        assert_eq!(possible(b'7', Place::Cell(cell)), cell > 0 && cell <= 85);
        assert!(!possible(b'6', Place::RowMark(cell)));
        assert_eq!(possible(b'5', Place::RowMark(cell)), cell == 80);
    }
    assert!(possible(b'4', Place::Cr) && possible(b'7', Place::Cr));
}
