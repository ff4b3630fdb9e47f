//! Sends: fields parted by FS.

use super::*;

/// A terminal with this first row, upper case letters being protected.
fn form(row: &[u8]) -> Terminal {
    let mut terminal = Terminal::new();
    for (place, &letter) in row.iter().enumerate() {
        let cell = Cell::text(letter);
        terminal.page[place] = if letter.is_ascii_uppercase() {
            cell.with_protection()
        } else {
            cell
        };
    }
    terminal.state.cursors[0] = row.len() as u16 - 1;
    terminal.state.modes.protect = true;
    terminal
}

#[test]
fn stretches_go_as_one_mark() {
    for (row, reply) in [
        (&b"abc"[..], &b"abc\r"[..]),
        (b"ROASTabDATEc", b"\x1cab\x1cc\r"),
        (b"abL", b"ab\x1c\r"),
        (b"LLL", b"\x1c\r"),
        (b"aLbLc", b"a\x1cb\x1cc\r"),
    ] {
        assert_eq!(replies(&mut form(row), b"\x1b4"), reply);
        assert_eq!(replies(&mut form(row), b"\x1b5"), reply);
    }
}

#[test]
fn marked_cells_are_left_out_whatever_protect_mode_says() {
    let mut terminal = form(b"ROASTabDATEc");
    assert_eq!(
        replies(&mut terminal, b"\x1b'\x1b5\x1b4"),
        b"\x1cab\x1cc\r\x1cab\x1cc\r"
    );
    assert_eq!(replies(&mut terminal, b"\x1b6"), b"ROASTabDATEc\r");
    terminal.state.cursors[0] = 0;
    assert_eq!(replies(&mut terminal, b"\x1bM\x1b4"), b"R\x1c\r");
}

#[test]
fn a_row_end_cuts_a_stretch() {
    let mut terminal = form(&[b'L'; 165]);
    assert_eq!(replies(&mut terminal, b"\x1b5"), b"\x1c\x1f\x1c\x1f\x1c\r");
}

#[test]
fn the_longest_reply_keeps_its_bound() {
    for first in [b"aL", b"La"] {
        let mut terminal = form(&first.repeat(960));
        assert_eq!(replies(&mut terminal, b"\x1b5").len(), 1944);
    }
}
