//! WY-60 beside WY-50.

use super::*;
use crate::state::Flags;

fn wy60() -> Terminal {
    let mut terminal = Terminal::new();
    assert_eq!(terminal.power_on(Personality::Wy60), Ok(0));
    terminal
}

fn first_cells<const COUNT: usize>(terminal: &Terminal) -> [u16; COUNT] {
    std::array::from_fn(|place| terminal.page[place].0)
}

#[test]
fn each_replies_its_own_name() {
    assert_eq!(replies(&mut Terminal::new(), b"\x1b "), b"50\r");
    assert_eq!(replies(&mut wy60(), b"\x1b "), b"60\r");
}

#[test]
fn an_attribute_takes_no_cell_and_is_kept_with_what_is_stored() {
    let mut terminal = wy60();
    replies(
        &mut terminal,
        b"\x1bG8a\x1bG4b\x1bG2c\x1bG1d\x1bGpe\x1bG~f\x1bH0\x1bG0g",
    );
    let letter = |letter: u8, flags: u16| letter as u16 + flags;
    assert_eq!(
        first_cells::<8>(&terminal),
        [
            letter(b'a', 8192),
            letter(b'b', 4096),
            letter(b'c', 2048),
            letter(b'd', 1024),
            letter(b'e', 16384),
            letter(b'f', 16384 + 8192 + 4096 + 2048),
            letter(b'0', 512 + 16384 + 8192 + 4096 + 2048),
            letter(b'g', 0),
        ]
    );
    assert_eq!(replies(&mut terminal, b"\x1b6"), b"abcdef g \r");
}

#[test]
fn every_attribute_code() {
    for code in 0x00..=0x7F {
        let mut terminal = wy60();
        replies(&mut terminal, b"\x1bG5");
        let expected = if crate::state::is_attribute(code) {
            0
        } else {
            3
        };
        assert_eq!(answers(&mut terminal, &[ESC, b'G', code]), [0, 0, expected]);
        let remembered = match code {
            0x30..=0x3F => code - 0x30,
            0x70..=0x7E => code - 0x70 + 16,
            _ => 5,
        };
        assert_eq!(terminal.state.remembered, Flags(remembered));
        assert_eq!(terminal.state.cursors[0], (code == b' ') as u16);
        assert!(terminal.is_possible());
    }
}

#[test]
fn guarded_cells_do_not_bar_an_attribute() {
    let mut terminal = wy60();
    replies(&mut terminal, b"\x1b,\x1b&\x1bG4");
    assert_eq!(terminal.state.remembered, Flags(4));
    assert_eq!(
        answers(&mut terminal, b"\x1bG \x1bH0A"),
        [0, 0, 4, 0, 0, 4, 4]
    );
    assert_eq!(terminal.state.remembered, Flags(4));
}

#[test]
fn what_is_brought_in_is_normal() {
    for (bytes, number) in [
        (&b"\x1bG "[..], 32),
        (b"\x1bQ", 32),
        (b"\x1bE", 32),
        (b"\x1bV", 160),
        (b"\x1b.x", b'x' as u16),
        (b"\x1b!4", 256 + b'4' as u16),
        (b"\x1b;", 32),
        (b"\x1b,", 160),
        (b"\x1bj", 32),
    ] {
        let mut terminal = wy60();
        replies(&mut terminal, b"\x1bG5ab\x1e");
        replies(&mut terminal, bytes);
        assert_eq!(first_cells(&terminal), [number], "{bytes:?}");
    }
}

#[test]
fn what_each_can_remember() {
    for number in 0..=31 {
        for personality in [Personality::Wy50, Personality::Wy60] {
            let mut terminal = Terminal::new();
            terminal.state.personality = personality;
            terminal.state.remembered = Flags(number);
            let expected = match personality {
                Personality::Wy50 => number == 0,
                Personality::Wy60 => number < 31,
            };
            assert_eq!(terminal.is_possible(), expected);
        }
    }
}

#[test]
fn kinds_go_by_two_bits() {
    for (number, sent) in [
        (0x0041, b'A'),
        (0x0441, b'A'),
        (0xFC41, b'A'),
        (0x0141, b' '),
        (0x0241, b' '),
        (0x0341, b' '),
        (0x8041, b'A'),
        (0x8541, b' '),
    ] {
        assert_eq!(Cell(number).sent(), sent);
    }
}
