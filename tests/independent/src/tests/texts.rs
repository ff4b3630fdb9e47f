//! The host message and the key labels.

use super::*;

fn message(terminal: &Terminal) -> &[u8] {
    terminal.state.message.kept()
}

#[test]
fn a_message_is_kept_and_cleared() {
    let mut terminal = Terminal::new();
    assert_eq!(answers(&mut terminal, b"\x1bFHi\r"), [0; 5]);
    assert_eq!(message(&terminal), b"Hi");
    assert_eq!(answers(&mut terminal, b"\x1bF\r"), [0; 3]);
    assert_eq!(message(&terminal), b"");
    assert_eq!(terminal.page, Terminal::new().page);
    assert_eq!(terminal.state.cursors[0], 0);
}

#[test]
fn forty_six_characters_fit() {
    let mut terminal = Terminal::new();
    for (count, last) in [(46, 0), (47, 3), (200, 3)] {
        let bytes = [b"\x1bF", &vec![b'x'; count][..], b"\r"].concat();
        let answers = answers(&mut terminal, &bytes);
        assert!(answers[..answers.len() - 1]
            .iter()
            .all(|&answer| answer == 0));
        assert_eq!(answers.last(), Some(&last));
        assert_eq!(message(&terminal), [b'x'; 46]);
    }
}

#[test]
fn a_bad_byte_spoils_a_text() {
    for bad in (0x00..0x20).chain([0x7F]).filter(|&byte| byte != 0x0D) {
        let mut terminal = Terminal::new();
        replies(&mut terminal, b"\x1bFold\r\x1bzPold\r");
        assert_eq!(
            answers(&mut terminal, &[ESC, b'F', bad, ESC, b'*', 0x0D]),
            [0, 0, 0, 0, 0, 3]
        );
        assert_eq!(
            answers(&mut terminal, &[ESC, b'z', b'P', bad, 0x0D]),
            [0, 0, 0, 0, 3]
        );
        assert_eq!(message(&terminal), b"old");
        assert_eq!(terminal.state.labels[8].kept(), b"old");
        assert!(terminal.state.shifted);
    }
}

#[test]
fn high_bytes_leave_a_text_as_it_was() {
    let mut terminal = Terminal::new();
    assert_eq!(
        answers(&mut terminal, b"\x1bFa\x80b\xff\r"),
        [0, 0, 0, 1, 0, 1, 0]
    );
    assert_eq!(message(&terminal), b"ab");
}

#[test]
fn labels_of_the_upper_half_turn_the_line_on() {
    for (bytes, shifted) in [
        (&b"\x1bz7a\r"[..], false),
        (b"\x1bzPa\r", true),
        (b"\x1bzP\r", false),
        (b"\x1bzPa\r\x1bzP\r", true),
        (b"\x1bzPa\r\x1bz\x7f", false),
    ] {
        let mut terminal = Terminal::new();
        replies(&mut terminal, bytes);
        assert_eq!(terminal.state.shifted, shifted, "{bytes:?}");
    }
}

#[test]
fn every_byte_after_escape_z() {
    for byte in 0x00..=0x7F {
        let expected = match byte {
            0x30..=0x37 | 0x40..=0x4F | 0x50..=0x57 | 0x60..=0x6F | 0x7F => 0,
            _ => 3,
        };
        assert_eq!(
            answers(&mut Terminal::new(), &[ESC, b'z', byte]),
            [0, 0, expected]
        );
    }
}
