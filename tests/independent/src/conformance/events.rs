//! Runs up to the first reply or refusal.

use super::book::Book;
use crate::state::{Personality, Place, Sending, CELLS, ESC};
use crate::terminal::ROW_NUMBERS;
use crate::transcript::Line;

/// All commands that reply.
const ASKING: [&[u8]; 10] = [
    b"\x05", b"\x1b ", b"\x1b/", b"\x1b4", b"\x1b5", b"\x1b6", b"\x1b7", b"\x1b?", b"\x1bM",
    b"\x1bb",
];
/// Bytes that are refused on a form whose cursor is on a label, each at its last.
const REFUSED: [&[u8]; 22] = [
    b"\x80",
    b"\xff",
    b"\x1b\xff",
    b"\x1b^",
    b"\x1b\x1b",
    b"\x1b\x05",
    b"\x1b}",
    b"\x1bx2",
    b"\x1bx1\x38",
    b"\x1bG!",
    b"\x1b=\x38\x20",
    b"\x1b-1\x20\x20",
    b"\x1baR",
    b"\x1bz\x20",
    b"\x1bzA123456789\x7f",
    b"\x1bz0123456789\r",
    b"\x1bF\x05\r",
    b"A",
    b"\x1bM",
    b"\x1bQ",
    b"\x1bW",
    b"\x1bE",
];
const WIDE_ROOM: usize = 2000;

impl Book {
    pub(super) fn events(&mut self) {
        self.replies_told();
        self.refusals_told();
        self.no_events();
        self.events_one_by_one();
        self.events_of_single_bytes();
        self.events_behind_acts();
        self.events_without_room();
        self.events_in_narrow_rooms();
        self.events_inside_sends();
        self.events_refused();
        self.events_with_lists();
    }

    fn next(&mut self, bytes: &[u8]) {
        self.next_in(bytes, WIDE_ROOM);
    }

    fn next_in(&mut self, bytes: &[u8], room: usize) {
        self.line(Line::Next {
            bytes: bytes.to_vec(),
            room,
        });
    }

    fn list_next(&mut self, bytes: &[u8], room: usize) {
        self.line(Line::ListNext {
            bytes: bytes.to_vec(),
            room,
        });
    }

    fn send_from(&mut self, command: u8, place: Place) {
        self.line(Line::Sending(Some(Sending { command, place })));
    }

    /// Two short rows with a label in each, and the cursor behind them.
    fn two_rows(&mut self) {
        self.fill(0, CELLS, b'a' as u16);
        for (index, count) in [(0, 78), (80, 2)] {
            self.fill(index, count, b'L' as u16 | 128);
        }
        self.cursor(0, 83);
    }

    fn replies_told(&mut self) {
        for personality in [Personality::Wy50, Personality::Wy60] {
            self.comment("next: which command a reply answers, and the bytes behind it wait");
            self.line(Line::On(Some(personality)));
            self.two_rows();
            for asking in ASKING {
                self.next(asking);
                self.next(&[b"x\x07", asking, b"y\xff"].concat());
            }
        }
    }

    fn refusals_told(&mut self) {
        self.case("next: which answer a refused byte gives, and the bytes behind it wait");
        for refused in REFUSED {
            self.form(&[(85, 5)]);
            self.cursor(0, 20);
            self.next(refused);
            self.pending(b"");
            self.next(&[b"\x07", refused, b"\x05\xff"].concat());
            self.pending(b"");
        }
        self.wide_case("next: ESC ? and ESC / on a wide page");
        self.next(b"\x1b?\x1b/\x1bb");
        self.next_in(b"\x1b/\x1bb", 0);
        self.next(b"A\x1bb\x1b?");
    }

    fn no_events(&mut self) {
        self.case("next: no byte replies and none is refused");
        self.next(b"");
        self.next_in(b"", 0);
        self.next_in(b"AB\r\x0a\x1b1\x1b=\x22\x22\x07", 0);
        self.next(b"\x1b=\x25");
        self.next(b"");
        self.next(b"\x25A\x1bFtext");
        self.next(b"\x05\xff");
        self.next(b"\r\x1bzA\x05\x1b");
        self.next(b"\x7f");
        self.next(&[b'x'; 300]);
        self.next(&[&[b'x'; 300][..], b"\x05y"].concat());
        self.next(&[&b"\x1b=\x22\x22\x1bQ\x1f"[..]; 60].concat());
    }

    fn events_one_by_one(&mut self) {
        self.case("next: each event by a call of its own");
        let stream = b"A\x05B\x1b?\xff\x1b^\x1b C\x05\x05\x80\x1bb";
        self.run(stream);
        self.line(Line::On(None));
        for taken in [0, 2, 5, 6, 8, 10, 12, 13, 14, 16] {
            self.next(&stream[taken..]);
        }
    }

    fn events_of_single_bytes(&mut self) {
        for protect in [false, true] {
            self.case("next: over one byte it is the step");
            for code in (0x00..=0x80).chain([0xFF]) {
                for before in [&b""[..], b"\x1b"] {
                    self.mixed_page();
                    self.protect(protect);
                    self.pending(before);
                    self.next(&[code]);
                    self.pending(b"");
                }
            }
        }
    }

    fn events_behind_acts(&mut self) {
        self.case("next: an address out of the segment behind text");
        self.next(b"AB\x1b=\x22\x22CD\x1b=\x38\x20EF");
        self.next(b"AB\x1b=\x20\x70EF");
        self.next(b"\x1bqAB\x1b=\x22\x22CD\x1b=\x38\x20EF");
        self.run(b"\x1br\x1bx1\x26");
        self.next(b"AB\x1b=\x25\x20\x1b=\x26\x20C");
        self.next(b"\x1b}\x1b=\x31\x6f\x1b=\x32\x20C");
        self.case("next: text that guards the last open cell");
        self.form(&[(85, 3)]);
        self.cursor(0, 85);
        self.next(b"\x1b)abcdef");
        self.form(&[(85, 3)]);
        self.cursor(0, 85);
        self.next(b"\x1bqabcdef");
        for command in *b"QWERTtYy:;j" {
            for protect in [false, true] {
                self.case("next: commands one behind the other, and a refusal among them");
                self.form(&[(85, 5)]);
                self.protect(protect);
                self.cursor(0, 86);
                self.next(&[b'x', ESC, command, b'y', ESC, command, 0x05, b'z']);
                self.cursor(0, 20);
                self.next(&[ESC, command, ESC, command, b'\xff', b'z']);
            }
        }
        for byte in *b"\x08\x09\x0a\x0b\x0c\x0d\x1e\x1f" {
            self.case("next: moves one behind the other, and a refusal behind them");
            self.form(&[(85, 5), (1900, 20)]);
            self.cursor(0, 86);
            self.next(&[b'x', byte, byte, b'y', byte, b'\xff', b'z']);
        }
    }

    fn events_without_room(&mut self) {
        self.case("next: a reply that is due and no room");
        self.two_rows();
        for asking in ASKING {
            self.next_in(&[b"x", asking, b"y"].concat(), 0);
            self.next_in(&asking[asking.len() - 1..], 0);
            self.pending(b"");
        }
        self.case("next: refusals need no room");
        for refused in REFUSED {
            self.form(&[(85, 5)]);
            self.cursor(0, 20);
            self.next_in(&[refused, b"\x05"].concat(), 0);
            self.pending(b"");
        }
    }

    fn events_in_narrow_rooms(&mut self) {
        for asking in ASKING {
            for room in [1, 2, 3, 4, 6, 7, 80] {
                self.case("next: a reply begun in a narrow room, then gone on with");
                self.two_rows();
                self.next_in(&[asking, b"x\xff"].concat(), room);
                self.next_in(b"x\xff", room);
                self.next_in(b"", room);
                self.next_in(b"x\xff", 0);
                self.next_in(b"", 0);
                self.next(b"x\xff");
                self.next(b"x\xff");
            }
        }
    }

    fn events_inside_sends(&mut self) {
        self.case("next: during a send no byte is taken, not even where it is then over");
        self.two_rows();
        for (command, place) in [
            (b' ', Place::Byte(2)),
            (b'/', Place::Byte(1)),
            (b'?', Place::Byte(2)),
            (b'b', Place::Byte(6)),
            (b'4', Place::Cell(82)),
            (b'5', Place::RowMark(80)),
            (b'5', Place::Cell(81)),
            (b'6', Place::Cell(81)),
            (b'7', Place::Cr),
        ] {
            for (bytes, room) in [
                (&b""[..], 0),
                (b"", 1),
                (b"\x05", 0),
                (b"\xff", 0),
                (b"\xff\x05", 1),
                (b"\x05\x05", 9),
                (b"\x1b?", 9),
                (b"", 9),
            ] {
                self.send_from(command, place);
                self.next_in(bytes, room);
            }
            self.next_in(b"\x07\x05", 1);
        }
        self.case("next: a page changed while a send is under way");
        self.two_rows();
        self.next_in(b"\x1b5A", 2);
        self.cell(79, b'x' as u16 | 128);
        self.cell(81, b'y' as u16);
        self.next_in(b"A", 3);
        self.cursor(0, 81);
        self.next_in(b"A", 3);
        self.next_in(b"A", 3);
    }

    fn events_refused(&mut self) {
        for length in [0, 1919, 1921, 3168] {
            self.case("next: a page of another length");
            self.line(Line::Length(length));
            self.next(b"A\x05");
            self.next(b"\xff");
            self.next_in(b"", 0);
            self.line(Line::Rows(0));
            self.list_next(b"A\x05", 10);
            self.line(Line::Rows(ROW_NUMBERS));
        }
        self.case("next: states that are not possible");
        self.line(Line::Split(1));
        self.next(b"A\x05");
        self.next(b"");
        self.line(Line::Split(0));
        self.send_from(b'?', Place::Byte(3));
        self.next(b"A\x05");
        self.next_in(b"", 0);
        self.line(Line::Rows(0));
        self.list_next(b"A", 10);
        self.line(Line::Rows(ROW_NUMBERS));
        self.line(Line::Sending(None));
        self.next(b"A\x05");
    }

    fn events_with_lists(&mut self) {
        self.case("next: with the row list, which is kept in step");
        self.form(&[(0, 3), (85, 5), (1919, 1)]);
        self.line(Line::Rebuild);
        self.list_next(b"", 0);
        self.list_next(b"x\x1b)ab\x1b(\x05cd", 10);
        self.list_next(b"cd\xffe", 0);
        self.list_next(b"\x1bVe\x1bEf", 0);
        self.list_next(b"\x1b'\x1b?", 1);
        self.list_next(b"x", 0);
        self.list_next(b"x", 10);
        self.list_next(b"\x1b&\x05", 0);
        self.list_next(b"\x1b,\x1b&A\x05", 10);
        self.list_next(b"\x1b*\x05", 10);
        self.case("next: a list that is not the page's");
        self.form(&[(0, 3), (85, 5), (1919, 1)]);
        self.line(Line::Rebuild);
        for (index, right) in [(0, 3), (1, 1), (2, 5), (3, 6), (4, 0), (46, 1), (47, 80)] {
            for wrong in [right + 1, 65535 - right] {
                let value = wrong;
                self.line(Line::Row { index, value });
                self.list_next(b"x\x05", 10);
                self.list_next(b"", 0);
            }
            let value = right;
            self.line(Line::Row { index, value });
        }
        self.list_next(b"x\x05", 10);
        self.next(b"\x1b'x\x05");
        self.list_next(b"x\x05", 10);
        self.list_next(b"\xff", 0);
        self.case("next: a list of another length, and an empty one, which is none");
        self.form(&[(0, 3), (85, 5), (1919, 1)]);
        for length in [1, 2, 47, 49, 96, 0] {
            self.line(Line::Rows(length));
            self.list_next(b"x\x05y", 10);
            self.list_next(b"y\xff", 0);
            self.list_next(b"\x1b ", 1);
            self.list_next(b"y", 0);
            self.list_next(b"y", 10);
            self.list_next(b"", 0);
            self.line(Line::Rebuild);
            self.line(Line::ListStep {
                byte: b'x',
                room: 1,
            });
            let bytes = b"x".to_vec();
            self.line(Line::ListRun { bytes, room: 1 });
        }
        self.line(Line::Rows(ROW_NUMBERS));
    }
}
