//! Replies through a narrow line.

use super::book::Book;
use crate::state::{Personality, Place, Sending, CELLS, ESC};
use crate::transcript::Line;

const COMMANDS: [u8; 8] = *b" /4567?b";
/// Stretches of marked cells, so that ESC 5 from cell 165 has thirteen bytes.
const STRETCHES: [(usize, usize); 4] = [(0, 78), (80, 80), (160, 1), (163, 2)];
const CURSOR: u16 = 165;

impl Book {
    pub(super) fn narrow_sends(&mut self) {
        self.every_room();
        self.narrow_lines();
        self.own_bytes();
        self.runs_during_sends();
        self.keys_during_sends();
        self.pages_changed_in_the_middle();
        self.states_changed_in_the_middle();
        self.places_handed_in();
        self.lists_during_sends();
    }

    fn narrow_form(&mut self) {
        self.fill(0, CELLS, b'a' as u16);
        for (index, count) in STRETCHES {
            self.fill(index, count, b'L' as u16 | 128);
        }
        self.cursor(0, CURSOR);
    }

    fn sending(&mut self, command: u8, place: Place) {
        self.line(Line::Sending(Some(Sending { command, place })));
    }

    fn every_room(&mut self) {
        for command in COMMANDS {
            self.case("A9: a reply begun in every small room, then gone on with");
            self.narrow_form();
            let rooms = (0..=14).chain([79, 80, 81, 82, 160, 161, 162, 163, 167, 168, 169]);
            for room in rooms {
                self.run_in(&[ESC, command, b'\x07'], room);
                self.step_in(b'\x07', 1);
                self.run_in(b"\x07", 2);
                self.pending(b"");
            }
            self.step_in(ESC, 0);
            self.step_in(command, 1);
            for _ in 0..14 {
                self.step_in(b'\x07', 1);
            }
        }
        for personality in [Personality::Wy50, Personality::Wy60] {
            self.line(Line::On(Some(personality)));
            self.run_in(b"\x1b ", 1);
            self.run_in(b"", 1);
            self.run_in(b"", 1);
        }
        self.case("A9: replies of one byte leave no place");
        self.run_in(b"\x05", 0);
        self.run_in(b"\x05", 1);
        self.run_in(b"\x1bM", 0);
        self.run_in(b"M", 1);
        self.case("A9: 3 and 4 come before 6");
        self.form(&[]);
        self.run_in(b"\x1bM\x1b}\x1bM", 0);
    }

    fn narrow_lines(&mut self) {
        for command in *b"57" {
            self.case("A9: a whole page by 64 bytes at a time");
            self.line(Line::Noise {
                seed: 9,
                mask: 0x007F,
                share: 100,
            });
            self.cursor(0, CELLS as u16 - 1);
            self.run_in(&[ESC, command], 64);
            for _ in 0..31 {
                self.run_in(b"", 64);
            }
        }
        self.case("A9: power-on ends a send");
        self.run_in(b"\x1b7", 1);
        self.line(Line::On(None));
        self.run(b"A");
    }

    fn own_bytes(&mut self) {
        self.case("A9: which steps take their own byte");
        for (byte, room) in [
            (b'A', 0),
            (0xFF, 0),
            (ESC, 0),
            (b'^', 0),
            (ESC, 0),
            (b'}', 0),
        ] {
            self.step_in(byte, room);
        }
        self.step_in(0x05, 0);
        self.step_in(0x05, 1);
        self.form(&[]);
        self.step_in(b'A', 0);
        for byte in [b'A', 0x05, ESC, 0x80, 0xFF] {
            self.pending(b"\x1b");
            self.step_in(b'b', 3);
            self.step_in(byte, 0);
            self.step_in(byte, 1);
            self.step_in(byte, 10);
            self.step_in(byte, 10);
        }
        self.sending(b'b', Place::Byte(1));
        self.line(Line::Split(1));
        self.step_in(b'A', 0);
        self.run_in(b"", 0);
    }

    fn runs_during_sends(&mut self) {
        self.case("A9: runs that start inside a send");
        self.narrow_form();
        for input in [
            &b""[..],
            b"\x07\x07",
            b"\x80\x07",
            b"\x07\x05\x07",
            b"\x1b?\x07",
            b"\x1b4\x07",
        ] {
            for room in 0..=9 {
                self.sending(b'5', Place::Cell(161));
                self.run_in(input, room);
            }
            self.run_in(input, 100);
        }
        self.case("A9: a run that ends exactly with the room, and one that does not");
        for room in 0..=11 {
            self.run_in(b"\x1b?\x1b b\x1b/\x07A", room);
            self.pending(b"");
        }
        self.case("A9: refused bytes of a run that begins a send");
        self.run_in(b"\xff\x1b^\x1b7AB", 1);
        self.run_in(b"\xffAB", 1);
        self.run_in(b"\xffAB", 0);
    }

    fn keys_during_sends(&mut self) {
        self.case("A9: key presses during a send");
        self.run(b"\x1bz@hi\x7f");
        self.run_in(b"\x1b ", 1);
        for (value, room) in [(0x40, 9), (0x40, 0), (0x41, 9), (0x20, 0), (0xFF, 9)] {
            self.press_in(value, room);
        }
        self.line(Line::Mode { mode: 4, on: true });
        self.press_in(0x40, 9);
        self.press_in(0x20, 9);
        self.line(Line::Split(1));
        self.press_in(0x20, 9);
        self.line(Line::Split(0));
        self.line(Line::Mode { mode: 4, on: false });
        self.run_in(b"", 9);
        self.press_in(0x40, 9);
    }

    fn pages_changed_in_the_middle(&mut self) {
        for command in *b"457" {
            for changed in 160..=164 {
                self.case("A9: a cell marked or unmarked while a send is under way");
                for place in [161, 162, 163, 164] {
                    for value in [b'x' as u16, b'x' as u16 | 128] {
                        self.narrow_form();
                        self.sending(command, Place::Cell(place));
                        self.cell(changed, value);
                        self.run_in(b"", 3);
                    }
                }
            }
        }
        self.case("A9: the page cleared and filled while a send is under way");
        self.narrow_form();
        self.run_in(b"\x1b5", 4);
        self.fill(0, CELLS, b'L' as u16 | 128);
        self.run_in(b"", 2);
        self.fill(0, CELLS, 0);
        self.run_in(b"", 2);
        self.run_in(b"", 2);
        self.run_in(b"", 200);
    }

    fn states_changed_in_the_middle(&mut self) {
        self.case("A9: the cursor moved by the caller while a send is under way");
        for (command, place) in [
            (b'5', Place::Cell(161)),
            (b'5', Place::RowMark(160)),
            (b'4', Place::Cell(161)),
            (b'7', Place::Cr),
            (b'?', Place::Byte(1)),
            (b'b', Place::Byte(2)),
        ] {
            for cursor in [79, 159, 160, 161, 170, 240] {
                self.narrow_form();
                self.sending(command, place);
                self.cursor(0, cursor);
                self.run_in(b"", 10);
            }
        }
        self.case("A9: segments while a send is under way");
        self.narrow_form();
        self.line(Line::Split(2));
        self.line(Line::Active(1));
        for cursor in [80, 165] {
            self.cursor(0, 79);
            self.cursor(1, cursor);
            for place in [
                Place::Cell(79),
                Place::RowMark(80),
                Place::Cell(80),
                Place::Cell(81),
                Place::RowMark(160),
                Place::Cr,
            ] {
                self.sending(b'7', place);
                self.run_in(b"", 4);
            }
        }
        self.run_in(b"\x1b/", 2);
        self.line(Line::Active(0));
        self.run_in(b"", 1);
        self.run_in(b"", 1);
    }

    fn places_handed_in(&mut self) {
        self.case("A9: places that are possible, and others");
        self.narrow_form();
        for command in *b" ?/b" {
            for sent in [0, 1, 2, 3, 4, 6, 7, 255] {
                self.sending(command, Place::Byte(sent));
                self.step_in(b'A', 0);
            }
        }
        let cells = [0, 1, 79, 80, 159, 160, 161, 165, 166, 1919, 1920, 65535];
        let rows = [0, 80, 160, 240, 1920, 65520];
        for command in *b"4567" {
            let places = cells.map(Place::Cell).into_iter();
            for place in places.chain(rows.map(Place::RowMark)).chain([Place::Cr]) {
                self.sending(command, place);
                self.step_in(b'A', 0);
            }
        }
        self.case("A9: from the first cell of a row");
        self.cursor(0, 160);
        for command in *b"4567" {
            for place in [Place::Cell(160), Place::RowMark(160), Place::Cr] {
                self.sending(command, place);
                self.run_in(b"A", 1);
            }
        }
        self.case("A9: a sequence and a send are not under way together");
        self.pending(b"\x1b=%");
        self.sending(b'?', Place::Byte(1));
        self.step_in(b'A', 0);
        self.pending(b"\x1b=%");
        self.step_in(b'%', 0);
        self.sending(b'?', Place::Byte(1));
        self.line(Line::Sending(None));
        self.step_in(b'A', 0);
    }

    fn lists_during_sends(&mut self) {
        self.case("A9: calls with the row list during a send");
        self.narrow_form();
        self.protect(true);
        self.line(Line::Rebuild);
        for room in [0, 3, 0, 1, 100] {
            self.line(Line::ListStep { byte: ESC, room: 0 });
            self.line(Line::ListStep { byte: b'5', room });
            let bytes = b"\x07".to_vec();
            self.line(Line::ListRun { bytes, room });
        }
        self.sending(b'5', Place::Cr);
        self.protect(false);
        self.line(Line::ListStep {
            byte: b'A',
            room: 9,
        });
        self.line(Line::Rebuild);
        self.line(Line::ListStep {
            byte: b'A',
            room: 9,
        });
    }
}
