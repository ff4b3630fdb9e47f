//! Saved set-ups.

use super::book::{key_line, Book};
use crate::setups::{PLACE, STORE};
use crate::state::{Personality, Place, Sending};
use crate::transcript::Line;

/// Where the set-up of the first place begins.
const SETUP: usize = 4;

impl Book {
    pub(super) fn setups(&mut self) {
        self.saves();
        self.settings_saved();
        self.restores();
        self.restores_leave_the_rest();
        self.numbers();
        self.damaged_stores();
        self.damaged_setups();
        self.setups_of_impossible_states();
    }

    fn save(&mut self) {
        self.line(Line::Save);
    }

    fn restore(&mut self, number: u16) {
        self.line(Line::Restore(number));
    }

    fn new_store(&mut self) {
        self.line(Line::Store(STORE));
    }

    fn bytes(&mut self, changes: &[(usize, u8)]) {
        for &(index, value) in changes {
            self.line(Line::Byte { index, value });
        }
    }

    fn saves(&mut self) {
        self.case("A10: saves from power-on, numbered from 1");
        for number in 0..=10 {
            self.restore(number.min(1));
            self.save();
        }
        self.line(Line::On(None));
        self.save();
        self.case("A10: a shorter set-up over a longer one");
        self.new_store();
        for _ in 0..8 {
            self.run(b"\x1bz@12345678\x7f\x1bzP12345678\r");
            self.save();
        }
        self.run(b"\x1bz@\x7f\x1bzP\r");
        for _ in 0..8 {
            self.save();
        }
    }

    fn settings_saved(&mut self) {
        self.case("A10: each setting saved alone");
        self.new_store();
        for commands in [
            &b"\x1b1"[..],
            b"\x1b=\x20\x6f\x1b1",
            b"\x1b=\x25\x30\x1b1",
            b"\x1b0\x1b`0",
            b"\x1b`2\x1b`8",
            b"\x1b`6",
            b"\x1b`A\x1b`<",
            b"\x1b`?",
            b"\x1bA0 \x1bA3~",
            b"\x1bz@a\rb\x1b\x00\x7f",
            b"\x1bzoxyz\x7f\x1bzO \x7f",
            b"\x1bz0 ~\r",
            b"\x1bzW12345678\r",
            b"\x1bFhi\r\x1b&\x1b)\x1bq\x1bN\x0f\x1bk\x07",
        ] {
            self.run(commands);
            self.save();
        }
        for personality in [Personality::Wy50, Personality::Wy60] {
            self.line(Line::On(Some(personality)));
            self.comment("A10: the longest set-up");
            for column in 0..80 {
                self.line(Line::Tab { column, on: true });
            }
            for key in 0..32 {
                self.line(key_line(key, b"\x7e2345678"));
            }
            for label in 0..16 {
                let bytes = b"12345678".to_vec();
                self.line(Line::Label { label, bytes });
            }
            self.save();
            self.line(Line::On(Some(personality)));
            self.restore(15 + (personality == Personality::Wy60) as u16);
        }
    }

    fn restores(&mut self) {
        self.case("A10: older numbers restored, later ones kept");
        self.new_store();
        for letter in b'a'..=b'j' {
            self.run(
                &[
                    b"\x1bz@",
                    &[letter][..],
                    b"\x7f\x1bz7",
                    &[letter],
                    b"\r\x0c\x1b1",
                ]
                .concat(),
            );
            self.save();
        }
        for number in (0..=12).rev() {
            self.restore(number);
        }
        self.save();
        self.restore(10);
        self.restore(3);
        self.restore(4);
    }

    fn restores_leave_the_rest(&mut self) {
        for personality in [Personality::Wy50, Personality::Wy60] {
            self.comment("A10: a restore sets only the settings");
            self.line(Line::On(Some(personality)));
            self.new_store();
            self.run(b"\x1b1\x1b`0\x1bA14\x1bz@k\x7f\x1bzPl\r");
            self.save();
            self.line(Line::On(Some(personality)));
            self.run(b"\x1bx1\x26\x1b)AB\x1b(\x1b}CD\x1bFhi\r\x1b&\x1bq\x1bN\x1bk\x0f\x07\x1bG5");
            self.run(b"\x1bzQm\r\x1bz\x7f\x1bzAn\x7f\x0c\x1b1\x1b`2");
            self.restore(1);
            self.show();
        }
        self.case("A10: labels restored do not turn the line on or off");
        self.new_store();
        self.run(b"\x1bzPa\r");
        self.save();
        self.run(b"\x1bzP\r\x1bz\x7f");
        self.save();
        self.restore(1);
        self.line(Line::Shifted(true));
        self.restore(2);
        self.case("A10: during a sequence and during a send");
        self.new_store();
        for sequence in [
            &b"\x1b"[..],
            b"\x1b=%",
            b"\x1bz@ab",
            b"\x1bFhi",
            b"\x1ba12R",
        ] {
            self.pending(sequence);
            self.save();
            self.restore(1);
        }
        self.line(Line::Sending(Some(Sending {
            command: b'?',
            place: Place::Byte(1),
        })));
        self.save();
        self.restore(2);
        self.run_in(b"", 2);
        self.case("A10: the page is not looked at");
        self.line(Line::Length(5));
        self.save();
        self.restore(6);
    }

    fn numbers(&mut self) {
        self.case("A10: numbers up to 65,535");
        self.new_store();
        for _ in 0..8 {
            self.save();
        }
        for last in [255, 256, 65533_u16] {
            let [low, high] = last.to_le_bytes();
            self.bytes(&[(0, low), (1, high)]);
            self.restore(last);
            self.restore(last - 7);
            self.restore(last - 8);
            self.save();
        }
        self.save();
        self.save();
        self.save();
        for number in [0, 1, 65527, 65528, 65535] {
            self.restore(number);
        }
    }

    fn damaged_stores(&mut self) {
        self.case("A10: stores of a wrong length");
        for length in [0, 1, 2, PLACE, STORE - 1, STORE + 1] {
            self.line(Line::Store(length));
            self.save();
            self.restore(0);
        }
        self.case("A10: stores that no saves could leave");
        for changes in [
            &[(0, 1)][..],
            &[(1, 1)],
            &[(2, 1)],
            &[(STORE - 1, 1)],
            &[(2 + PLACE, 1)],
        ] {
            self.new_store();
            self.bytes(changes);
            self.save();
            self.restore(1);
        }
        for changes in [
            &[(0, 0)][..],
            &[(0, 2)],
            &[(0, 8)],
            &[(0, 9)],
            &[(2, 222)],
            &[(2, 224)],
            &[(3, 1)],
            &[(2, 64), (3, 4)],
            &[(2, 255), (3, 255)],
            &[(SETUP + 223, 1)],
            &[(2 + PLACE - 1, 1)],
            &[(2 + 3 * PLACE, 1)],
        ] {
            self.new_store();
            self.save();
            self.bytes(changes);
            self.save();
            self.restore(1);
        }
    }

    fn damaged_setups(&mut self) {
        self.case("A10: set-ups with one byte changed");
        self.run(b"\x1b1\x0c\x0c\x1b1\x1bz@ab\x7f\x1bz0cd\r");
        self.new_store();
        self.save();
        for (offset, value) in [
            (0, 0x1A),
            (1, b'-'),
            (2, 0x21),
            (3, 0x21),
            (3, 0x22),
            (3, 0x23),
            (3, 0x70),
            (3, 0xA0),
            (5, b'2'),
            (9, 0x20),
            (9, 0x6F),
            (14, b'0'),
            (14, b'2'),
            (14, b':'),
            (17, b'2'),
            (23, b'8'),
            (20, b'A'),
            (26, b'<'),
            (26, b'A'),
            (29, b'1'),
            (30, b' '),
            (30, b'!'),
            (30, 0x7E),
            (30, 0x7F),
            (45, b'A'),
            (46, 0x00),
            (46, 0x0D),
            (46, 0x7F),
            (46, 0x80),
            (47, 0x7F),
            (48, b'c'),
        ] {
            self.bytes(&[(SETUP + offset, value)]);
            self.restore(1);
            self.save();
            self.new_store();
            self.run(
                b"\x1b0\x1e\x1b1\x0c\x0c\x1b1\x1b`1\x1b`5\x1b`7\x1b`9\x1b`@\x1bA00\x1bz@ab\x7f",
            );
            self.save();
        }
    }

    fn setups_of_impossible_states(&mut self) {
        self.case("A10: an impossible state comes first");
        self.new_store();
        self.save();
        self.line(Line::Split(1));
        self.save();
        self.restore(1);
        self.line(Line::Store(5));
        self.save();
        self.restore(9);
        self.line(Line::Split(0));
        self.save();
        self.restore(9);
        self.new_store();
    }
}
