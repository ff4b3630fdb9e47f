//! What commands leave as it is.

use super::book::Book;
use crate::transcript::Line;

/// Commands that move no cursor, so that none of them settles it.
const SETTLING_NOTHING: [&[u8]; 36] = [
    b"\x1b1",
    b"\x1b2",
    b"\x1b0",
    b"\x1bA04",
    b"\x1bA3 ",
    b"\x1b`0",
    b"\x1b`4",
    b"\x1b`A",
    b"\x1b`8",
    b"\x1b`<",
    b"\x1b`:",
    b"\x1b`;",
    b"\x1b)",
    b"\x1b(",
    b"\x1bN",
    b"\x1bO",
    b"\x1bq",
    b"\x1br",
    b"\x1bk",
    b"\x1bl",
    b"\x1b#",
    b"\x1b\"",
    b"\x0f",
    b"\x0e",
    b"\x07",
    b"\x00",
    b"\x7f",
    b"\x05",
    b"\x1b ",
    b"\x1b?",
    b"\x1b5",
    b"\x1bFm\r",
    b"\x1bz@k\x7f",
    b"\x1bzPl\r",
    b"\x1bz\x7f",
    b"\x1b'",
];

impl Book {
    pub(super) fn leaving(&mut self) {
        self.modes_left();
        self.texts_left();
        self.remembered_left();
        self.cursors_left();
    }

    fn modes_left(&mut self) {
        for clearing in *b"*+,;:" {
            self.case("clearing leaves every mode, but that ESC , turns protect off");
            for mode in 0..6 {
                self.line(Line::Mode {
                    mode,
                    on: mode != 3,
                });
            }
            self.run(&[0x1b, clearing]);
            self.run(b"A");
        }
        self.case("CR and the other moves leave insert mode");
        self.run(b"abc\x1bq");
        for code in *b"\x0d\x08\x09\x0a\x0b\x0c\x1e\x1f" {
            self.step(code);
        }
        self.run(b"\rX\x1b=\x20\x22Y\x1b{\x1bI\x1bi\x1bj");
        self.show();
    }

    fn texts_left(&mut self) {
        self.case("texts of keys, labels and the message leave one another");
        self.run(b"\x1bFhost\r\x1bz@key\x7f\x1bz0label\r\x1bzPshifted\r");
        for text in [
            &b"\x1bzAother\x7f"[..],
            b"\x1bz@\x7f",
            b"\x1bzA123456789\x7f",
            b"\x1bz@key\x7f",
            b"\x1bz1other\r",
            b"\x1bz0\r",
            b"\x1bz1123456789\r",
            b"\x1bz\x7f",
            b"\x1bFother\r",
            b"\x1bF\x01\r",
            b"\x1bF\r",
        ] {
            self.run(text);
        }
    }

    fn remembered_left(&mut self) {
        for clearing in [
            &b"\x1b*"[..],
            b"\x1b+",
            b"\x1b,",
            b"\x1b:",
            b"\x1b;",
            b"\x1a",
            b"\x1b.x",
        ] {
            self.case_60("clearing leaves the remembered attribute");
            self.run(b"\x1bG8a");
            self.run(clearing);
            self.run(b"b\x1bGtc");
            self.run(clearing);
            self.run(b"d\x1bx1\x2c\x1b}\x1bE\x1bx0e");
            self.show();
        }
    }

    fn cursors_left(&mut self) {
        self.case("a cursor on a label stays there where nothing moves it");
        for command in SETTLING_NOTHING {
            self.form(&[(85, 5)]);
            self.cursor(0, 20);
            self.run(command);
        }
        self.case("and so it does in the lower segment");
        self.line(Line::Split(3));
        self.line(Line::Active(1));
        for command in SETTLING_NOTHING {
            self.form(&[(85, 5), (300, 5)]);
            self.cursor(1, 200);
            self.run(command);
        }
        self.run(b"\x1b&");
    }
}
