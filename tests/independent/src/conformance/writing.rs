//! Corners of writing, clearing and replies.

use super::book::Book;
use crate::state::{CELLS, ESC};

impl Book {
    pub(super) fn writing_corners(&mut self) {
        self.case("corner 45: a cell stored under write-protect is guarded at once");
        self.form(&[(80, 1)]);
        self.cursor(0, 80);
        self.run(b"\x1b)");
        self.step(b'A');
        self.step(b'B');
        self.case("corner 46: insert mode measures the run first");
        self.form(&[(80, 1), (100, 4)]);
        self.cursor(0, 100);
        self.run(b"\x1bq\x1b)AB");
        self.cursor(0, 80);
        self.step(b'C');
        self.show();
        self.case("insert mode with attributes and graphics");
        self.run(b"abc\x1e\x1bqX\x1bG4\x1bH5\x1bG \x1bG!");
        self.show();
        self.case("corner 47: protect off, protected cells are open");
        self.fill(0, 200, 0x00C1);
        self.run(b"x\x1bQ\x1bW\x1bT\x0a\x1bV");
        self.show();
        self.run(b"\x1b;");
        self.case("corners 48 and 49: clearing and shifting settle nothing");
        self.form(&[(85, 5)]);
        for byte in *b"TtYyQW" {
            self.cursor(0, 20);
            self.steps(&[ESC, byte]);
            self.cursor(0, 86);
            self.steps(&[ESC, byte]);
        }
        self.show();
        self.case("clearing that goes home settles");
        self.form(&[(85, 5)]);
        for clearing in [
            &b"\x1a"[..],
            b"\x1b;",
            b"\x1b:",
            b"\x1b.x",
            b"\x1b!0",
            b"\x1b! ",
        ] {
            self.cursor(0, 87);
            self.run(clearing);
            self.show();
        }
        for byte in *b"*+," {
            self.case("corners 50 and 51: clear all and protect mode");
            self.form(&[(85, 5)]);
            self.cursor(0, 86);
            self.steps(&[ESC, byte]);
            self.show();
        }
        self.case("corner 52: clearing writes unprotected whatever write-protect says");
        self.run(b"\x1b)\x1b:");
        for byte in *b";:tTyYQWER*+" {
            self.run(&[b'A', ESC, byte]);
        }
        self.run(b"\x1b.x\x1b!0");
        self.show();
        self.case("corner 53: the attribute 20h is a text space");
        self.run(b"\x1bG \x1bM");
        self.run(b"\x1b! ");
        self.show();
        for code in 0x00..=0x7F {
            self.case(&format!("corner 54: ESC . {code:02x} over the open cells"));
            self.run(b"AB");
            self.run(&[ESC, b'.', code]);
        }
        self.case("corner 55: feature codes 3Ah and 3Bh");
        self.steps(b"\x1b`:\x1b`;");
        self.case("corner 56: ESC M replies one byte");
        self.run(b"A\x08\x1bM");
        self.run(b"\x1bG0\x08\x1bM\x1bH0\x08\x1bM");
        self.case("text cells of every code sent");
        for code in 0x00..=0x7F {
            self.cell(code as usize, code);
        }
        for cell in [0x00, 0x1F, 0x20, 0x7E, 0x7F] {
            self.cursor(0, cell);
            self.run(b"\x1bM");
        }
        for byte in *b"4567" {
            self.run(&[ESC, byte]);
        }
        self.case("corner 57: sending with guarded cells left out");
        self.form(&[(2, 3), (170, 2), (250, 5)]);
        for cursor in [0, 3, 79, 80, 171, 252, 400] {
            self.cursor(0, cursor);
            for byte in *b"4567" {
                self.run(&[ESC, byte]);
            }
        }
        self.case("corner 58: sending starts at the segment's home");
        self.fill(0, CELLS, b'a' as u16);
        self.run(b"\x1bx1\x26\x1b}\x0a\x0c\x1b5\x1b7\x1b]\x0a\x1b5\x1b7");
        self.case("corner 59: ESC b has two and three digits");
        self.run(b"\x1bb\x1ba9R9C\x1bb\x1ba10R10C\x1bb");
        self.run(b"\x1bx1\x26\x1b}\x1bb");
        self.case("corner 60: high bytes inside a key text");
        self.steps(b"\x1bz\x80A\x80b\xffc\xff\x7f");
        self.press(0x41);
    }
}
