//! Corners of moves.

use super::book::{on_or_off, Book};
use crate::transcript::Line;

impl Book {
    pub(super) fn move_corners(&mut self) {
        self.case("corner 29: settling goes round the segment, the place first");
        self.form(&[(100, 3)]);
        for start in [0, 99, 100, 102, 103, 1919] {
            self.cursor(0, start);
            self.run(b"\x1b&");
        }
        self.case("corner 30: 08h from a guarded cell with none open before");
        self.form(&[(100, 3)]);
        for start in [50, 100, 101, 103] {
            self.cursor(0, start);
            self.step(0x08);
        }
        self.case("corner 30: every move that stays settles");
        self.form(&[(100, 3)]);
        for moves in [
            &b"\x0d"[..],
            b"\x1bj",
            b"\x1b]",
            b"\x1e",
            b"\x1b{",
            b"\x1ba1R1C",
        ] {
            self.cursor(0, 0);
            self.run(moves);
        }
        self.case("corner 31: 08h does not wrap");
        self.step(0x08);
        self.run(b"\x1bx1\x22\x1b}\x08");
        self.run(b"\x0a\x08");
        self.case("corner 32: 0Ch at the last cell goes home");
        self.run(b"A\x1b=\x37\x6f\x0c");
        self.case("corner 33: ESC j scrolls at the top unless protect is on");
        self.run(b"A\x1bN\x1bj");
        self.run(b"\x1b&\x1bj");
        self.show();
        self.case("corner 34: tab, the cursor's own cell last");
        self.form(&[(100, 3)]);
        for start in [0, 100, 101, 1919] {
            self.cursor(0, start);
            self.step(0x09);
        }
        self.case("corner 34: tab over fields and without any");
        self.form(&[(0, 2), (100, 3), (1919, 1)]);
        self.steps(b"\x09\x09\x09\x09");
        self.form(&[]);
        self.cursor(0, 700);
        self.step(0x09);
        self.case("corner 35: a field follows a guarded cell across rows, not segments");
        self.form(&[(80, 5), (150, 170)]);
        self.steps(b"\x09\x09\x09");
        self.line(Line::Split(3));
        self.cursor(1, 200);
        self.line(Line::Active(1));
        self.steps(b"\x09\x09");
        self.field_at_the_split();
        self.case("corner 36: back tab over fields and without any");
        self.form(&[(2, 2), (100, 3), (1900, 2)]);
        self.cursor(0, 101);
        self.run(b"\x1bI");
        self.run(b"\x1bI");
        self.run(b"\x1bI");
        self.form(&[(100, 3)]);
        self.cursor(0, 100);
        self.run(b"\x1bI");
        self.form(&[]);
        self.cursor(0, 700);
        self.run(b"\x1bI");
        self.case("corner 37: tab stops with protect off, fields with protect on");
        self.line(Line::Tab {
            column: 10,
            on: true,
        });
        self.line(Line::Tab {
            column: 79,
            on: true,
        });
        self.fill(0, 5, 160);
        self.steps(b"\x09\x09\x09");
        self.run(b"\x1bI\x1bI\x1bI");
        self.run(b"\x1b&\x09");
        self.case("corners 38 to 40: activating unsplit");
        self.fill(0, 5, 160);
        self.protect(true);
        self.run(b"\x1bJ\x1bK");
        self.steps(b"\x1b]");
        self.steps(b"\x1b}");
        self.steps(b"\x1b-0\x21\x21");
        self.steps(b"\x1b-1\x21\x21");
        self.case("corner 41: what is so already is done in full");
        self.run(b"\x1bx1\x2cAB\x1b}CD\x1b}");
        self.run(b"\x1bx1\x2c");
        self.run(b"\x1b}CD\x1bx0");
        self.run(b"CD\x1bx0");
        self.case("corner 42: the inactive cursor is settled when its turn comes");
        self.run(b"\x1bx1\x2c");
        self.form(&[(85, 1), (1000, 1)]);
        self.run(b"\x1b&");
        self.run(b"\x1bJ");
        self.run(b"\x1bx1\x2c");
        self.run(b"\x1bK");
        self.case("corner 43: the split row counts from the page's top");
        self.run(b"\x1bx1\x2c\x1b}\x1bx1\x2e\x1b}\x1b/");
        self.case("corner 44: protect on when on already settles");
        self.form(&[(85, 1)]);
        self.run(b"\x1b&");
        self.lines_and_rows();
    }

    /// One field over the split and one below it, so that a start missed shows.
    fn field_at_the_split(&mut self) {
        for split in [0, 3] {
            self.case(&format!(
                "corner 35: the first cell of a segment is a field start, split row {split}"
            ));
            self.form(&[(0, 5), (150, 170), (400, 5)]);
            self.line(Line::Split(split));
            self.cursor(1, 402);
            self.line(Line::Active((split > 0) as u8));
            self.cursor(0, if split > 0 { 3 } else { 402 });
            self.steps(b"\x09\x09\x09");
            self.run(b"\x1bI");
            self.run(b"\x1bI");
            self.run(b"\x1bI");
            self.run(b"\x1b]\x09");
            self.run(b"\x09");
            self.run(b"\x09\x1bI");
            self.run(b"\x1bI");
        }
    }

    fn lines_and_rows(&mut self) {
        self.rows_of_the_lower_segment();
        for (autoscroll, protect) in [(true, false), (false, false), (true, true), (false, true)] {
            self.case(&format!(
                "top and bottom of a segment, autoscroll {}, protect {}",
                on_or_off(autoscroll),
                on_or_off(protect)
            ));
            self.line(Line::Noise {
                seed: 7,
                mask: 0x7F,
                share: 32,
            });
            self.line(Line::Mode {
                mode: 3,
                on: autoscroll,
            });
            self.run(b"\x1bx1\x26");
            self.protect(protect);
            for byte in *b"\x0a\x1f\x0bA" {
                self.run(b"\x1b=\x25\x6f");
                self.step(byte);
                self.run(b"\x1b=\x20\x25");
                self.step(byte);
            }
            self.run(b"\x1b=\x20\x25\x1bj");
            self.run(b"\x1b=\x22\x25\x1bE");
            self.run(b"\x1b=\x21\x25\x1bR");
            self.show();
        }
    }

    fn rows_of_the_lower_segment(&mut self) {
        let (top, middle, bottom) = (0x20, 0x28, 0x33);
        for (row, command) in [
            (bottom, &b"\x0a"[..]),
            (bottom, b"\x1f"),
            (bottom, b"A"),
            (top, b"\x1bj"),
            (middle, b"\x1bE"),
            (middle, b"\x1bR"),
        ] {
            self.case("rows of segment 1 alone are shifted");
            self.line(Line::Noise {
                seed: 11,
                mask: 0x7F,
                share: 32,
            });
            self.run(&[b"\x1bx1\x24\x1b}\x1b=", &[row, 0x6F][..]].concat());
            self.run(command);
            self.show();
        }
    }
}
