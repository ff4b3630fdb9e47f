//! Sends: fields parted by FS.

use super::book::Book;
use crate::state::{CELLS, ESC};
use crate::transcript::Line;

/// Labels as first cell and length.
const STRETCHES: [&[(usize, usize)]; 9] = [
    &[],
    &[(0, 1)],
    &[(0, 80)],
    &[(79, 1)],
    &[(1, 3), (5, 1), (7, 2)],
    &[(0, 3), (4, 76)],
    &[(70, 20)],
    &[(0, 240)],
    &[(60, 40), (120, 80), (239, 1)],
];

impl Book {
    pub(super) fn sends(&mut self) {
        self.stretches();
        self.sends_with_protect_off();
        self.longest_sends_with_marks();
        self.sends_in_segments();
    }

    /// Letters, with these stretches marked protected.
    fn letters_with(&mut self, stretches: &[(usize, usize)]) {
        self.fill(0, CELLS, b'a' as u16);
        for &(index, count) in stretches {
            self.fill(index, count, b'L' as u16 | 128);
        }
    }

    fn stretches(&mut self) {
        for protect in [true, false] {
            for stretches in STRETCHES {
                self.case("A2, A7: each longest stretch of marked cells within a row is one FS");
                self.letters_with(stretches);
                self.protect(protect);
                for cursor in [0, 1, 2, 5, 71, 79, 80, 81, 159, 160, 239, 240, 400] {
                    self.cursor(0, cursor);
                    self.run(b"\x1b4");
                    self.run(b"\x1b5");
                }
                self.run(b"\x1b6\x1b7");
                self.run(b"\x1bM");
            }
        }
        self.case("A2: what stands in a guarded cell is not looked at");
        self.letters_with(&[(3, 1)]);
        for (index, value) in [(2, 0x03C1), (3, 0x01B0), (4, 0xFFFF), (6, 0x0080)] {
            self.cell(index, value);
        }
        self.protect(true);
        self.cursor(0, 9);
        self.run(b"\x1b4\x1b5\x1b6");
        self.case("A2: fields typed on a form do not run together");
        self.run(b"\x1b)Roast: \x1b(     \x1b)Date: \x1b(     \x1b)!\x1b(\x1b&");
        self.run(b"\x1edark \x0918/07\x1b4");
        self.run(b"\x1b5");
        for room in 0..=16 {
            self.step_in(ESC, 0);
            self.step_in(b'4', room);
            self.pending(b"");
        }
    }

    fn sends_with_protect_off(&mut self) {
        self.case("A7: ESC 5 just after protect off gets no labels");
        self.run(b"\x1b)Roast: \x1b(dark \x1b)Date: \x1b(18/07\x1b&");
        self.run(b"\x1b'\x1b5\x1b4");
        self.run(b"\x1b6\x1b7");
        self.case("A7: the cursor's own cell, marked, is left out and read by ESC M");
        self.letters_with(&[(4, 3)]);
        for protect in [false, true] {
            self.protect(protect);
            self.cursor(0, 5);
            self.run(b"\x1b4\x1b5");
            self.step(ESC);
            self.step(b'M');
        }
        self.case("A7: marks made with protect off are left out at once");
        self.run(b"ab\x1b)cd\x1b(e\x1b4");
        self.run(b"\x1b,\x1b4\x1b5");
        self.run(b"\x1b+\x1b4\x1b5");
        self.run(b"\x0c\x0c\x1bV\x0c\x1b4");
        self.case("A7: all else still goes by guarded");
        self.letters_with(&[(0, 3), (5, 2)]);
        for commands in [
            &b"x"[..],
            b"\x0c",
            b"\x08",
            b"\x1bQ",
            b"\x1bW",
            b"\x1b&\x09",
            b"\x1b'\x09",
            b"\x1b;",
        ] {
            self.run(commands);
            self.run(b"\x1b5");
        }
    }

    fn longest_sends_with_marks(&mut self) {
        for (protected, title) in [
            (0, "every other cell from the first"),
            (1, "every other cell from the second"),
        ] {
            self.case(&format!("A2: the longest send, guarded {title}"));
            self.fill(0, CELLS, b'a' as u16);
            for index in (protected..CELLS).step_by(2) {
                self.cell(index, b'L' as u16 | 128);
            }
            self.protect(true);
            self.cursor(0, CELLS as u16 - 1);
            self.run_in(b"\x1b5", 1943);
            self.line(Line::Pending {
                bytes: vec![],
                spoilt: false,
            });
            self.run_in(b"\x1b5", 1944);
        }
        self.case("A2: a page guarded everywhere");
        self.letters_with(&[(0, CELLS)]);
        self.protect(true);
        self.cursor(0, CELLS as u16 - 1);
        self.run(b"\x1b4");
        self.run(b"\x1b5");
    }

    fn sends_in_segments(&mut self) {
        self.case("A2: a stretch that goes on over the split begins again in segment 1");
        self.letters_with(&[(150, 20), (330, 4)]);
        self.protect(true);
        self.line(Line::Split(3));
        self.line(Line::Active(1));
        for cursor in [160, 169, 170, 331, 335] {
            self.cursor(1, cursor);
            self.run(b"\x1b4\x1b5");
        }
        self.line(Line::Active(0));
        self.cursor(0, 159);
        self.run(b"\x1b4\x1b5");
    }
}
