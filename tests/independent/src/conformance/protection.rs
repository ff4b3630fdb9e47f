//! Corners of protection.

use super::book::Book;
use crate::state::{CELLS, ESC};
use crate::transcript::Line;

impl Book {
    pub(super) fn protection_corners(&mut self) {
        for label in [0x00C1, 0xFFFF] {
            self.case("corners 61 and 62: a refused ESC 6 and ESC 7, whatever the labels hold");
            self.fill(0, CELLS, label);
            self.fill(85, 10, b'.' as u16);
            self.protect(true);
            self.run(b"\x1b&");
            self.step_in(ESC, 0);
            self.step_in(b'6', 0);
            self.step_in(b'7', 0);
            self.step_in(b'?', 5);
            self.run_in(b"\x1b7", 0);
            self.step_in(b'5', 80);
            self.show();
        }
        self.case("corner 63: an impossible start answers 7 throughout");
        self.form(&[(85, 10)]);
        self.line(Line::Split(1));
        self.run(b"A\x1b?");
        self.step(0xFF);
        self.press(0x40);
        self.show();
    }
}
