//! The bench list and the slips to shut out.

use super::book::Book;
use crate::state::{CELLS, ESC};

impl Book {
    pub(super) fn bench_list(&mut self) {
        self.case("bench 1: cursor address after AB");
        self.run(b"AB\x1b?");
        self.case("bench 2: the last cell filled scrolls");
        self.run(b"\x1b=\x37\x6fX");
        self.run(b"\x1b?");
        self.show();
        self.case("writing on across row ends scrolls at the segment's end alone");
        self.run(b"\x1b=\x20\x6fAB\x1b=\x36\x6fCD\x1b=\x37\x6fEF");
        self.show();
        self.run(b"\x1bx1\x22\x1b=\x21\x6fGH\x1b}\x1b=\x35\x6fIJ");
        self.show();
        self.case("bench 3: row and column past the end");
        self.steps(b"\x1b=\x38\x20");
        self.steps(b"\x1b=\x20\x70");
        self.case("bench 4: decimal address");
        self.run(b"\x1ba24R80C\x1bb");
        for (title, label) in [
            ("bench 5: a label", b"No"),
            ("bench 6: another label", b"Hi"),
        ] {
            self.case(title);
            self.run(&[b"\x1b)", &label[..], b"\x1b(\x1b&"].concat());
            self.run(b"\r");
            self.run(b"\x08");
            self.run(b"x\x1b4");
            self.show();
        }
        self.case("bench 7: a page of protected spaces bars writing");
        self.run(b"\x1b,\x1b&");
        self.step(b'A');
        self.case("bench 8: a programmed key and another");
        self.run(b"\x1bz@hi\x7f");
        self.press(0x40);
        self.press(0x41);
        self.case("bench 9: a high byte within an address");
        self.run(b"AB");
        self.steps(b"\x1b\xe9=\x20\x20");
        self.case("bench 10: segment 1");
        self.run(b"\x1bx1\x2c\x1b}\x1b/");
        self.steps(b"\x1b=\x2c\x20");
        self.case("bench 11: two rows sent");
        self.run(b"A\x1fB\x1b7");
        self.case("bench 12: the longest reply");
        self.run(b"\x1b=\x37\x6f");
        self.step_in(ESC, 1943);
        self.step_in(b'7', 0);
        self.step_in(b'7', 1943);
        self.step_in(b'7', 1944);
        self.run_in(b"\x1b7", 1943);
        self.run_in(b"", 1);
        self.run_in(b"\x1b7", 1944);
    }

    pub(super) fn slips(&mut self) {
        self.case("slip: the low seven bits of E9h are no i");
        self.step(0xE9);
        self.show();
        self.case("slip: no scrolling when the last open cell is filled in protect mode");
        self.form(&[(85, 2), (CELLS - 1, 1)]);
        self.cursor(0, CELLS as u16 - 1);
        self.step(b'x');
        self.show();
        self.case("slip: a run is not shifted across a label");
        self.form(&[(0, 5), (10, 5)]);
        self.run(b"abcde\x1e\x1bq0\x1bQ\x1bW");
        self.show();
        self.case("slip: no move before the second address byte is judged");
        self.steps(b"AB\x1b=\x25\x70");
        self.steps(b"\x1b=\x38\x20");
        self.case("slip: the tail of an overlong key text is not run");
        self.steps(b"\x1bzA12345678\x1b*\x1b=\x25\x25X\x7f");
        self.press(0x41);
        self.show();
    }
}
