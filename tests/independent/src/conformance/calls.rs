//! Corners of answers and calls.

use super::book::Book;
use crate::state::ESC;
use crate::transcript::Line;

impl Book {
    pub(super) fn call_corners(&mut self) {
        for length in [0, 1919, 1921, 4000] {
            self.case("corners 11 to 14: a wrong page length");
            self.run(b"AB\x1b)\x1b1\x1b");
            self.line(Line::Length(length));
            self.step(b'A');
            self.step(0xFF);
            self.run(b"A\x1b?");
            self.run(b"");
            self.press(0x40);
            self.press_in(0x20, 0);
            self.line(Line::On(None));
        }
        self.case("corner 13: a run over no bytes");
        self.run_in(b"", 0);
        self.case("corner 14: FFh after ESC");
        self.steps(b"\x1b\xff?");
        self.case("corner 15: one room for a run");
        for room in 0..=7 {
            self.run_in(b"\x1b?\x1b?A", room);
            self.line(Line::On(None));
        }
        self.case("corner 16: refused bytes leave 0, a stop 6");
        self.run(b"\xff\x1b^\x1bx2\x1b}");
        self.run_in(b"\xff\x1b^\x05", 0);
        self.case("corner 17: only a reply that is due needs room");
        self.run_in(b"A\x0d\x1bG0", 0);
        self.step_in(0x05, 0);
        self.run_in(b"\x1b4", 0);
        self.run_in(b"\x1b,\x1b&\x1b4", 1);
        self.case("corner 18: after 6 the sequence stays");
        for byte in *b" ?/bM4567" {
            self.step_in(ESC, 0);
            self.step_in(byte, 0);
            self.step(byte);
        }
        self.case("corner 19: ESC M on a guarded cell without room");
        self.form(&[]);
        self.run_in(b"\x1bM", 0);
        self.step_in(ESC, 0);
        self.step_in(b'M', 0);
        self.case("corner 20: a bad argument comes before a guarded cell");
        self.form(&[]);
        self.steps(b"\x1bG!\x1bG0\x1bHA\x1bH0");
        self.case("corner 21: a byte that is in no rule after ESC");
        self.steps(b"\x1b\x1b*\x1b\x0aA\x1b\x7f\x1b\x00");
        self.case("corner 22: what breaks a decimal address");
        self.steps(b"\x1ba\x1b*");
        self.steps(b"\x1baR");
        self.steps(b"\x1ba1\xff2\xffR\xff3\xffC");
        self.steps(b"\x1ba123");
        self.steps(b"\x1ba1R1234");
        self.steps(b"\x1ba1RC");
        self.steps(b"\x1ba1R1R");
        self.steps(b"\x1ba1C");
        self.case("corner 23: leading zeros and zeros");
        self.run(b"\x1ba02R003C\x1bb");
        self.steps(b"\x1ba0R1C");
        self.steps(b"\x1ba00R1C");
        self.steps(b"\x1ba1R000C");
        self.steps(b"\x1ba1R0C");
        self.case("corner 24: nothing is judged before the last byte");
        self.steps(b"\x1b=\x00\x00");
        self.steps(b"\x1b-9\x00\x00");
        self.steps(b"\x1bA90");
        self.steps(b"\x1b-1\x20\x20");
        self.full_key_store();
        self.case("corner 26: DEL is the only end of an overlong key text");
        self.steps(b"\x1bzA123456789\x1b\x0d\x18\x7fB");
        self.press(0x41);
        self.case("corner 27: the lock bars key presses only");
        self.run(b"\x0fAB\x05\x1b?\x1bM\x1b7");
        self.press(0x40);
        self.case("corner 28: a key press during a sequence");
        self.step(ESC);
        self.press(0x40);
        self.steps(b"=\x22");
        self.press(0x41);
        self.step(0x22);
    }

    fn full_key_store(&mut self) {
        self.case("all keys full are 256 bytes, and each may be programmed again");
        for value in (0x40..=0x4F).chain(0x60..=0x6F) {
            self.run(&[b"\x1bz", &[value][..], b"abcdefgh\x7f"].concat());
        }
        for value in (0x40..=0x4F).chain(0x60..=0x6F) {
            self.run(&[b"\x1bz", &[value][..], b"hgfedcba\x7f"].concat());
        }
        self.press(0x41);
        self.run(b"\x1bzA\x7f");
        self.press(0x41);
    }
}
