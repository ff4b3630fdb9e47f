//! Corners of page and state.

use super::book::{cursor_line, key_line, Book};
use crate::state::ESC;
use crate::transcript::Line;

impl Book {
    pub(super) fn page_and_state_corners(&mut self) {
        self.case("corner 1: what is not written is read, and stays as it is");
        self.cell(0, 0x0341);
        self.cell(1, 0xFF42);
        self.cell(2, 0xFFFF);
        self.run(b"\x1bM\x0c\x1bM\x0c\x1b6\x1e\x1bQ\x0a\x1bj\x1bj");
        self.show();
        self.case("corner 2: one cell number for each segment's cursor");
        self.run(b"\x1bx1\x2c\x1b-1\x21\x22\x1b-0\x21\x22");
        self.case("corner 3: a key's bytes beyond its length mean nothing");
        self.run(b"\x1bzA12345678\x7f\x1bzA12\x7f");
        self.press(0x41);
        self.key(2, b"123456789");
        self.step(b'A');
        self.case("corner 4: gathered bytes are empty for the next key");
        self.run(b"\x1bzAxy\x7f\x1bzB\x7f");
        self.press(0x42);
        self.case("corner 5: after the ninth byte only too many is remembered");
        self.steps(b"\x1bz@1234567890\x7f");
        self.sequences_under_way();
        self.case("corner 7: 5 and 05 differ before R and not after");
        self.steps(b"\x1ba55R1C");
        self.steps(b"\x1ba055");
        self.steps(b"\x1ba5R");
        self.steps(b"1C\x1ba05R1C");
        self.case("corner 8: a sequence need not fit the other fields");
        self.pending(b"\x1b-1\x20");
        self.step(0x20);
        self.case("corner 9: unsplit, the second cursor is anywhere");
        self.cursor(1, 1919);
        self.run(b"A");
        self.run(b"\x1bx0");
        self.form(&[(85, 1)]);
        self.run(b"\x1bx0");
        self.case("corner 10: a field attribute of 20h");
        self.run(b"\x1bA2 ");
        self.step(b'A');
        self.impossible_states();
    }

    fn sequences_under_way(&mut self) {
        let mut sequences: Vec<Vec<u8>> = vec![vec![]];
        for text in [
            "",
            "=",
            "=%",
            "=\x00",
            "=\x1b",
            "=\x7f",
            "-",
            "-0",
            "-1",
            "-\x7f",
            "-0\x20",
            "-\x00\x00",
            "-1\x7f",
            "A",
            "A0",
            "A\x7f",
            "G",
            "H",
            "!",
            ".",
            "`",
            "x",
            "x1",
            "a",
            "a0",
            "a9",
            "a00",
            "a99",
            "a00R",
            "a05R",
            "a24R",
            "a99R",
            "a24R8",
            "a24R80",
            "a24R080",
            "a00R000",
            "z",
            "z@",
            "z@1",
            "z@12345678",
            "zo\x1b\x00\x1f~",
            "zO",
        ] {
            sequences.push([&[ESC], text.as_bytes()].concat());
        }
        for sequence in &sequences {
            let count = sequence.len();
            self.case(&format!(
                "corner 6: {count} bytes under way, then one that goes on, ends or breaks them"
            ));
            for byte in *b"\x20R1C0\x1b\x7f\xff" {
                self.pending(sequence);
                self.step(byte);
            }
        }
        self.case("corner 6: too many bytes for a key under way");
        for byte in *b"1\x1b\xff\x7f" {
            self.line(Line::Pending {
                bytes: b"\x1bzk".to_vec(),
                spoilt: true,
            });
            self.step(byte);
        }
    }

    fn impossible_states(&mut self) {
        self.impossible("active segment 1 unsplit", &[Line::Active(1)]);
        self.impossible(
            "active segment 2",
            &[Line::Split(2), cursor_line(1, 80), Line::Active(2)],
        );
        self.impossible("split row 1", &[Line::Split(1)]);
        self.impossible("split row 25", &[Line::Split(25)]);
        self.impossible("first cursor off the page", &[cursor_line(0, 1920)]);
        self.impossible("second cursor off the page", &[cursor_line(1, 1920)]);
        let split_at_5 = [Line::Split(5), cursor_line(0, 320), cursor_line(1, 320)];
        self.impossible("first cursor in segment 1", &split_at_5);
        let split_at_5 = [Line::Split(5), cursor_line(0, 319), cursor_line(1, 319)];
        self.impossible("second cursor in segment 0", &split_at_5);
        self.impossible("a key of 9 bytes", &[key_line(0, b"123456789")]);
        self.impossible("a key with 7Fh", &[key_line(31, b"1234567\x7f")]);
        self.impossible("a key with 80h", &[key_line(16, b"\x80")]);
        for value in [0x1F, 0x21, 0x2F, 0x40, 0x6F, 0x7F, 0xB0] {
            self.impossible("a field attribute", &[Line::Attribute { field: 3, value }]);
        }
        for (feature, codes) in [b"/2", b"16", b"5B", b"7:", b";A"].iter().enumerate() {
            for &value in *codes {
                self.impossible("a feature", &[Line::Feature { feature, value }]);
            }
        }
        self.case("possible at the edges");
        self.line(Line::Split(24));
        self.cursor(0, 1839);
        self.cursor(1, 1840);
        self.line(Line::Active(1));
        self.key(31, b"\x00234567~");
        self.line(Line::Bells(255));
        self.step(0x07);
        self.line(Line::Split(2));
        self.cursor(0, 79);
        self.cursor(1, 1919);
        self.step(b'A');
    }

    pub(super) fn impossible(&mut self, title: &str, settings: &[Line]) {
        self.case(&format!("impossible: {title}"));
        for line in settings {
            self.line(line.clone());
        }
        self.step(b'A');
        self.run(b"A\x1b?");
        self.press(0x40);
    }
}
