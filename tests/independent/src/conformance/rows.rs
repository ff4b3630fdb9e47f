//! The list of rows that have room.

use super::book::{on_or_off, Book};
use crate::state::{CELLS, ESC};
use crate::terminal::ROW_NUMBERS;
use crate::transcript::Line;

/// A form with rows of all sorts: wholly open, wholly guarded, open at one end.
const FIELDS: [(usize, usize); 6] = [
    (0, 80),
    (165, 3),
    (319, 2),
    (500, 60),
    (880, 240),
    (1919, 1),
];

impl Book {
    pub(super) fn rows(&mut self) {
        self.rebuilds();
        self.rebuilds_refused();
        self.wrong_lists();
        self.lists_beside_controls();
        self.lists_beside_escapes();
        self.lists_beside_refusals();
        self.lists_beside_settling();
    }

    fn list_step(&mut self, byte: u8, room: usize) {
        self.line(Line::ListStep { byte, room });
    }

    fn list_run(&mut self, bytes: &[u8], room: usize) {
        self.line(Line::ListRun {
            bytes: bytes.to_vec(),
            room,
        });
    }

    fn rebuild(&mut self) {
        self.line(Line::Rebuild);
    }

    fn row(&mut self, index: usize, value: u16) {
        self.line(Line::Row { index, value });
    }

    fn rebuilds(&mut self) {
        self.case("A5: at the start a list of 48 zeros, and a rebuild after power-on");
        self.list_step(b'A', 10);
        self.list_run(b"", 10);
        self.rebuild();
        self.list_step(b'A', 10);
        self.list_run(b"", 10);
        self.line(Line::On(None));
        self.list_run(b"B", 10);
        for protect in [true, false] {
            self.case(&format!(
                "A5: rows of all sorts, protect {}",
                on_or_off(protect)
            ));
            self.form(&FIELDS);
            self.protect(protect);
            self.rebuild();
            self.list_run(b"\x1b&", 0);
            self.list_run(b"\x1b'", 0);
            self.line(Line::Noise {
                seed: 3,
                mask: 0xFFFF,
                share: 200,
            });
            self.rebuild();
            self.list_run(b"\x1b&", 0);
            self.rebuild();
        }
        self.case("A5: a rebuild reads no old number");
        self.form(&FIELDS);
        for index in 0..ROW_NUMBERS {
            self.row(index, 65535 - index as u16);
        }
        self.list_run(b"", 0);
        self.rebuild();
    }

    fn rebuilds_refused(&mut self) {
        self.case("A5: a rebuild of a list of the wrong length");
        for length in [0, 1, 47, 49, 96] {
            self.line(Line::Rows(length));
            if length > 0 {
                self.row(length - 1, 7);
            }
            self.rebuild();
            self.list_step(b'A', 1);
            self.list_run(b"A", 1);
            self.list_run(b"", 1);
        }
        self.line(Line::Rows(ROW_NUMBERS));
        self.case("A5: a rebuild and calls on a wrong page, of an impossible state");
        self.rebuild();
        for length in [0, 1919, 1921, 3168] {
            self.line(Line::Length(length));
            self.rebuild();
            self.list_step(0xFF, 1);
            self.list_run(b"A\x1b?", 10);
        }
        self.line(Line::Length(CELLS));
        self.line(Line::Split(1));
        self.row(5, 3);
        self.rebuild();
        self.list_step(b'A', 1);
        self.list_run(b"", 0);
        self.line(Line::Split(0));
        self.list_step(b'A', 1);
        self.rebuild();
        self.list_step(b'A', 1);
    }

    fn wrong_lists(&mut self) {
        self.case("A5: each number off by one is refused");
        self.form(&FIELDS);
        self.rebuild();
        let mut right = [0; ROW_NUMBERS];
        for (first, count) in FIELDS {
            for cell in first..first + count {
                let numbers = &mut right[cell / 80 * 2..];
                numbers[0] += 1;
                if numbers[1] == 0 {
                    numbers[1] = (cell % 80 + 1) as u16;
                }
            }
        }
        for (index, number) in right.into_iter().enumerate() {
            self.row(index, number + 1);
            self.list_step(b'x', 0);
            self.row(index, number);
        }
        self.list_step(b'x', 0);
        self.case("A5: a list that was right before the page or protect mode changed");
        self.form(&FIELDS);
        self.rebuild();
        self.protect(false);
        self.list_step(b'x', 0);
        self.list_run(b"xyz", 5);
        self.protect(true);
        self.list_step(b'x', 0);
        self.cell(165, b'.' as u16 | 128);
        self.list_run(b"xyz", 5);
        self.cell(165, b'x' as u16);
        self.list_run(b"xyz", 5);
        self.run(b"\x1b)A");
        self.list_run(b"B", 5);
        self.rebuild();
        self.list_run(b"B", 5);
    }

    fn lists_beside_controls(&mut self) {
        for protect in [false, true] {
            self.case(&format!(
                "A5: control codes and text with the list, protect {}",
                on_or_off(protect)
            ));
            for code in *b"\x05\x07\x08\x09\x0a\x0b\x0c\x0d\x0e\x1a\x1e\x1fA\x7f" {
                self.mixed_page();
                self.protect(protect);
                self.rebuild();
                self.list_step(code, 1);
                self.list_run(&[code; 3], 2);
            }
        }
    }

    fn lists_beside_escapes(&mut self) {
        for (protect, write_protect) in [(false, false), (true, false), (true, true)] {
            self.case(&format!(
                "A5: every escape with the list, protect {}, write-protect {}",
                on_or_off(protect),
                on_or_off(write_protect)
            ));
            for code in 0x20..=0x7E {
                self.mixed_page();
                self.pending(b"");
                self.protect(protect);
                self.line(Line::Mode {
                    mode: 1,
                    on: write_protect,
                });
                self.rebuild();
                self.list_run(&[ESC, code, b'0', b'5'], 2000);
            }
        }
        self.case("A5: scrolls, rows and segments with the list");
        self.form(&FIELDS);
        self.rebuild();
        for bytes in [
            &b"\x1b'\x1bx1\x26"[..],
            b"\x1b&",
            b"\x1b}\x1bV",
            b"\x1b'\x1bj\x1b&",
            b"\x1b'\x1bE\x1bR\x1b&",
            b"\x1b=\x31\x6f\x1b'\x0a\x0a\x1b&",
            b"\x1b*",
            b"\x1b,\x1b&",
            b"\x1bx0\x1b+",
        ] {
            self.list_run(bytes, 0);
        }
    }

    fn lists_beside_refusals(&mut self) {
        self.case("A5: the list after refusals");
        self.form(&FIELDS);
        self.cursor(0, 85);
        self.rebuild();
        for byte in *b"\xff\x1b\xff\x1b\x1b}x" {
            self.list_step(byte, 0);
        }
        self.list_step(0x05, 0);
        self.list_run(b"x\x1bE\xff\x1b?", 2);
        self.list_run(b"?", 3);
    }

    fn lists_beside_settling(&mut self) {
        self.case("A5: a page open only in its last cell");
        self.form(&[(CELLS - 1, 1)]);
        self.rebuild();
        self.list_run(&[0x1E; 100], 0);
        self.list_run(b"\x08\x0c\x0d\x0b\x0a\x1f\x09\x1bI\x1b{", 0);
        self.list_run(b"x", 0);
        self.list_run(b"\x1b)y", 0);
        self.list_run(&[0x1E; 3], 0);
        self.case("A5: settling forward, round the end and over wholly guarded rows");
        self.form(&FIELDS);
        self.rebuild();
        for start in [0, 79, 80, 168, 320, 321, 560, 900, 1120, 1918] {
            self.cursor(0, start);
            self.list_run(b"\x1b&", 0);
            self.list_run(b"\x0c", 0);
            self.list_run(b"\x08", 0);
        }
        self.line(Line::Split(8));
        self.cursor(0, 555);
        self.cursor(1, 600);
        self.line(Line::Active(0));
        self.list_run(b"\x0c\x0c\x0c\x0c\x0c", 0);
        self.list_run(b"\x1b}\x08", 0);
    }
}
