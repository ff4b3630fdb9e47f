//! WY-60 beside WY-50.

use super::book::{on_or_off, Book};
use crate::state::{Personality, CELLS, ESC};
use crate::transcript::Line;

const BOTH: [Personality; 2] = [Personality::Wy50, Personality::Wy60];

impl Book {
    pub(super) fn personalities(&mut self) {
        self.power_on_of_both();
        self.attributes_remembered();
        self.attributes_on_guarded_cells();
        self.normal_cells();
        self.escapes_of_wy60();
        self.cells_with_flags();
        self.memories_handed_in();
    }

    fn remember(&mut self, number: u8) {
        self.line(Line::Remembered(number));
    }

    fn power_on_of_both(&mut self) {
        for personality in [None, Some(BOTH[0]), Some(BOTH[1]), None] {
            self.comment("A8: the personality is chosen at power-on");
            self.line(Line::On(personality));
            self.run(b"\x1bG4A\x1b ");
            for room in 0..=3 {
                self.run_in(b"\x1b ", room);
                self.pending(b"");
            }
            self.show();
        }
        for personality in BOTH {
            self.comment("A8: a wrong page length still gives the state of that personality");
            self.line(Line::Length(1919));
            self.line(Line::On(Some(personality)));
            self.run(b"\x1b ");
            self.line(Line::Length(CELLS));
            self.run(b"\x1b ");
        }
        self.case_60("A8: power-on forgets the attribute");
        self.run(b"\x1bG4A");
        self.line(Line::On(Some(Personality::Wy60)));
        self.run(b"A");
        self.run(b"\x1bG4B");
        self.line(Line::On(None));
        self.run(b"C");
    }

    fn attributes_remembered(&mut self) {
        self.case_60("A8: ESC G with every code, then a character and a graphic");
        for code in 0x00..=0x7F {
            self.steps(&[ESC, b'G', code]);
            self.run(b"a\x1bH5");
        }
        self.show();
        for (write_protect, insert) in [(true, false), (false, true), (true, true)] {
            self.case_60(&format!(
                "A8: attributes, write-protect {}, insert {}",
                on_or_off(write_protect),
                on_or_off(insert)
            ));
            self.run(b"abcdef\x1e");
            for (mode, on) in [(1, write_protect), (2, insert)] {
                self.line(Line::Mode { mode, on });
            }
            self.run(b"\x1bG8");
            self.run(b"xy\x1bH1");
            self.run(b"\x1bG ");
            self.run(b"\x1bGrz\x1bG0n");
            self.show();
        }
        self.case_60("A8: one attribute for both segments, kept by all else");
        self.run(b"\x1bGt\x1bx1\x26A\x1b}B\x1b]C\x1bx0");
        for command in [
            &b"\x1b*"[..],
            b"\x1b&",
            b"\x1b'",
            b"\x1bA14",
            b"\x1b!4",
            b"\x1b! ",
        ] {
            self.run(command);
        }
        self.run(b"\x1bFhi\r\x1bzPa\r\x1bz@b\x7f\x05\x07\x0f\x0e");
        self.press(0x40);
        self.run(b"D");
        self.show();
        self.case_60("A8: an attribute cut by runs, and a high byte within it");
        self.run_in(b"\x1bG", 0);
        self.run_in(b"\xff", 0);
        self.run_in(b"\x7e", 0);
        self.step(b'A');
    }

    fn attributes_on_guarded_cells(&mut self) {
        for personality in BOTH {
            self.case("A8: ESC G on a guarded cell");
            self.line(Line::On(Some(personality)));
            self.form(&[]);
            for code in *b" 07?p~!@\x7f" {
                self.steps(&[ESC, b'G', code]);
            }
            self.steps(b"\x1bH5A");
            self.case("A8: ESC G neither settles nor moves nor shifts in WY-60");
            self.line(Line::On(Some(personality)));
            self.form(&[(79, 2), (1919, 1)]);
            for cursor in [0, 79, 80, 1919] {
                self.cursor(0, cursor);
                self.line(Line::Mode { mode: 2, on: true });
                self.run(b"\x1bG5");
                self.run(b"x");
            }
            self.show();
            self.case("A8: ESC G in the last cell scrolls in WY-50 alone");
            self.line(Line::On(Some(personality)));
            self.run(b"A\x1b=\x37\x6f\x1bG5");
            self.run(b"\x1b=\x37\x6f\x1bG ");
        }
    }

    fn normal_cells(&mut self) {
        for command in [
            &b"\x1bQ"[..],
            b"\x1bW",
            b"\x1bE",
            b"\x1bR",
            b"\x1bj",
            b"\x1bV",
            b"\x1bT",
            b"\x1bt",
            b"\x1bY",
            b"\x1by",
            b"\x1b;",
            b"\x1b:",
            b"\x1b.x",
            b"\x1b.\x00",
            b"\x1b!4",
            b"\x1b!z",
            b"\x1b! ",
            b"\x1b*",
            b"\x1b+",
            b"\x1b,",
            b"\x1a",
            b"\x1bG ",
            b"\x1b=\x37\x20\x0a",
            b"\x1b=\x37\x6fx",
        ] {
            self.case_60("A8: what is brought in is normal, what is shifted keeps its number");
            self.line(Line::Noise {
                seed: 5,
                mask: 0xFFFF,
                share: 64,
            });
            self.remember(21);
            self.run(command);
        }
        self.show();
    }

    fn escapes_of_wy60(&mut self) {
        for protect in [false, true] {
            self.comment(&format!(
                "A8: every byte after ESC, protect {}",
                on_or_off(protect)
            ));
            for code in 0x20..=0x7E {
                self.line(Line::On(Some(Personality::Wy60)));
                self.mixed_page();
                self.remember(14);
                self.protect(protect);
                self.run(&[ESC, code, b'0', b'5', b'A']);
            }
        }
    }

    fn cells_with_flags(&mut self) {
        for personality in BOTH {
            self.case("A8: how numbers with all flags and kinds are sent");
            self.line(Line::On(Some(personality)));
            for high in 0..=0xFF {
                self.cell(high as usize, high << 8 | b'a' as u16 + high % 26);
            }
            self.cursor(0, 255);
            self.run(b"\x1b7\x1b5");
            for cell in [3, 4, 7, 0x80, 0x81, 0xFC, 0xFF] {
                self.cursor(0, cell);
                self.run(b"\x1bM");
            }
            self.case("A8: shifted and scrolled cells keep every bit");
            self.line(Line::On(Some(personality)));
            for (index, value) in [(0, 0x8041), (1, 0xFFC1), (2, 0x0341), (80, 0x7C00)] {
                self.cell(index, value);
            }
            self.run(b"\x1bQ\x1bj\x0a\x1bW\x1bE\x1bR");
            self.show();
            self.run(b"\x0a\x1bqx\x1bH0\x1bG \x1bG1");
            self.show();
        }
    }

    fn memories_handed_in(&mut self) {
        for personality in BOTH {
            self.case("A8: what each personality can remember");
            self.line(Line::Personality(personality));
            for number in 0..=31 {
                self.remember(number);
                self.step(b'A');
            }
            self.run(b"A");
            self.press(0x40);
            self.line(Line::Rebuild);
            self.show();
        }
        self.case_60("A8: the personality changed by the caller");
        self.run(b"\x1bG5");
        self.line(Line::Personality(Personality::Wy50));
        self.step(b'A');
        self.remember(0);
        self.run(b"A\x1bG5\x1b ");
    }
}
