//! Wide pages.

use super::book::{on_or_off, Book};
use super::widths::WIDE_CELLS;
use crate::setups::STORE;
use crate::state::{Personality, Place, Sending, CELLS, COLUMNS, DEL, ESC, WIDEST};
use crate::transcript::Line;

impl Book {
    pub(super) fn wide_pages(&mut self) {
        self.wide_codes();
        self.wide_addresses();
        self.wide_writing();
        self.wide_stops();
        self.wide_texts();
        self.wide_sends();
        self.wide_lists();
        self.wide_states();
    }

    fn wide_noise(&mut self) {
        self.line(Line::Noise {
            seed: 13,
            mask: 0x037F,
            share: 64,
        });
        self.cursor(0, 1421);
    }

    fn wide_codes(&mut self) {
        for protect in [false, true] {
            self.wide_case(&format!(
                "A11: every code on a wide page, protect {}",
                on_or_off(protect)
            ));
            for code in (0x00..=0x1F).chain([b'A', DEL]) {
                self.wide_noise();
                self.pending(b"");
                self.protect(protect);
                self.run(&[code, code]);
            }
            for code in 0x20..=0x7E {
                self.wide_noise();
                self.pending(b"");
                self.protect(protect);
                self.run(&[ESC, code, b'0', b'5']);
            }
        }
    }

    fn wide_addresses(&mut self) {
        self.wide_case("A11: codes reach column 80, decimals 132");
        for code in [0x1F, 0x20, 0x6E, 0x6F, 0x70, 0x71, 0x7F] {
            self.run(&[b"\x1b=\x37", &[code][..], b"\x1bb"].concat());
            self.run(&[b"\x1b-0\x37", &[code][..], b"\x1bb"].concat());
        }
        for column in [0, 1, 79, 80, 81, 99, 100, 131, 132, 133, 999] {
            self.run(format!("\x1ba24R{column}C\x1bb").as_bytes());
        }
        self.wide_case("A11: addresses in the segments of a wide page");
        self.run(b"\x1bx1\x2c");
        for address in [
            &b"\x1b-1\x2b\x6f"[..],
            b"\x1b-1\x2b\x70",
            b"\x1b-1\x2c\x20",
            b"\x1b=\x2b\x6f",
            b"\x1ba12R132C",
            b"\x1ba12R133C",
            b"\x1ba13R1C",
            b"\x1b-0\x2b\x6f",
            b"\x1b-0\x2c\x20",
            b"\x1ba12R132C",
        ] {
            self.run(address);
            self.run(b"\x1bb");
        }
        self.wide_case("A11: ESC ? and ESC / answer 3 wherever the cursor is");
        for cursor in [0, 79, 80, 131, 132] {
            self.cursor(0, cursor);
            self.steps(b"\x1b?\x1b/");
            self.run_in(b"\x1b?\x1b/", 0);
            self.run(b"\x1bb");
        }
        self.run(b"\x1bx1\x2c\x1b}");
        self.steps(b"\x1b?\x1b/");
        self.convert(CELLS);
        self.steps(b"\x1b?\x1b/");
    }

    fn wide_writing(&mut self) {
        self.wide_case("A11: row ends and segment ends of a wide page");
        self.run(b"\x1ba1R132CAB\x1ba24R131CCDE");
        self.run(b"\x1bx1\x26\x1ba6R132CFG\x1b}\x1ba18R132CHI\x0b\x0a\x0a");
        self.run(b"\x1ba1R80C\x1bqxyz\x1bQ\x1bW\x1ba1R130C\x1bT");
        self.show();
    }

    fn wide_stops(&mut self) {
        self.wide_case("A11: tab stops over the whole width");
        self.run(b"\x1ba1R100C\x1b1\x1ba1R132C\x1b1\x1ba1R80C\x1b1\r");
        self.steps(b"\x09\x09\x09\x09");
        self.steps(b"\x1bI\x1bI\x1bI\x1bI");
        self.line(Line::Save);
        self.run(b"\x1ba1R132C\x1b2\x1ba1R81C\x1b1\x1ba1R80C\x1b2\x1b`;");
        self.line(Line::Save);
        self.line(Line::Restore(1));
        self.line(Line::Restore(2));
        self.run(b"\x1b0");
        self.line(Line::Restore(1));
        self.case("A11: set-ups saved in one width and restored in the other");
        self.line(Line::Store(STORE));
        self.run(b"\x1b1\x1b=\x20\x6f\x1b1");
        self.line(Line::Save);
        self.convert(WIDE_CELLS);
        self.run(b"\x1b0\x1ba1R81C\x1b1\x1ba1R2C\x1b1\x1b`;");
        self.line(Line::Restore(1));
        self.line(Line::Save);
        self.convert(CELLS);
        self.run(b"\x1b0\x1b`:");
        self.line(Line::Restore(2));
        self.line(Line::Restore(1));
        self.wide_case("A11: the longest set-up with every stop set");
        for column in 0..WIDEST {
            self.line(Line::Tab { column, on: true });
        }
        self.line(Line::Save);
        self.run(b"\x1b0");
        self.line(Line::Restore(3));
        self.line(Line::Store(STORE));
    }

    fn wide_texts(&mut self) {
        self.wide_case("A11: message and labels are no longer on a wide page");
        for count in [46, 47] {
            self.run(&[b"\x1bF", &[b'm'; 47][..count], b"\r"].concat());
        }
        for count in [8, 9] {
            self.run(&[b"\x1bzP", &[b'l'; 9][..count], b"\r"].concat());
        }
    }

    fn wide_sends(&mut self) {
        self.wide_case("A11: the longest reply, and sends in parts");
        self.wide_noise();
        self.cursor(0, WIDE_CELLS as u16 - 1);
        for room in [3192, 3191] {
            self.run_in(b"\x1b7", room);
        }
        self.run_in(b"", 1);
        self.cursor(0, 133);
        for command in *b"4567" {
            for room in [1, 100, 132, 133, 134, 135] {
                self.run_in(&[ESC, command], room);
                self.run_in(b"", 300);
            }
        }
        self.cursor(0, 264);
        for command in *b"57" {
            for place in [
                Place::Cell(80),
                Place::Cell(131),
                Place::RowMark(132),
                Place::Cell(132),
                Place::RowMark(264),
                Place::Cell(265),
                Place::RowMark(396),
                Place::Cr,
            ] {
                self.line(Line::Sending(Some(Sending { command, place })));
                self.run_in(b"", 3);
            }
        }
        for command in *b" b?/" {
            let place = Place::Byte(1);
            self.line(Line::Sending(Some(Sending { command, place })));
            self.run_in(b"", 9);
        }
    }

    fn wide_lists(&mut self) {
        self.wide_case("A11: row lists of a wide page");
        self.line(Line::Rebuild);
        self.wide_noise();
        for bytes in [&b"\x1b&"[..], b"A\x1b'\x1bj\x1b&", b"\x1bV", b"\x1e"] {
            let bytes = bytes.to_vec();
            self.line(Line::ListRun { bytes, room: 0 });
        }
        self.fill(0, WIDE_CELLS, 160);
        self.fill(WIDEST - 1, 1, 32);
        self.line(Line::Rebuild);
        self.line(Line::ListStep {
            byte: 0x1E,
            room: 0,
        });
        self.fill(0, WIDE_CELLS, 0);
        self.convert(CELLS);
        self.line(Line::ListStep {
            byte: 0x1E,
            room: 0,
        });
        self.line(Line::Rebuild);
        self.line(Line::ListStep {
            byte: 0x1E,
            room: 0,
        });
    }

    fn wide_states(&mut self) {
        for column in [80, 100, 131] {
            self.impossible("a stop beyond column 80", &[Line::Tab { column, on: true }]);
        }
        self.wide_case("A11: power-on wants a narrow page and gives a narrow state");
        self.run(b"A\x1b1\x1b`;");
        for personality in [Personality::Wy60, Personality::Wy50] {
            self.line(Line::On(Some(personality)));
            self.step(b'A');
        }
        self.line(Line::Wide(true));
        self.line(Line::Length(CELLS));
        self.line(Line::On(None));
        for wide in [false, true] {
            self.case("A11: pages of a length that is not the state's own");
            self.line(Line::Wide(wide));
            for length in [0, CELLS, WIDE_CELLS - 1, WIDE_CELLS, WIDE_CELLS + 1] {
                self.line(Line::Length(length));
                self.step(b'A');
                self.run(b"A");
                self.press(0x40);
                self.line(Line::Rebuild);
                let bytes = b"A".to_vec();
                self.line(Line::ListRun { bytes, room: 0 });
            }
        }
        self.case("A11: noise on a page of any length");
        for length in [1, 7, 4000] {
            self.line(Line::Length(length));
            self.wide_noise();
            self.show();
        }
        self.wide_case("A11: cursors and splits of a wide page");
        for cell in [CELLS, WIDE_CELLS - 1, WIDE_CELLS] {
            self.cursor(1, cell as u16);
            self.step(b'A');
        }
        self.line(Line::Split(5));
        for (upper, lower) in [
            (4 * COLUMNS, 5 * COLUMNS),
            (527, 528),
            (528, 528),
            (527, 527),
        ] {
            self.cursor(0, upper as u16);
            self.cursor(1, lower as u16);
            self.step(b'A');
        }
        self.line(Line::Length(CELLS));
        self.line(Line::On(None));
    }
}
