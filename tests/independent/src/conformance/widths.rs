//! 132 columns: wishes and conversions.

use super::book::{on_or_off, Book};
use crate::state::{Personality, CELLS, COLUMNS, ESC, ROWS, WIDEST};
use crate::transcript::Line;

pub(super) const WIDE_CELLS: usize = ROWS * WIDEST;

impl Book {
    pub(super) fn widths(&mut self) {
        self.wishes();
        self.conversions();
        self.conversions_refused();
        self.conversions_and_states();
    }

    pub(super) fn convert(&mut self, count: usize) {
        self.line(Line::Convert(count));
    }

    /// A terminal as at power-on, converted to the wide page.
    pub(super) fn wide_case(&mut self, title: &str) {
        self.case(title);
        self.convert(WIDE_CELLS);
    }

    fn wishes(&mut self) {
        self.case("A11: the wish, narrow at power-on");
        self.steps(b"\x1b`;\x1b`;\x1b`:\x1b`:\x1b`;");
        self.line(Line::On(None));
        for wide in [false, true] {
            for wish in [false, true] {
                self.case("A11: feature codes in both widths");
                self.line(Line::Wish(wish));
                if wide {
                    self.convert(WIDE_CELLS);
                }
                for code in *b":9;/;@:B" {
                    self.run(&[ESC, b'`', code]);
                }
                self.line(Line::Wish(wish));
                self.convert(if wide { CELLS } else { WIDE_CELLS });
            }
        }
    }

    fn conversions(&mut self) {
        for protect in [false, true] {
            self.case(&format!(
                "A11: a page widened and narrowed, protect {}",
                on_or_off(protect)
            ));
            self.line(Line::Noise {
                seed: 17,
                mask: 0xFFFF,
                share: 200,
            });
            self.protect(protect);
            self.convert(WIDE_CELLS);
            self.show();
            self.convert(CELLS);
            self.convert(WIDE_CELLS);
        }
        self.case("A11: settling on the new page");
        self.form(&[]);
        self.convert(WIDE_CELLS);
        self.convert(CELLS);
        self.form(&[(100, 3)]);
        self.convert(WIDE_CELLS);
        self.convert(CELLS);
        self.fill(0, CELLS, 160);
        self.convert(WIDE_CELLS);
        self.fill(0, WIDE_CELLS, 160);
        self.convert(CELLS);
    }

    fn conversions_refused(&mut self) {
        self.case("A11: targets of a wrong length");
        for count in [0, 1919, 1920, 1921, 3167, 3169, 4000] {
            self.convert(count);
        }
        self.convert(WIDE_CELLS);
        for count in [0, 1919, 1921, 3167, 3168, 3169] {
            self.convert(count);
        }
        self.wide_case("A11: cells beyond column 80 that are not 0");
        for (row, column) in [(0, 80), (0, 131), (11, 100), (23, 80), (23, 131)] {
            for value in [1, 32, 128, 256, 32768] {
                let index = row * WIDEST + column;
                self.cell(index, value);
                self.convert(CELLS);
                self.cell(index, 0);
            }
        }
        self.cell(79, 32);
        self.convert(CELLS);
        self.case("A11: pages and states of unlike widths");
        self.line(Line::Length(WIDE_CELLS));
        self.convert(WIDE_CELLS);
        self.convert(CELLS);
        self.line(Line::Wide(true));
        self.line(Line::Length(CELLS));
        self.convert(CELLS);
        self.convert(WIDE_CELLS);
        self.case("A11: an impossible state is not converted");
        self.line(Line::Tab {
            column: COLUMNS,
            on: true,
        });
        self.convert(WIDE_CELLS);
        self.wide_case("A11: the order 7, 6, 4");
        self.fill(0, WIDE_CELLS, 32);
        self.convert(CELLS);
        self.run_in(b"\x1bb", 1);
        self.convert(CELLS);
        self.convert(WIDE_CELLS);
        self.line(Line::Split(1));
        self.convert(CELLS);
        self.line(Line::Split(0));
        self.run_in(b"", 9);
        self.line(Line::Length(CELLS));
        self.convert(CELLS);
        for command in *b" /4567?b" {
            self.case("A11: no conversion during a send, and one after it");
            self.run_in(&[b"AB\x1b", &[command][..]].concat(), 1);
            self.convert(WIDE_CELLS);
            self.run_in(b"", 9);
            self.convert(WIDE_CELLS);
            self.run_in(&[ESC, command], 1);
            self.convert(CELLS);
            self.run_in(b"", 9);
            self.convert(CELLS);
        }
    }

    fn conversions_and_states(&mut self) {
        for personality in [Personality::Wy50, Personality::Wy60] {
            self.case("A11: what a conversion leaves");
            self.line(Line::On(Some(personality)));
            self.run(b"\x1bx1\x26\x1b}AB\x1b1\x1b)\x1bq\x1bN\x1bk\x0f\x07\x1b`;\x1b`2\x1bA14");
            self.run(b"\x1bFhi\r\x1bzPa\r\x1bz@b\x7f\x1bG5");
            self.convert(WIDE_CELLS);
            self.run(b"\x1bx1\x28\x1b}\x1ba2R120C\x1b1\x0a\x1b1\x1bI\x1b=");
            self.convert(CELLS);
            self.run(b"\x21\x22\x1b`");
            self.convert(WIDE_CELLS);
            self.run(b":\x1bzA12");
            self.convert(CELLS);
            self.run(b"34\x7f");
        }
        self.case("A11: stops beyond the width are cleared");
        self.run(b"\x1b1\x1b=\x20\x6f\x1b1");
        self.convert(WIDE_CELLS);
        for column in [79, 80, 81, 131] {
            self.line(Line::Tab { column, on: true });
        }
        self.convert(CELLS);
        self.convert(WIDE_CELLS);
    }
}
