//! Document 001's tables.

use super::book::{on_or_off, Book};
use crate::state::{COLUMNS, DEL, ESC, ROWS};
use crate::transcript::Line;

impl Book {
    pub(super) fn row_and_column_codes(&mut self) {
        self.case("row codes 1 to 24, before and past them");
        for code in 0x1F..=0x38 {
            self.run(&[ESC, b'=', code, 0x25, ESC, b'?']);
        }
        self.case("column codes 1 to 80, before and past them");
        for code in 0x1F..=0x70 {
            self.run(&[ESC, b'=', 0x25, code, ESC, b'?']);
        }
        self.case("every other code as row and as column");
        for code in (0x00..=0x1E).chain(0x71..=0x7F) {
            self.run(&[ESC, b'=', code, 0x20]);
            self.run(&[ESC, b'=', 0x20, code]);
        }
        self.case("row and column codes with a segment number");
        self.run(b"\x1bx1\x2c");
        for segment in 0x2F..=0x32 {
            for row in [0x1F, 0x20, 0x2B, 0x2C, 0x37, 0x38] {
                self.run(&[ESC, b'-', segment, row, 0x26, ESC, b'/']);
            }
            for column in [0x1F, 0x20, 0x6F, 0x70] {
                self.run(&[ESC, b'-', segment, 0x21, column, ESC, b'/']);
            }
        }
        self.case("decimal rows and columns, before and past them");
        for row in 0..=ROWS + 1 {
            self.run(format!("\x1ba{row}R7C\x1bb").as_bytes());
        }
        for column in 0..=COLUMNS + 1 {
            self.run(format!("\x1ba7R{column}C\x1bb\x1b?").as_bytes());
        }
        self.run(b"\x1ba7R132C");
        self.case("decimal rows count from the segment's top");
        self.run(b"\x1bx1\x2c\x1b}");
        for row in [1, 11, 12, 13, 24] {
            self.run(format!("\x1ba{row}R80C\x1bb\x1b/").as_bytes());
        }
    }

    pub(super) fn attribute_codes(&mut self) {
        self.case("ESC G with every code");
        for code in 0x00..=0x7F {
            self.steps(&[ESC, b'G', code]);
        }
        self.show();
        self.case("ESC G with every code, write-protect on");
        self.run(b"\x1b)");
        for code in 0x00..=0x7F {
            self.run(&[ESC, b'G', code]);
        }
        self.show();
        for code in 0x00..=0x7F {
            self.case(&format!("ESC ! {code:02x} over the open cells"));
            self.run(&[ESC, b'!', code]);
        }
        self.case("ESC A with every attribute");
        for code in 0x00..=0x7F {
            self.run(&[ESC, b'A', b'1', code]);
        }
        self.case("ESC A with every field");
        for field in 0x00..=0x7F {
            self.run(&[ESC, b'A', field, b'4']);
        }
    }

    pub(super) fn graphic_codes(&mut self) {
        self.case("ESC H with every code");
        for code in 0x00..=0x7F {
            self.steps(&[ESC, b'H', code]);
        }
        self.show();
    }

    pub(super) fn screen_features(&mut self) {
        self.case("ESC ` with every code");
        for code in 0x00..=0x7F {
            self.run(&[ESC, b'`', code]);
        }
        self.case("the screen features one by one");
        for code in *b"012345A6789:;<=>?@" {
            self.steps(&[ESC, b'`', code]);
        }
    }

    pub(super) fn control_codes(&mut self) {
        for protect in [false, true] {
            for code in (0x00..=0x1F).chain([DEL]) {
                self.case(&format!(
                    "control code {code:02x}, protect {}",
                    on_or_off(protect)
                ));
                self.mixed_page();
                self.line(Line::Tab {
                    column: 20,
                    on: true,
                });
                self.protect(protect);
                self.step(code);
                self.step(code);
                self.show();
            }
        }
    }

    pub(super) fn escape_codes(&mut self) {
        for protect in [false, true] {
            for code in 0x00..=0x7F {
                self.case(&format!("ESC {code:02x}, protect {}", on_or_off(protect)));
                self.mixed_page();
                self.line(Line::Tab {
                    column: 2,
                    on: true,
                });
                self.protect(protect);
                self.step(ESC);
                self.step(code);
                self.show();
            }
        }
        for segment in 0..2 {
            self.comment(&format!(
                "escape codes in segment {segment} of a split page"
            ));
            for code in 0x20..=0x7E {
                self.case(&format!("ESC {code:02x}"));
                self.mixed_page();
                self.line(Line::Split(12));
                self.cursor(1, 1165);
                self.line(Line::Active(segment));
                self.run(&[ESC, code]);
            }
        }
    }

    pub(super) fn split_rows(&mut self) {
        self.case("ESC x with every byte");
        for code in 0x00..=0x7F {
            self.steps(&[ESC, b'x', code]);
            self.step(b'!');
        }
        self.case("ESC x 1 with every byte");
        for code in 0x00..=0x7F {
            self.run(&[ESC, b'x', b'1', code, ESC, b'J', ESC, b'/']);
        }
        self.run(b"\x1bx0\x1b/");
    }

    pub(super) fn function_keys(&mut self) {
        self.case("default sends, and values that are no keys");
        for value in 0x00..=0xFF {
            self.press(value);
        }
        self.case("ESC z with every value");
        for value in 0x00..=0x7F {
            self.pending(b"");
            self.run(&[ESC, b'z', value, b'v', value, DEL]);
        }
        for value in (0x40..=0x4F).chain(0x60..=0x6F) {
            self.press(value);
        }
        self.case("key texts of 0 to 10 bytes");
        for count in 0..=10 {
            self.run(&[b"\x1bzE", &b"0123456789"[..count], b"\x7f"].concat());
            self.press_in(0x45, 8);
            self.press_in(0x45, 7);
        }
        self.case("rooms for a default send");
        for room in 0..=4 {
            self.press_in(0x6F, room);
        }
        self.case("a locked keyboard");
        self.run(b"\x0f");
        self.press(0x40);
        self.press_in(0x40, 0);
        self.press(0x3F);
        self.run(b"\x0e");
        self.press(0x40);
        self.run(b"\x1b#");
        self.press(0x40);
        self.run(b"\x1b\"");
        self.press(0x40);
    }
}
