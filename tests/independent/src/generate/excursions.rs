//! Excursions to wrong page lengths and impossible states.

use super::Generator;
use crate::state::{COLUMNS, DEL, KEYS, ROWS, WIDEST};
use crate::transcript::limits::LONGEST_PAGE;
use crate::transcript::Line;

impl Generator {
    pub(super) fn excursion(&mut self, most_calls: usize) {
        if self.random.once_in(3) {
            self.wrong_length();
        } else {
            self.impossible();
        }
        for _ in 0..self.random.within(1..=4) {
            if self.calls < most_calls {
                self.call();
            }
        }
        if self.random.once_in(3) && self.calls < most_calls {
            self.power_on_either();
        }
        self.return_to_possible();
    }

    pub fn wrong_length(&mut self) {
        let length = match self.random.below(4) {
            0 => self.random.within(0..=LONGEST_PAGE),
            _ => {
                let lengths = [0, 1, 79, 80, 1919, 1920, 1921, 3167, 3168, 3169];
                self.random.pick(&[&lengths[..], &[LONGEST_PAGE]].concat())
            }
        };
        self.add(Line::Length(length));
        if length > 0 && self.random.coin() {
            let index = self.random.below(length);
            let count = self.random.within(0..=length - index);
            let value = self.random.number() as u16;
            self.add(Line::Fill {
                index,
                count,
                value,
            });
        }
    }

    pub fn impossible(&mut self) {
        let high_byte = self.random.byte_within(0x80..=0xFF);
        let cells = self.cells() as u16;
        let line = match self.random.below(15) {
            0 => Line::Active(self.random.pick(&[1, 2, 3, 128, 255])),
            1 => Line::Split(self.random.pick(&[1, 25, 26, 128, 255])),
            2 => Line::Cursor {
                segment: self.random.below(2),
                cell: self.random.pick(&[cells, cells + 1, 4095, 32768, 65535]),
            },
            3 => return self.cursor_in_wrong_segment(),
            4 => {
                let count = self.random.pick(&[9, 10, 16, 255]);
                let bytes = (0..count).map(|_| self.key_byte()).collect();
                Line::Key {
                    key: self.random.below(KEYS),
                    bytes,
                }
            }
            5 | 6 => {
                let wrong = if self.random.coin() { DEL } else { high_byte };
                let mut bytes: Vec<u8> =
                    (0..self.random.below(8)).map(|_| self.key_byte()).collect();
                bytes.insert(self.random.below(bytes.len() + 1), wrong);
                Line::Key {
                    key: self.random.below(KEYS),
                    bytes,
                }
            }
            7 | 8 => self.impossible_text(),
            11 => self.impossible_memory(),
            14 if !self.bench.terminal.state.wide => Line::Tab {
                column: self.random.within(COLUMNS..=WIDEST - 1),
                on: true,
            },
            12 | 13 if self.bench.terminal.is_possible() => self.impossible_sending(),
            9 => {
                let value = self
                    .random
                    .pick(&[0, 0x1F, 0x21, 0x2F, 0x40, 0x6F, 0x7F, high_byte]);
                Line::Attribute {
                    field: self.random.below(4),
                    value,
                }
            }
            _ => {
                let value = match self.random.below(3) {
                    0 => high_byte,
                    1 => self.random.pick(&[0, 0x1F, 0x7F]),
                    _ => self.random.byte_within(b'/'..=b'B'),
                };
                Line::Feature {
                    feature: self.random.below(5),
                    value,
                }
            }
        };
        self.add(line);
    }

    fn cursor_in_wrong_segment(&mut self) {
        let row = self.random.within(2..=ROWS) as u8;
        self.add(Line::Split(row));
        let border = self.bench.terminal.state.segment(1).start as u16;
        let (upper, lower) = match self.random.below(3) {
            0 => (border, border),
            1 => (border - 1, border - 1),
            _ => (0, self.random.below(border as usize) as u16),
        };
        self.add(Line::Cursor {
            segment: 0,
            cell: upper,
        });
        self.add(Line::Cursor {
            segment: 1,
            cell: lower,
        });
    }

    fn return_to_possible(&mut self) {
        if self.bench.terminal.page.len() != self.cells() {
            let length = self.cells();
            self.add(Line::Length(length));
        }
        if !self.bench.terminal.is_possible() && self.random.once_in(3) {
            self.forget_send();
        }
        if !self.bench.terminal.is_possible() {
            self.power_on_either();
        }
        if self.random.coin() {
            self.page_scene();
        }
    }
}
