//! Scenes: a page and a state set by lines.

use super::Generator;
use crate::state::{ESC, KEYS, LABEL_BYTES, MESSAGE_BYTES, ROWS};
use crate::transcript::Line;

const PROTECTED: u16 = 128;

impl Generator {
    pub(super) fn scene(&mut self) {
        if self.random.once_in(6) {
            self.choose_width();
        }
        if self.random.coin() {
            self.page_scene();
        }
        if self.random.coin() {
            self.place_cursors();
        }
        if self.random.once_in(4) {
            self.choose_personality();
        }
        for _ in 0..self.random.within(0..=3) {
            self.set_something();
        }
        if self.random.once_in(3) {
            let line = self.pending();
            self.add(line);
        }
        if self.random.once_in(4) && self.bench.terminal.is_possible() {
            let line = self.sending();
            self.add(line);
        }
        if self.random.once_in(4) {
            self.row_scene();
        }
        if !self.bench.terminal.is_possible() {
            self.forget_send();
        }
    }

    pub fn page_scene(&mut self) {
        match self.random.below(6) {
            0..=2 => self.noise(),
            3 => self.labels(),
            4 => self.few_open_cells(),
            _ => self.cells_about_cursor(),
        }
        let on = self.random.below(4) > 0;
        self.add(Line::Mode { mode: 0, on });
    }

    fn noise(&mut self) {
        let seed = self.random.number() as u32;
        let mask = self.random.pick(&[
            0x007F, 0x007F, 0x017F, 0x037F, 0x7C7F, 0xFFFF, 0x0000, 0x005F,
        ]);
        let share = self
            .random
            .pick(&[0, 1, 4, 16, 64, 128, 192, 240, 252, 255, 256]);
        self.add(Line::Noise { seed, mask, share });
    }

    fn written_cell(&mut self) -> u16 {
        let flags = match self.random.below(4) {
            0 => self.random.below(0x40) as u16,
            _ => 0,
        };
        self.random.below(0x300) as u16 | flags << 10
    }

    fn labels(&mut self) {
        let cells = self.cells();
        for _ in 0..self.random.within(1..=12) {
            let index = self.random.below(cells);
            let longest = self.random.pick(&[5, 20, 80, 400]);
            let count = self.random.within(0..=longest).min(self.cells() - index);
            let value = self.written_cell() | PROTECTED;
            self.add(Line::Fill {
                index,
                count,
                value,
            });
        }
    }

    fn few_open_cells(&mut self) {
        let (cells, columns) = (self.cells(), self.columns());
        let value = self.written_cell() | PROTECTED;
        self.add(Line::Fill {
            index: 0,
            count: cells,
            value,
        });
        for _ in 0..self.random.below(4) {
            let index = match self.random.below(3) {
                0 => self
                    .random
                    .pick(&[0, columns - 1, columns, cells - columns, cells - 1]),
                _ => self.random.below(cells),
            };
            let value = self.written_cell() & !PROTECTED;
            self.add(Line::Cell { index, value });
        }
    }

    fn cells_about_cursor(&mut self) {
        let cursor = self.bench.terminal.state.cursors
            [self.bench.terminal.state.active as usize & 1] as usize;
        for _ in 0..self.random.within(1..=6) {
            let index = (cursor + self.random.below(12))
                .saturating_sub(4)
                .min(self.cells() - 1);
            let value = match self.random.below(4) {
                0 => self.random.number() as u16,
                _ => self.written_cell() ^ PROTECTED,
            };
            self.add(Line::Cell { index, value });
        }
    }

    pub fn place_cursors(&mut self) {
        if self.random.coin() {
            let row = self.random.within(1..=ROWS) as u8;
            self.add(Line::Split(if row == 1 { 0 } else { row }));
        }
        let is_split = self.bench.terminal.state.split != 0;
        let active = if is_split {
            self.random.below(2) as u8
        } else {
            0
        };
        self.add(Line::Active(active));
        for segment in 0..2 {
            let cells = self.bench.terminal.state.segment(segment);
            let cell = match self.random.below(6) {
                0 => cells.start,
                1 => cells.end - 1,
                2 => cells.end - self.columns(),
                _ => self.random.within(cells.start..=cells.end - 1),
            };
            self.add(Line::Cursor {
                segment,
                cell: cell as u16,
            });
        }
    }

    pub fn set_something(&mut self) {
        let line = match self.random.below(11) {
            0 => Line::Tab {
                column: self.random.below(self.columns()),
                on: self.random.coin(),
            },
            1 => {
                let value = self.random.pick(&[0x20, 0x30, 0x3F, 0x70, 0x7E]);
                Line::Attribute {
                    field: self.random.below(4),
                    value,
                }
            }
            2 => {
                let feature = self.random.below(5);
                let codes: [&[u8]; 5] = [b"01", b"2345", b"67A", b"89", b"<=>?@"];
                Line::Feature {
                    feature,
                    value: self.random.pick(codes[feature]),
                }
            }
            3 => {
                let bytes = (0..self.random.within(0..=8))
                    .map(|_| self.key_byte())
                    .collect();
                Line::Key {
                    key: self.random.below(KEYS),
                    bytes,
                }
            }
            4 => Line::Bells(self.random.pick(&[0, 1, 128, 254, 255])),
            5 | 6 => self.set_text(),
            7 => Line::Wish(self.random.coin()),
            _ => Line::Mode {
                mode: self.random.within(1..=5),
                on: self.random.coin(),
            },
        };
        self.add(line);
    }

    pub fn pending(&mut self) -> Line {
        let any = |generator: &mut Generator| generator.random.byte_within(0x00..=0x7F);
        let mut bytes = vec![ESC];
        let mut spoilt = false;
        match self.random.below(17) {
            0 => bytes.clear(),
            1 => {}
            2 => bytes.push(b'='),
            3 => bytes.extend([b'=', self.row_code(ROWS)]),
            4 => bytes
                .extend(&[b'-', self.random.pick(b"01"), any(self)][..self.random.within(1..=3)]),
            5 => bytes.extend([b'-', any(self), any(self)]),
            6 => bytes.extend(&[b'A', any(self)][..self.random.within(1..=2)]),
            7 => bytes.push(self.random.pick(b"GH!.`")),
            8 => bytes.extend(&b"x1"[..self.random.within(1..=2)]),
            9 => bytes.extend(&[b'a', self.digit(), self.digit()][..self.random.within(1..=3)]),
            10 | 11 => {
                bytes.extend([b'a', self.digit(), self.digit(), b'R']);
                for _ in 0..self.random.within(0..=3) {
                    bytes.push(self.digit());
                }
            }
            12 => {
                bytes.extend([b'z', self.key_value()]);
                for _ in 0..self.random.within(0..=8) {
                    bytes.push(self.key_byte());
                }
            }
            13 => {
                bytes.extend([b'z', self.label_field()]);
                bytes.extend(self.characters(LABEL_BYTES));
            }
            14 => {
                bytes.push(b'F');
                bytes.extend(self.characters(MESSAGE_BYTES));
            }
            15 => {
                spoilt = true;
                let field = self.label_field();
                bytes.extend(self.random.pick(&[&[b'z', field][..], b"F"]));
            }
            _ => {
                bytes.push(b'z');
                spoilt = self.random.coin();
                if spoilt {
                    bytes.push(self.key_value());
                }
            }
        }
        Line::Pending { bytes, spoilt }
    }

    fn digit(&mut self) -> u8 {
        self.random.byte_within(b'0'..=b'9')
    }
}
