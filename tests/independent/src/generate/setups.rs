//! Saved set-ups: saves, restores and damaged stores.

use super::Generator;
use crate::setups::{is_left_by_saves, last_number, PLACE, STORE};
use crate::transcript::Line;

impl Generator {
    /// A save or a restore, mostly one that works.
    pub(super) fn setup_call(&mut self) {
        if !is_left_by_saves(&self.bench.store) && self.random.below(3) > 0 {
            self.add(Line::Store(STORE));
        }
        match self.random.below(24) {
            0 => return self.damaged_store(),
            1 => {
                let lengths = [0, 1, 2, PLACE, STORE - 1, STORE, STORE + 1];
                let length = self.random.pick(&lengths);
                self.add(Line::Store(length));
            }
            2 | 3 => self.set_last_number(),
            _ => {}
        }
        self.save_or_restore();
    }

    fn save_or_restore(&mut self) {
        if self.random.coin() {
            return self.add(Line::Save);
        }
        let last = match self.bench.store.len() {
            0 | 1 => 0,
            _ => last_number(&self.bench.store),
        };
        let number = match self.random.below(8) {
            0 => self.random.pick(&[0, 1, 65535]),
            1 => last.saturating_add(1),
            2 => last.saturating_sub(8),
            3 => last.saturating_sub(7),
            _ => last.saturating_sub(self.random.below(8) as u16),
        };
        self.add(Line::Restore(number));
    }

    /// Another last number: with eight set-ups kept, any from 8 on will do.
    fn set_last_number(&mut self) {
        if self.bench.store.len() < 2 {
            return;
        }
        let number = match self.random.below(4) {
            0 => self.random.number() as u16,
            _ => self
                .random
                .pick(&[8, 9, 255, 256, 257, 32768, 65528, 65533, 65534, 65535]),
        };
        if last_number(&self.bench.store) < 8 && self.random.below(8) > 0 {
            return;
        }
        for (index, value) in number.to_le_bytes().into_iter().enumerate() {
            self.add(Line::Byte { index, value });
        }
    }

    /// One byte changed, a call, and mostly the byte as it was.
    fn damaged_store(&mut self) {
        if self.bench.store.is_empty() {
            return self.add(Line::Save);
        }
        let index = match self.random.below(6) {
            0 => self.random.below(2),
            1 => 2 + PLACE * self.random.below(8) + self.random.below(2),
            2 => 2 + PLACE * self.random.below(8) + PLACE - 1,
            3 => self.random.below(STORE),
            _ => 4 + PLACE * self.random.below(8) + self.random.below(260),
        };
        let index = index.min(self.bench.store.len() - 1);
        let old = self.bench.store[index];
        let value = match self.random.below(5) {
            0 => old ^ 1,
            1 => old.wrapping_add(1),
            2 => old.wrapping_sub(1),
            3 => self.random.pick(&[0x00, 0x0D, 0x1B, 0x20, 0x7F, 0x80]),
            _ => self.random.byte(),
        };
        self.add(Line::Byte { index, value });
        self.save_or_restore();
        if self.random.below(8) > 0 {
            self.add(Line::Byte { index, value: old });
        }
    }
}
