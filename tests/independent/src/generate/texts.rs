//! Texts of keys, of labels and of the host message, good and spoilt.

use super::Generator;
use crate::state::{CR, DEL, ESC, KEYS, LABELS, LABEL_BYTES, MESSAGE_BYTES};
use crate::transcript::Line;

impl Generator {
    pub(super) fn key_value(&mut self) -> u8 {
        match self.random.below(KEYS) as u8 {
            number if number < 16 => 0x40 + number,
            number => 0x60 + number - 16,
        }
    }

    pub(super) fn key_byte(&mut self) -> u8 {
        match self.random.below(4) {
            0 => self.random.byte_within(0x00..=0x1F),
            _ => self.text_byte(),
        }
    }

    pub(super) fn compose_key(&mut self, phrase: &mut Vec<u8>) {
        phrase.extend([ESC, b'z']);
        if self.random.once_in(8) {
            phrase.push(self.random.byte_within(0x00..=0x7F));
            return;
        }
        phrase.push(self.key_value());
        let count = match self.random.below(6) {
            0 => self.random.within(9..=20),
            1 => self.random.within(7..=9),
            _ => self.random.within(0..=8),
        };
        for _ in 0..count {
            phrase.push(self.key_byte());
        }
        phrase.push(DEL);
    }

    pub(super) fn label_field(&mut self) -> u8 {
        self.random.pick(&[0x30, 0x50]) + self.random.below(LABELS / 2) as u8
    }

    pub(super) fn compose_label(&mut self, phrase: &mut Vec<u8>) {
        phrase.extend([ESC, b'z']);
        match self.random.below(10) {
            0 => return phrase.push(DEL),
            1 => return phrase.push(self.random.byte_within(0x00..=0x7F)),
            _ => phrase.push(self.label_field()),
        }
        self.compose_characters(LABEL_BYTES, phrase);
    }

    pub(super) fn compose_message(&mut self, phrase: &mut Vec<u8>) {
        phrase.extend([ESC, b'F']);
        self.compose_characters(MESSAGE_BYTES, phrase);
    }

    /// A text about as long as what fits, often spoilt, with its CR or without.
    fn compose_characters(&mut self, most: usize, phrase: &mut Vec<u8>) {
        let count = match self.random.below(8) {
            0 | 1 => 0,
            2 => self.random.within(most - 1..=most + 1),
            3 => self.random.within(most..=2 * most),
            _ => self.random.within(1..=most),
        };
        let start = phrase.len();
        self.push_text(count, phrase);
        let place = self.random.within(start..=phrase.len());
        match self.random.below(10) {
            0 => phrase.insert(place, self.random.byte_within(0x00..=0x1F)),
            1 => phrase.insert(place, self.random.pick(&[DEL, ESC, 0x00, 0x1F])),
            2 => phrase.insert(place, self.random.byte_within(0x80..=0xFF)),
            3 => {
                phrase.insert(place, self.random.byte_within(0x00..=0x1F));
                phrase.insert(place, self.random.byte_within(0x80..=0xFF));
            }
            _ => {}
        }
        if !self.random.once_in(12) {
            phrase.push(CR);
        }
    }

    /// A text that is possible.
    pub(super) fn set_text(&mut self) -> Line {
        match self.random.below(4) {
            0 => Line::Shifted(self.random.coin()),
            1 => Line::Message(self.characters(MESSAGE_BYTES)),
            _ => Line::Label {
                label: self.random.below(LABELS),
                bytes: self.characters(LABEL_BYTES),
            },
        }
    }

    pub(super) fn characters(&mut self, most: usize) -> Vec<u8> {
        let mut bytes = Vec::new();
        let count = match self.random.below(6) {
            0 => 0,
            1 => most,
            _ => self.random.within(0..=most),
        };
        self.push_text(count, &mut bytes);
        bytes
    }

    /// A text too long, or with a byte that it cannot hold.
    pub(super) fn impossible_text(&mut self) -> Line {
        let is_message = self.random.coin();
        let most = if is_message {
            MESSAGE_BYTES
        } else {
            LABEL_BYTES
        };
        let mut bytes = Vec::new();
        if self.random.coin() {
            let count = self.random.pick(&[most + 1, most + 2, 2 * most, 255]);
            self.push_text(count, &mut bytes);
        } else {
            let count = self.random.below(most);
            self.push_text(count, &mut bytes);
            let place = self.random.within(0..=count);
            let bad = self
                .random
                .pick(&[0x00, CR, ESC, 0x1F, DEL, 0x80, 0xC1, 0xFF]);
            bytes.insert(place, bad);
        }
        if is_message {
            Line::Message(bytes)
        } else {
            let label = self.random.below(LABELS);
            Line::Label { label, bytes }
        }
    }
}
