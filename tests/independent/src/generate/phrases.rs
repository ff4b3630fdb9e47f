//! Phrases: bytes that belong together.

use super::Generator;
use crate::state::{DEL, ESC};

const KNOWN_ESCAPES: &[u8] = b" !\"#&'()*+,-./0124567:;=?AEFGHIJKMNOQRTVWY]`abijklqrtxyz{}";
const MOVES: &[u8] = &[0x08, 0x09, 0x0A, 0x0B, 0x0C, 0x0D, 0x1E, 0x1F];

impl Generator {
    pub(super) fn phrase(&mut self) -> Vec<u8> {
        type Composer = fn(&mut Generator, &mut Vec<u8>);
        const COMPOSERS: &[(usize, Composer)] = &[
            (20, Generator::compose_text),
            (14, Generator::compose_moves),
            (4, Generator::compose_control),
            (20, Generator::compose_known_escape),
            (8, Generator::compose_address),
            (4, Generator::compose_segment_address),
            (6, Generator::compose_decimal_address),
            (4, Generator::compose_split),
            (5, Generator::compose_key),
            (4, Generator::compose_label),
            (3, Generator::compose_message),
            (5, Generator::compose_attribute_or_graphic),
            (4, Generator::compose_attributed_text),
            (2, Generator::compose_field_attribute),
            (3, Generator::compose_feature),
            (2, Generator::compose_fill),
            (9, Generator::compose_reply),
            (5, Generator::compose_protected_text),
            (6, Generator::compose_edge),
            (8, Generator::compose_mode),
            (6, Generator::compose_edit),
            (5, Generator::compose_tab_stops),
            (2, Generator::compose_any_escape),
            (2, Generator::compose_anything),
        ];
        let mut phrase = Vec::new();
        let composer = self.random.weighted(COMPOSERS);
        composer(self, &mut phrase);
        self.damage(&mut phrase);
        phrase
    }

    /// Now and then puts in, takes out or changes a byte.
    fn damage(&mut self, phrase: &mut Vec<u8>) {
        let place = self.random.below(phrase.len() + 1);
        match self.random.below(100) {
            0..=3 => phrase.insert(place, self.random.byte_within(0x80..=0xFF)),
            4 => phrase.insert(place, self.random.byte()),
            5 if place < phrase.len() => {
                phrase.remove(place);
            }
            6 if place < phrase.len() => phrase[place] = self.random.byte(),
            _ => {}
        }
    }

    pub(super) fn text_byte(&mut self) -> u8 {
        self.random.byte_within(b' '..=b'~')
    }

    pub(super) fn push_text(&mut self, count: usize, phrase: &mut Vec<u8>) {
        for _ in 0..count {
            phrase.push(self.text_byte());
        }
    }

    fn compose_text(&mut self, phrase: &mut Vec<u8>) {
        let most = self.random.pick(&[1, 3, 10, 10, 30, 100]);
        let count = self.random.within(1..=most);
        self.push_text(count, phrase);
    }

    fn compose_moves(&mut self, phrase: &mut Vec<u8>) {
        let repeated = self.random.pick(MOVES);
        for _ in 0..self.random.within(1..=4) {
            let other = self.random.pick(MOVES);
            phrase.push(if self.random.coin() { repeated } else { other });
        }
        if self.random.once_in(4) {
            phrase.extend([ESC, self.random.pick(b"iIjjJK]}{")]);
        }
    }

    fn compose_control(&mut self, phrase: &mut Vec<u8>) {
        phrase.push(match self.random.below(34) {
            32 | 33 => DEL,
            control => control as u8,
        });
    }

    fn compose_known_escape(&mut self, phrase: &mut Vec<u8>) {
        let mut byte = self.random.pick(KNOWN_ESCAPES);
        // What wipes a page and its protection comes less often.
        if b"*+,:;!.Yy'".contains(&byte) && self.random.below(4) > 0 {
            byte = self.random.pick(KNOWN_ESCAPES);
        }
        phrase.extend([ESC, byte]);
    }

    fn compose_any_escape(&mut self, phrase: &mut Vec<u8>) {
        phrase.extend([ESC, self.random.byte_within(0x00..=0x7F)]);
    }

    fn compose_anything(&mut self, phrase: &mut Vec<u8>) {
        for _ in 0..self.random.within(1..=6) {
            phrase.push(self.random.byte());
        }
    }

    pub(super) fn attribute(&mut self) -> u8 {
        match self.random.below(8) {
            0 => self.random.byte_within(0x00..=0x7F),
            1 => b' ',
            2 => self.random.pick(&[0x1F, 0x21, 0x2F, 0x40, 0x6F, 0x7F]),
            3..=5 => self.random.byte_within(0x30..=0x3F),
            _ => self.random.byte_within(0x70..=0x7E),
        }
    }

    pub(super) fn compose_attribute_or_graphic(&mut self, phrase: &mut Vec<u8>) {
        if self.random.coin() {
            phrase.extend([ESC, b'G', self.attribute()]);
        } else if self.random.once_in(5) {
            phrase.extend([ESC, b'H', self.random.byte_within(0x00..=0x7F)]);
        } else {
            phrase.extend([ESC, b'H', self.random.byte_within(0x2F..=0x40)]);
        }
    }

    fn compose_field_attribute(&mut self, phrase: &mut Vec<u8>) {
        let field = match self.random.below(6) {
            0 => self.random.byte_within(0x00..=0x7F),
            _ => self.random.byte_within(b'/'..=b'4'),
        };
        phrase.extend([ESC, b'A', field, self.attribute()]);
    }

    fn compose_feature(&mut self, phrase: &mut Vec<u8>) {
        let feature = match self.random.below(6) {
            0 => self.random.byte_within(0x00..=0x7F),
            _ => self.random.byte_within(b'/'..=b'B'),
        };
        phrase.extend([ESC, b'`', feature]);
    }

    fn compose_fill(&mut self, phrase: &mut Vec<u8>) {
        match self.random.below(6) {
            0 => phrase.push(0x1A),
            1 => phrase.extend([ESC, self.random.pick(b":;")]),
            2 => phrase.extend([ESC, b'!', self.attribute()]),
            3 => phrase.extend([ESC, b'.', self.random.byte_within(0x00..=0x7F)]),
            4 => phrase.extend([ESC, b'.', self.random.pick(&[0x00, 0x1F, 0x20, 0x7E, 0x7F])]),
            _ => phrase.extend([ESC, self.random.pick(b"TtYy")]),
        }
    }

    fn compose_reply(&mut self, phrase: &mut Vec<u8>) {
        match self.random.below(11) {
            0 => phrase.push(0x05),
            reply => phrase.extend([ESC, b" ?/bM45674"[reply - 1]]),
        }
    }

    fn compose_protected_text(&mut self, phrase: &mut Vec<u8>) {
        for _ in 0..self.random.within(1..=3) {
            if self.random.coin() {
                self.compose_address(phrase);
            }
            phrase.extend([ESC, b')']);
            let count = self.random.within(1..=8);
            self.push_text(count, phrase);
            phrase.extend([ESC, b'(']);
        }
        if self.random.below(4) > 0 {
            phrase.extend([ESC, b'&']);
        }
    }

    /// Goes to a place near the segment's or a row's end and does something there.
    fn compose_edge(&mut self, phrase: &mut Vec<u8>) {
        let last_row = self.active_rows() - 1;
        let row = match self.random.below(3) {
            0 => 0,
            1 => self.random.within(0..=last_row),
            _ => last_row,
        };
        let last = self.columns() - 1;
        let column = self
            .random
            .pick(&[0, 0, 1, 78, 79, 80, last - 1, last, last, last]);
        phrase.extend([ESC, b'a']);
        phrase.extend(format!("{}R{}C", row + 1, column + 1).bytes());
        match self.random.below(5) {
            0 => self.compose_text(phrase),
            1 => self.compose_edit(phrase),
            2 => self.compose_reply(phrase),
            3 => self.compose_attribute_or_graphic(phrase),
            _ => self.compose_moves(phrase),
        }
    }

    fn compose_mode(&mut self, phrase: &mut Vec<u8>) {
        phrase.extend([ESC, self.random.pick(b")((&&&''ONOqrrkl\"\"#")]);
    }

    fn compose_edit(&mut self, phrase: &mut Vec<u8>) {
        let edit = self.random.pick(b"QWQWQWQWERTtV");
        for _ in 0..self.random.within(1..=3) {
            phrase.extend([ESC, edit]);
        }
    }

    fn compose_tab_stops(&mut self, phrase: &mut Vec<u8>) {
        for _ in 0..self.random.within(1..=3) {
            match self.random.below(5) {
                0 if self.random.coin() => self.compose_address(phrase),
                0 => self.compose_column(phrase),
                1 => phrase.push(0x09),
                2 => phrase.extend([ESC, self.random.pick(b"iI")]),
                _ => phrase.extend([ESC, self.random.pick(b"11111112220")]),
            }
        }
    }
}
