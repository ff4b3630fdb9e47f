//! Mending a damaged saved page.

use super::book::Book;
use crate::state::{Personality, CELLS, COLUMNS, ROWS, WIDEST};
use crate::transcript::limits::MOST_ENTRIES;
use crate::transcript::Line;

const BOTH: [Personality; 2] = [Personality::Wy50, Personality::Wy60];
const EDGE_CODES: [u16; 14] = [
    0x00, 0x01, 0x1F, 0x20, 0x21, 0x2F, 0x30, 0x3F, 0x40, 0x6F, 0x70, 0x7D, 0x7E, 0x7F,
];

impl Book {
    pub(super) fn mending(&mut self) {
        self.every_sort_of_number();
        self.noise_mended();
        self.lists_too_short();
        self.pages_mended();
    }

    fn mend(&mut self, personality: Personality, entries: usize) {
        self.line(Line::Mend {
            personality,
            entries,
        });
    }

    fn every_sort_of_number(&mut self) {
        for personality in BOTH {
            for (high_bits, title) in [
                (&[0x0000, 0x0100, 0x0200, 0x0300][..], "kinds"),
                (
                    &[0x0400, 0x2600, 0x7800, 0x7A00],
                    "flags with text and graphics",
                ),
                (
                    &[0x7C00, 0x0500, 0x7B00, 0x8000],
                    "flags that nothing writes",
                ),
            ] {
                self.case(&format!("A13: numbers by code and protected bit, {title}"));
                let codes = EDGE_CODES
                    .into_iter()
                    .chain(EDGE_CODES.map(|code| code | 128));
                let numbers = codes.flat_map(|code| high_bits.iter().map(move |bits| bits | code));
                for (index, number) in numbers.enumerate() {
                    self.cell(index, number);
                }
                self.mend(personality, 200);
                self.mend(personality, 200);
            }
            self.case("A13: every flag bit with an A, a graphic and a null");
            for flags in 0..64 {
                self.cell(flags, (flags as u16) << 10 | 0x41);
                self.cell(64 + flags, (flags as u16) << 10 | 0x2B1);
                self.cell(128 + flags, (flags as u16) << 10);
            }
            self.mend(personality, 200);
        }
    }

    fn noise_mended(&mut self) {
        for (seed, mask, share) in [(1, 0x007F, 128), (2, 0x7F7F, 128), (3, 0xFFFF, 100)] {
            for personality in BOTH {
                self.case("A13: a page of noise");
                self.line(Line::Noise { seed, mask, share });
                self.mend(personality, CELLS);
                self.mend(personality, 0);
            }
        }
        self.case("A13: a wide page of noise");
        self.line(Line::Wide(true));
        self.line(Line::Length(ROWS * WIDEST));
        self.line(Line::Noise {
            seed: 4,
            mask: 0x007F,
            share: 8,
        });
        self.mend(Personality::Wy60, MOST_ENTRIES);
        self.line(Line::Wide(false));
    }

    fn lists_too_short(&mut self) {
        self.case("A13: lists too short and just long enough");
        for index in [0, COLUMNS - 1, COLUMNS, CELLS - 1] {
            self.cell(index, 0x7F);
        }
        for entries in [0, 3, 4] {
            self.mend(Personality::Wy50, entries);
        }
        self.show();
        self.mend(Personality::Wy50, 5);
    }

    fn pages_mended(&mut self) {
        self.case("A13: pages of other lengths");
        self.line(Line::Length(0));
        self.mend(Personality::Wy50, 10);
        for length in [1, 24, 1919, 1921, 1944, 3167, 3169, 4000] {
            self.line(Line::Length(length));
            self.fill(0, length, 0x7F);
            for entries in [0, 10, MOST_ENTRIES] {
                self.mend(Personality::Wy50, entries);
            }
        }
        self.case("A13: a wide page beside a narrow state");
        self.line(Line::Length(ROWS * WIDEST));
        for index in [WIDEST - 1, WIDEST, ROWS * WIDEST - 1] {
            self.cell(index, 0x80);
        }
        self.mend(Personality::Wy60, 10);
        self.case("A13: an impossible state, and a send");
        self.cell(5, 0x80);
        self.line(Line::Split(1));
        self.mend(Personality::Wy60, 10);
        self.line(Line::Split(0));
        self.run_in(b"\x1b?", 1);
        self.cell(6, 0x80);
        self.mend(Personality::Wy50, 10);
        self.case("A13: nothing that the terminal wrote is mended");
        self.run(b"\x1b.\x00\x1b)No\x1bG4\x1bH5\x1b(\x1bG~a\x1bH?\x1bG x\x1bV\x1bQ\x1bE");
        self.mend(Personality::Wy50, 0);
        self.mend(Personality::Wy60, 9);
        self.run(b"\x1b!7");
        self.mend(Personality::Wy50, 0);
        self.mend(Personality::Wy60, 0);
        self.case_60("A13: nor what WY-60 wrote");
        self.run(b"\x1b!7\x1bGt\x1b)No\x1b(\x1bG4a\x1bH5x\x1bV\x1bG~b\x1bG c");
        self.mend(Personality::Wy60, 0);
        self.mend(Personality::Wy50, 9);
        self.show();
    }
}
