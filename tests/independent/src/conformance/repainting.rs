//! Repainting a distant display.

use super::book::Book;
use super::widths::WIDE_CELLS;
use crate::repainting::Span;
use crate::state::{Personality, CELLS, WIDEST};
use crate::transcript::Line;

const BOTH: [Personality; 2] = [Personality::Wy50, Personality::Wy60];

impl Book {
    pub(super) fn repainting(&mut self) {
        self.spans_judged();
        self.bytes_judged();
        self.proposals();
        self.proposals_with_attributes();
        self.proposals_refused();
        self.longest_proposals();
        self.pages_of_other_lengths();
    }

    fn spans(&mut self, spans: &[(u16, u16, u16)]) {
        let spans = spans.iter().map(|&(row, column, length)| Span {
            row,
            column,
            length,
        });
        self.line(Line::Spans(spans.collect()));
    }

    fn bytes_of(&mut self, personality: Personality, bytes: &[u8]) {
        self.line(Line::Bytes {
            personality,
            bytes: bytes.to_vec(),
        });
    }

    fn propose(&mut self, personality: Personality, spans: usize, bytes: usize) {
        self.line(Line::Propose {
            personality,
            spans,
            bytes,
        });
    }

    /// Both pages blank.
    fn blank_pages(&mut self) {
        self.fill(0, CELLS, b' ' as u16);
        self.line(Line::Display);
    }

    fn spans_judged(&mut self) {
        self.case("A12: the display shows 1,920 zeros at the start");
        self.spans(&[]);
        self.cell(7, 65);
        self.spans(&[]);
        self.spans(&[(1, 8, 1)]);
        self.case("A12: lists of spans");
        self.blank_pages();
        self.spans(&[]);
        self.fill(5, 2, 65);
        self.fill(79, 2, 66);
        self.cell(CELLS - 1, 67);
        let right = [(1, 6, 2), (1, 80, 1), (2, 1, 1), (24, 80, 1)];
        self.spans(&right);
        for left_out in 0..4 {
            let mut fewer = right.to_vec();
            fewer.remove(left_out);
            self.spans(&fewer);
            let mut twice = right.to_vec();
            twice.insert(left_out, right[left_out]);
            self.spans(&twice);
        }
        let tail = &right[1..];
        for head in [
            &[(1, 1, 79)][..],
            &[(1, 1, 80)],
            &[(1, 6, 1), (1, 7, 1)],
            &[(1, 7, 1), (1, 6, 1)],
            &[(1, 6, 2), (1, 7, 1)],
            &[(1, 5, 2), (1, 7, 73)],
            &[(1, 6, 1)],
            &[(1, 6, 0), (1, 6, 2)],
            &[(0, 6, 2), (1, 6, 2)],
            &[(1, 0, 8)],
            &[(1, 6, 2), (1, 79, 0)],
            &[(1, 6, 65535)],
            &[(1, 6, 65531)],
            &[(65535, 6, 2)],
            &[(1, 65535, 2)],
        ] {
            self.spans(&[head, tail].concat());
        }
        for end in [
            &[(1, 80, 2), (24, 80, 1)][..],
            &[(1, 80, 1), (2, 1, 81), (24, 80, 1)],
            &[(1, 80, 1), (2, 1, 80), (3, 1, 80), (24, 1, 80)],
            &[(1, 80, 1), (2, 1, 1), (24, 80, 2)],
            &[(1, 80, 1), (2, 1, 1), (24, 81, 1)],
            &[(1, 80, 1), (2, 1, 1), (24, 80, 1), (25, 1, 1)],
            &[(2, 1, 1), (1, 80, 1), (24, 80, 1)],
        ] {
            self.spans(&[&right[..1], end].concat());
        }
        self.case("A12: every bit of a number counts as a difference");
        self.blank_pages();
        for bit in 0..16 {
            self.cell(0, 32 ^ 1 << bit);
            self.spans(&[]);
            self.spans(&[(1, 1, 1)]);
        }
    }

    fn bytes_judged(&mut self) {
        self.case("A12: bytes are fed from power-on without any room");
        self.run(b"\x1bx1\x26\x1b}\x1b&\x1b)\x1bq");
        self.blank_pages();
        self.cell(0, 65);
        self.cell(1, 66);
        for bytes in [
            &b"AB"[..],
            b"",
            b"A",
            b"ABC",
            b"ABC\x08 ",
            b"xB\x1eA",
            b"AB\x1b",
            b"AB\x1b=\x20",
            b"AB\x1bFhi",
            b"AB\x1bFhi\r\x1bz@k\x7f\x07\x1b`;",
            b"AB\x05",
            b"AB\x1b?",
            b"AB\x1bM",
            b"AB\x80",
            b"\xffAB",
            b"AB\x1b^",
            b"AB\x1bx2",
            b"AB\x1b}",
            b"\x1b;AB",
            b"\x1bqB\x1eA\x1b=\x20\x22\x1bW",
            b"\x1b)AB",
            b"\x1b,\x1b&AB",
            b"\x1b=\x37\x6fX\x1bj\x1b.\x20AB",
        ] {
            for personality in BOTH {
                self.bytes_of(personality, bytes);
            }
        }
        self.case("A12: attributes by personality");
        self.blank_pages();
        self.cell(0, 65 | 4 << 10);
        for personality in BOTH {
            self.bytes_of(personality, b"\x1bG4A");
            self.bytes_of(personality, b"\x1bG4A\x1bG0");
            self.bytes_of(personality, b"A");
        }
        self.cell(0, 0x0134);
        for personality in BOTH {
            self.bytes_of(personality, b"\x1bG4");
        }
        self.case("A12: any pages may be judged");
        self.line(Line::Noise {
            seed: 21,
            mask: 0xFFFF,
            share: 128,
        });
        self.line(Line::Display);
        self.bytes_of(Personality::Wy50, b"\x0a\x0c\x1b&\x1b'");
        self.bytes_of(Personality::Wy50, b"\x1bj");
        self.spans(&[]);
        self.fill(0, CELLS, 160);
        self.bytes_of(Personality::Wy50, b"\x1b,");
        self.bytes_of(Personality::Wy50, b"\x1b+");
    }

    fn proposals(&mut self) {
        for personality in BOTH {
            self.case("A12: proposals of text, and rooms for them");
            self.blank_pages();
            self.propose(personality, 0, 0);
            self.fill(5, 2, 65);
            self.fill(79, 2, 66);
            self.cell(CELLS - 2, 126);
            self.propose(personality, 10, 100);
            for (spans, bytes) in [(4, 21), (3, 21), (4, 20), (0, 0), (4, 22), (5, 21)] {
                self.propose(personality, spans, bytes);
            }
            self.spans(&[(1, 6, 2), (1, 80, 1), (2, 1, 1), (24, 79, 1)]);
            let painting = b"\x1b=\x20\x25AA\x1b=\x20\x6fB\x1b=\x21\x20B\x1b=\x37\x6e~";
            self.bytes_of(personality, painting);
            self.line(Line::Display);
            self.propose(personality, 0, 0);
            self.fill(0, CELLS - 1, 67);
            self.propose(personality, 24, 3000);
        }
    }

    fn proposals_with_attributes(&mut self) {
        self.case("A12: attributes go on from span to span");
        self.blank_pages();
        for (index, flags) in [
            (0, 0),
            (1, 4),
            (2, 4),
            (9, 4),
            (200, 20),
            (201, 30),
            (900, 0),
        ] {
            self.cell(index, 65 | flags << 10);
        }
        for personality in BOTH {
            self.propose(personality, 10, 100);
        }
        self.line(Line::Display);
        self.fill(0, 10, 32 | 15 << 10);
        self.cell(200, 65);
        self.propose(Personality::Wy60, 10, 100);
        self.case("A12: each attribute by its code");
        self.blank_pages();
        for flags in 0..31 {
            self.cell(2 * flags, 65 | (flags as u16) << 10);
        }
        self.propose(Personality::Wy60, 31, 300);
    }

    fn proposals_refused(&mut self) {
        self.case("A12: pages that the proposer answers 3 for");
        for index in [0, 1000, CELLS - 1] {
            for value in [
                0, 0x1F, 0x7F, 0xA0, 0xC1, 0x0130, 0x0230, 0x0320, 0x0420, 0x7820, 0x7C20, 0x8020,
            ] {
                self.blank_pages();
                self.cell(index, value);
                self.propose(BOTH[(index > 0) as usize], 0, 0);
                self.line(Line::Display);
                self.propose(BOTH[(index > 0) as usize], 9, 99);
                self.cell(index, 32);
                self.propose(BOTH[(index > 0) as usize], 9, 99);
            }
        }
        self.blank_pages();
        self.cell(CELLS - 1, 65);
        for personality in BOTH {
            self.propose(personality, 9, 99);
        }
        self.cell(CELLS - 1, 32);
        self.cell(0, 0x8020);
        self.cell(1, 65);
        self.propose(Personality::Wy50, 0, 0);
    }

    fn longest_proposals(&mut self) {
        self.case("A12: the most spans");
        self.blank_pages();
        self.run(&b"A ".repeat(CELLS / 2 - 1));
        self.run(b"A");
        for (spans, bytes) in [(960, 4800), (959, 4800), (960, 4799), (1000, 5000)] {
            self.propose(Personality::Wy50, spans, bytes);
        }
        self.case_60("A12: the most bytes");
        self.blank_pages();
        self.run(&[&b"\x1bG1A\x1bG~B".repeat(CELLS / 2 - 1)[..], b"\x1bG1A"].concat());
        for (spans, bytes) in [(24, 7772), (23, 7772), (24, 7771), (30, 8000)] {
            self.propose(Personality::Wy60, spans, bytes);
        }
    }

    fn pages_of_other_lengths(&mut self) {
        self.case("A12: pages of unlike or wrong lengths");
        self.line(Line::Display);
        for length in [0, 1919, 1921, 3168, 4000] {
            self.line(Line::Length(length));
            for _ in 0..2 {
                self.spans(&[]);
                self.bytes_of(Personality::Wy50, b"");
                self.propose(Personality::Wy60, 0, 0);
                self.line(Line::Display);
            }
            self.line(Line::Length(CELLS));
            self.spans(&[(0, 0, 0)]);
        }
        self.case("A12: the terminal's own state is not looked at");
        self.blank_pages();
        self.cell(2, 65);
        self.line(Line::Split(1));
        self.line(Line::Wide(true));
        self.spans(&[(1, 3, 1)]);
        for personality in BOTH {
            self.bytes_of(personality, b"\x0c\x0cA");
            self.propose(personality, 1, 5);
        }
        self.wide_case("A12: wide pages");
        self.fill(0, WIDE_CELLS, 32);
        self.line(Line::Display);
        self.propose(Personality::Wy50, 9, 99);
        self.cell(WIDEST - 1, 65);
        self.cell(WIDE_CELLS - 1, 65);
        self.spans(&[(1, 132, 1), (24, 132, 1)]);
        self.spans(&[(1, 132, 2), (24, 132, 1)]);
        self.spans(&[(2, 80, 1)]);
        self.bytes_of(Personality::Wy50, b"\x1ba1R132CA\x1ba24R132C\x1bNA");
        self.bytes_of(Personality::Wy60, b"\x1ba1R132CA\x1ba24R132CA");
        self.propose(Personality::Wy60, 9, 99);
        self.cell(WIDE_CELLS - 1, 32);
        self.propose(Personality::Wy50, 9, 99);
        for bytes in [
            &b"\x1ba1R132CA"[..],
            b"\x1ba1R132CA\x1b=\x37\x6f",
            b"\x1ba1R132CA\x1b=\x37\x70",
            b"\x1ba1R132CA\x1b?",
            b"\x1ba1R132CA\x1bb",
        ] {
            self.bytes_of(Personality::Wy50, bytes);
        }
    }
}
