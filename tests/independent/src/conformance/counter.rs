//! The alert counter.

use super::book::Book;
use crate::state::CELLS;
use crate::transcript::Line;

const PIECES: &[u8] = b"ab\x1c\x1f{}\x1cc  \x1f\r";

impl Book {
    pub(super) fn counter(&mut self) {
        self.pieces();
        self.refusals_of_counts();
        self.bytes_of_counts();
        self.sizes_of_parts();
        self.counts_of_sends();
    }

    fn count(&mut self, reply: &[u8], first: usize, last: usize) {
        self.line(Line::Count {
            reply: reply.to_vec(),
            first,
            last,
        });
    }

    fn entry(&mut self, text: &[u8]) {
        self.line(Line::Entry(text.to_vec()));
    }

    fn pieces(&mut self) {
        self.case("A3: pieces from a first to a last number");
        for first in 0..=6 {
            for last in 0..=6 {
                self.count(PIECES, first, last);
            }
        }
        self.case("A3: n marks, n + 1 pieces");
        for reply in [
            &b"\r"[..],
            b"\x1c\r",
            b"\x1f\x1c\r",
            b"a\x1e\r",
            b"\x1c\x1c\x1c\r",
        ] {
            for last in 1..=5 {
                self.count(reply, last, last);
            }
        }
        self.case("A3: trailing spaces are dropped from the whole alone");
        let spaces = [b' '; 160];
        let reply = [
            b"a",
            &spaces[..],
            b"\x1cb",
            &spaces,
            b"\x1c",
            &spaces,
            b"\r",
        ]
        .concat();
        for (first, last) in [(1, 1), (1, 2), (1, 3), (2, 2), (2, 3), (3, 3)] {
            self.count(&reply, first, last);
        }
    }

    fn refusals_of_counts(&mut self) {
        self.case("A3: refusals in their order");
        for reply in [&b""[..], b"`", b"a\r\x1c", b"`\r", b"a\r"] {
            for (first, last) in [(0, 0), (0, 2), (2, 1), (2, 2), (1, 2), (1, 1), (1, 65535)] {
                self.count(reply, first, last);
            }
        }
        self.case("A3: the first byte outside, with its place in the whole");
        for (first, last) in [(1, 4), (2, 3), (2, 4), (3, 3), (4, 4), (1, 2)] {
            self.count(b"ab\x1ccd\x1fe`\x1c`\xff\r", first, last);
        }
        self.count(b"a  \x1c  \xff  \r", 1, 2);
        self.count(b"a  \x1c  \xff  \r", 2, 2);
        self.count(b"a\r\r", 1, 1);
        self.count(&[&[b'a'; 400][..], b"`\r"].concat(), 1, 1);
    }

    fn bytes_of_counts(&mut self) {
        self.case("A3: every byte, for the count and for the C entry");
        for byte in 0x00..=0xFF {
            self.count(&[b'a', byte, b'b', 0x0D], 1, 1);
            self.entry(&[b'a', byte]);
        }
        self.case("A3: what every byte costs");
        for byte in 0x20..=0x7F {
            self.entry(&[byte; 81]);
        }
    }

    fn sizes_of_parts(&mut self) {
        self.case("A3: sizes of parts");
        for count in [0, 1, 159, 160, 161, 306, 307, 459, 460] {
            self.count(&[&vec![b'a'; count][..], b"\r"].concat(), 1, 1);
        }
        for count in [1, 80, 81, 152, 153, 228, 229] {
            self.entry(&vec![b'['; count]);
        }
        self.case("A3: no character of two units is cut");
        for before in [151, 152, 153] {
            for after in [151, 152, 153, 154] {
                self.entry(&[&vec![b'a'; before][..], b"~", &vec![b'a'; after]].concat());
            }
        }
        for before in [304, 305] {
            self.entry(&[&vec![b'a'; before][..], b"|", &[b'a'; 152]].concat());
        }
    }

    fn counts_of_sends(&mut self) {
        self.case("A3: the reply of a form sent by ESC 5");
        self.fill(0, CELLS, b'#' as u16 | 128);
        for (place, letter) in [(10, b'a'), (95, b'{'), (170, b'z')] {
            self.fill(place, 60, letter as u16);
        }
        self.cursor(0, 240);
        self.run(b"\x1b5");
        let piece = |letter: u8| vec![letter; 60];
        let reply = [
            b"\x1c",
            &piece(b'a')[..],
            b"\x1c\x1f\x1c",
            &piece(b'{'),
            b"\x1c\x1f\x1c",
            &piece(b'z'),
            b"\x1c\x1f\x1c\r",
        ]
        .concat();
        for (first, last) in [(1, 1), (2, 2), (2, 5), (5, 8), (1, 10), (10, 11), (11, 12)] {
            self.count(&reply, first, last);
        }
    }
}
