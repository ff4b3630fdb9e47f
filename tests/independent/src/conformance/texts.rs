//! The host message and the key labels.

use super::book::Book;
use crate::state::{CR, DEL, ESC, LABEL_BYTES, MESSAGE_BYTES};
use crate::transcript::Line;

const LETTERS: &[u8] = b"The host says that roasting is over for today, and more";
const LABEL_FIELDS: [u8; 16] = *b"01234567PQRSTUVW";

impl Book {
    pub(super) fn texts(&mut self) {
        self.messages();
        self.labels();
        self.every_byte_within_texts();
        self.spoilt_texts();
        self.shifted_line();
        self.texts_beside_the_rest();
        self.texts_under_way();
        self.texts_handed_in();
    }

    fn messages(&mut self) {
        self.case("A1: host messages of all lengths");
        for count in 0..=MESSAGE_BYTES + 3 {
            self.run(&message(&LETTERS[..count]));
        }
        self.run(&message(b""));
        self.run(&message(b" ~ "));
        self.case("A1: a host message byte by byte");
        self.steps(&message(b"Hi"));
        self.steps(&message(b""));
        self.case("A1: a host message cut by runs and without any room");
        self.run_in(b"\x1b", 0);
        self.run_in(b"FHi th", 0);
        self.run_in(b"", 0);
        self.run_in(b"ere\rX", 0);
        self.case("A1: power-on empties message and labels and turns the line off");
        self.run(b"\x1bFHi\r\x1bz0ab\r\x1bzWcd\r\x1bFunder way");
        self.line(Line::On(None));
        self.run(b"Hi\r");
    }

    fn labels(&mut self) {
        self.case("A1: every byte after ESC z, then a text with both ends");
        for field in 0x00..=0x7F {
            self.pending(b"");
            self.steps(&[ESC, b'z', field]);
            self.run(&[b'a', field, CR, DEL]);
        }
        self.case("A1: every byte after ESC z as a label, then cleared");
        for text in [&b"L"[..], b""] {
            for field in 0x00..=0x7F {
                self.pending(b"");
                self.run(&label(field, text));
            }
        }
        self.case("A1: labels of all lengths");
        for count in 0..=LABEL_BYTES + 3 {
            for field in *b"07PW" {
                self.run(&label(field, &LETTERS[..count]));
            }
        }
        self.case("A1: sixteen labels apart");
        for field in LABEL_FIELDS {
            self.run(&label(field, &[field, b'=', field]));
        }
        for field in LABEL_FIELDS {
            self.run(&label(field, b""));
        }
        self.case("A1: a short label over a long one, and keys and message beside it");
        self.run(b"\x1bzP12345678\r\x1bzP1\r\x1bz@12345678\x7f\x1bzA1\x7f");
        self.run(b"\x1bFa long message stands here\r\x1bz0x\r\x1bzA\x7f\x1bFb\r");
        self.press(0x40);
        self.press(0x41);
    }

    fn every_byte_within_texts(&mut self) {
        for head in [&b"\x1bF"[..], b"\x1bzS"] {
            self.case("A1: every byte within a text");
            for byte in (0x00..=0x80).chain([0xFF]) {
                self.pending(b"");
                self.run(&[head, b"old\r", head, b"a", &[byte][..], b"b\r"].concat());
            }
            self.case("A1: every byte first in a text");
            for byte in (0x00..=0x80).chain([0xFF]) {
                self.pending(b"");
                self.run(&[head, &[byte][..], b"\r"].concat());
            }
            self.case("A1: every byte just after the last that fits");
            let most = if head.len() == 2 {
                MESSAGE_BYTES
            } else {
                LABEL_BYTES
            };
            for byte in (0x00..=0x80).chain([0xFF]) {
                self.pending(&[head, &LETTERS[..most]].concat());
                self.run(&[byte, CR]);
            }
        }
    }

    fn spoilt_texts(&mut self) {
        for head in [&b"\x1bF"[..], b"\x1bz7", b"\x1bzP"] {
            for bad in *b"\x00\x0a\x1b\x1f\x7f" {
                self.case("A1: a text spoilt is swallowed to CR");
                self.run(&[head, b"old\r"].concat());
                self.steps(&[head, b"a", &[bad][..]].concat());
                self.steps(b"b\x1b*\x1b=\x25\x25X\x7f\x00\x80\xff");
                self.steps(b"\rB");
            }
            self.case("A1: an overlong text is swallowed to CR");
            self.run(&[head, b"old\r"].concat());
            self.run(&[head, LETTERS].concat());
            self.steps(b"\x1b*\x7f\xffc\x00\r");
            self.case("A1: every byte within a spoilt text");
            for byte in (0x00..=0x80).chain([0xFF]) {
                self.line(Line::Pending {
                    bytes: head.to_vec(),
                    spoilt: true,
                });
                self.step(byte);
                self.run(b"A\r");
            }
        }
        self.case("A1: a refused text is one refused byte of a run");
        self.run(b"\x1bFa\x00b\x00c\r\x1bz0123456789\r\x1bzP\x1b\x1b\x1b\r");
        self.run(b"\x1bF\x80a\x81b\x82\r\x1bzP\xffa\xff\r");
        self.run(b"\x1bF\x00\x80\x81\r");
        self.case("A1: bytes 80h and above leave a text as good as it was");
        let full = &LETTERS[..MESSAGE_BYTES];
        self.run(&[b"\x1bF", full, b"\x80\xff\r"].concat());
        self.run(&[b"\x1bFa\xe9", full, b"\x80\r"].concat());
        self.run(b"\x1bz0\x8012345678\xff\r\x1bz112345678\xff9\r");
        self.run(b"\x1bz\xffP\xffa\r");
        self.case("A1: key texts hold CR and end at DEL alone");
        self.run(b"\x1bz@a\rb\x0d\x7f");
        self.press(0x40);
        self.run(b"\x1bzA123456789\r\x1bFno\r\x7f");
        self.press(0x41);
    }

    fn shifted_line(&mut self) {
        for on in [false, true] {
            self.case("A1: what turns the shifted line on and off");
            for command in [
                &b"\x1bz0a\r"[..],
                b"\x1bz0\r",
                b"\x1bz0123456789\r",
                b"\x1bzPa\r",
                b"\x1bzW \r",
                b"\x1bzP\r",
                b"\x1bzP123456789\r",
                b"\x1bzPa\x00\r",
                b"\x1bz\x7f",
                b"\x1bFa\r",
                b"\x1bz@a\x7f",
            ] {
                self.line(Line::Shifted(on));
                self.run(command);
            }
        }
        self.case("A1: DEL inside a label does not turn the line off");
        self.run(b"\x1bzPa\r");
        self.steps(b"\x1bzQb\x7f\r");
        self.steps(b"\x1bz\x7f");
        self.steps(b"\x1bz\x7f");
        self.steps(b"\x1bzQ\r");
        self.steps(b"\x1bz(\x1bz)");
    }

    fn texts_beside_the_rest(&mut self) {
        self.case("A1: neither command touches the page or settles the cursor");
        self.form(&[(100, 3)]);
        self.cursor(0, 20);
        self.run(b"\x1bFHi\r\x1bz0a\r\x1bzPb\r\x1bz\x7f");
        self.run(b"\x1bFHi\x00\r\x1bzPb\x00\r");
        self.show();
        self.case("A1: a key press and a locked keyboard during a text");
        self.run(b"\x0f\x1bFab");
        self.press(0x40);
        self.line(Line::Mode { mode: 4, on: false });
        self.press(0x40);
        self.press_in(0x41, 2);
        self.run(b"c\r");
    }

    fn texts_under_way(&mut self) {
        let full = [b"\x1bF", &LETTERS[..MESSAGE_BYTES]].concat();
        for sequence in [
            &b"\x1bF"[..],
            b"\x1bFa",
            b"\x1bF ~",
            &full,
            b"\x1bz0",
            b"\x1bz7ab",
            b"\x1bzP",
            b"\x1bzW12345678",
        ] {
            self.case("A1: a text under way, then one byte");
            for byte in *b" ~\x00\x0d\x1b\x1f\x7f\x80\xff" {
                self.pending(sequence);
                self.step(byte);
            }
        }
        for sequence in [&b"\x1bF"[..], b"\x1bz0", b"\x1bzW", b"\x1bzo"] {
            self.case("A1: a spoilt text under way, then one byte");
            for byte in *b" \x00\x0d\x1b\x7f\x80" {
                self.line(Line::Pending {
                    bytes: sequence.to_vec(),
                    spoilt: true,
                });
                self.step(byte);
            }
        }
    }

    fn texts_handed_in(&mut self) {
        for count in [MESSAGE_BYTES + 1, 255] {
            self.impossible("a long message", &[Line::Message(vec![b'a'; count])]);
        }
        for count in [LABEL_BYTES + 1, 255] {
            for label in [0, 15] {
                self.impossible("a long label", &[label_line(label, &vec![b'a'; count])]);
            }
        }
        for bad in [0x00, CR, 0x1F, DEL, 0x80, 0xFF] {
            let last = [&LETTERS[..MESSAGE_BYTES - 1], &[bad]].concat();
            self.impossible("a byte in the message", &[Line::Message(last)]);
            self.impossible("a byte in the message", &[Line::Message(vec![bad])]);
            self.impossible("a byte in a label", &[label_line(7, &[bad, b'a'])]);
            self.impossible(
                "a byte in a label",
                &[label_line(8, &[b"1234567", &[bad][..]].concat())],
            );
        }
        self.case("A1: possible texts at the edges");
        self.line(Line::Message(LETTERS[..MESSAGE_BYTES].to_vec()));
        self.step(b'A');
        self.line(Line::Message(b" ~".to_vec()));
        self.line(label_line(0, b" 23456 ~"));
        self.line(label_line(15, b"~"));
        self.step(b'A');
        self.run(b"\x1bF\r\x1bz0\r\x1bzW\r");
        self.line(Line::Shifted(true));
        self.step(b'A');
        self.run(b"\x1bzPa\r");
        self.line(Line::Shifted(false));
        self.step(b'A');
    }
}

fn message(text: &[u8]) -> Vec<u8> {
    [b"\x1bF", text, b"\r"].concat()
}

fn label(field: u8, text: &[u8]) -> Vec<u8> {
    [&[ESC, b'z', field], text, b"\r"].concat()
}

fn label_line(label: usize, bytes: &[u8]) -> Line {
    Line::Label {
        label,
        bytes: bytes.to_vec(),
    }
}
