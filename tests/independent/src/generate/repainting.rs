//! Repainting: pages that differ a little, spans and bytes right and wrong.

use super::Generator;
use crate::repainting::{differing_stretches, propose, terminal_showing, Span};
use crate::state::{Cell, Personality, CELLS, ESC, ROWS, WIDEST};
use crate::transcript::Line;

const MOST_CHANGES: usize = 80;
const NO_SPAN: Span = Span {
    row: 0,
    column: 0,
    length: 0,
};

impl Generator {
    pub(super) fn repaint(&mut self) {
        let personality = self.random.pick(&[Personality::Wy50, Personality::Wy60]);
        if self.random.once_in(3) {
            return self.painted_bytes(personality);
        }
        let is_narrow = self.bench.terminal.page.len() == CELLS;
        match self.random.below(8) {
            0 => {}
            1..=6 if is_narrow => self.plain_pages(personality),
            _ => {
                self.add(Line::Display);
                self.change_cells(personality);
            }
        }
        match self.random.below(6) {
            0 | 1 => self.spans(),
            2 => self.bytes(personality),
            3 | 4 if !is_narrow => self.spans(),
            _ => self.propose(personality),
        }
    }

    /// Two pages of text that end in equal cells, mostly.
    fn plain_pages(&mut self, personality: Personality) {
        let value = self.plain_cell(personality);
        self.add(Line::Fill {
            index: 0,
            count: CELLS,
            value,
        });
        self.change_cells(personality);
        self.add(Line::Display);
        self.change_cells(personality);
        if self.random.below(8) > 0 {
            let Cell(value) = self.bench.display[CELLS - 1];
            let index = CELLS - 1;
            self.add(Line::Cell { index, value });
        }
    }

    fn plain_cell(&mut self, personality: Personality) -> u16 {
        let code = self.text_byte() as u16;
        match (personality, self.random.below(100)) {
            (_, 0) if self.random.once_in(3) => self.random.number() as u16,
            (Personality::Wy60, 1..=60) => code | (self.random.below(31) as u16) << 10,
            _ => code,
        }
    }

    fn change_cells(&mut self, personality: Personality) {
        let length = self.bench.terminal.page.len();
        if length == 0 {
            return;
        }
        for _ in 0..self.random.within(1..=12) {
            let index = self.random.below(length);
            let most = self.random.pick(&[1, 1, 3, 100]).min(length - index);
            let count = self.random.within(1..=most);
            let value = self.plain_cell(personality);
            self.add(Line::Fill {
                index,
                count,
                value,
            });
        }
    }

    fn spans(&mut self) {
        let (shown, wanted) = (&self.bench.display, &self.bench.terminal.page);
        let mut spans = differing_stretches(shown, wanted).unwrap_or_default();
        for _ in 0..self.random.below(3) {
            self.change_spans(&mut spans);
        }
        self.add(Line::Spans(spans));
    }

    fn change_spans(&mut self, spans: &mut Vec<Span>) {
        let place = self.random.below(spans.len() + 1);
        if place == spans.len() {
            let number = |generator: &mut Generator, most: usize| {
                generator.random.within(0..=most + 1) as u16
            };
            let span = Span {
                row: number(self, ROWS),
                column: number(self, WIDEST),
                length: number(self, 3),
            };
            return spans.push(span);
        }
        let old = spans[place];
        match self.random.below(10) {
            0 => drop(spans.remove(place)),
            1 => spans.insert(place, old),
            2 => spans.swap(0, place),
            3 if old.length > 1 => {
                spans[place].length = 1;
                let rest = Span {
                    column: old.column.wrapping_add(1),
                    length: old.length - 1,
                    ..old
                };
                spans.insert(place + 1, rest);
            }
            4 => spans[place].length = self.random.pick(&[0, 80, 132, 65535]),
            5 => spans[place].row = self.random.pick(&[0, 24, 25, 65535]),
            6 => spans[place].column = self.random.pick(&[0, 1, 80, 133, 65535]),
            7 if old.column > 1 => {
                spans[place].column -= 1;
                spans[place].length = old.length.wrapping_add(1);
            }
            8 => spans[place].length = old.length.wrapping_sub(1),
            _ => spans[place].length = old.length.wrapping_add(1),
        }
    }

    fn proposal(&self, personality: Personality) -> (usize, Vec<u8>) {
        let (mut spans, mut bytes) = ([NO_SPAN; 1000], [0; 8000]);
        let (shown, wanted) = (&self.bench.display, &self.bench.terminal.page);
        let result = propose(shown, wanted, personality, &mut spans, &mut bytes);
        let (span_count, byte_count) = result.unwrap_or((0, 0));
        (span_count, bytes[..byte_count].to_vec())
    }

    fn propose(&mut self, personality: Personality) {
        let (spans, bytes) = self.proposal(personality);
        let (spans, bytes) = match self.random.below(6) {
            0 => (spans.saturating_sub(1), bytes.len()),
            1 => (spans, bytes.len().saturating_sub(1)),
            2 => (0, 0),
            3 => (spans, bytes.len()),
            _ => (spans + self.random.below(3), bytes.len() + 2),
        };
        self.add(Line::Propose {
            personality,
            spans,
            bytes,
        });
    }

    fn bytes(&mut self, personality: Personality) {
        let (_, bytes) = self.proposal(personality);
        self.judged(personality, bytes);
    }

    /// Bytes, sometimes with one wrong or too many.
    fn judged(&mut self, personality: Personality, mut bytes: Vec<u8>) {
        let place = self.random.below(bytes.len() + 1);
        match self.random.below(12) {
            0 => bytes.insert(place, self.random.byte()),
            1 if place < bytes.len() => drop(bytes.remove(place)),
            2 if place < bytes.len() => bytes[place] = self.random.byte(),
            3 => bytes.extend([ESC, self.random.pick(b"?45bM ")]),
            4 => bytes.push(self.random.pick(&[ESC, 0x05, 0x80, 0x1E])),
            _ => {}
        }
        self.add(Line::Bytes { personality, bytes });
    }

    /// Bytes that paint the page, which is set to what they leave.
    fn painted_bytes(&mut self, personality: Personality) {
        self.add(Line::Display);
        let length = self.bench.display.len();
        if length != CELLS && length != ROWS * WIDEST {
            return self.judged(personality, vec![]);
        }
        let mut terminal = terminal_showing(&self.bench.display, personality, length > CELLS);
        let mut bytes = Vec::new();
        for _ in 0..self.random.within(1..=4) {
            let before = terminal.clone();
            let phrase = self.phrase();
            let is_obeyed = phrase
                .iter()
                .all(|&byte| terminal.step(byte, &mut []).outcome.is_ok());
            if is_obeyed && self.changes_to(&terminal.page).len() <= MOST_CHANGES {
                bytes.extend(phrase);
            } else {
                terminal = before;
            }
        }
        for (index, Cell(value)) in self.changes_to(&terminal.page) {
            self.add(Line::Cell { index, value });
        }
        self.judged(personality, bytes);
    }

    fn changes_to(&self, page: &[Cell]) -> Vec<(usize, Cell)> {
        let old = self.bench.terminal.page.iter();
        let changes = page.iter().zip(old).enumerate();
        changes
            .filter(|(_, (new, old))| new != old)
            .map(|(index, (&new, _))| (index, new))
            .collect()
    }
}
