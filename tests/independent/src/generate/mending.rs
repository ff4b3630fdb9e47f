//! Mending, after some damage.

use super::Generator;
use crate::state::Personality;
use crate::transcript::limits::MOST_ENTRIES;
use crate::transcript::Line;

impl Generator {
    pub(super) fn mend(&mut self) {
        if !self.bench.terminal.page.is_empty() && self.random.coin() {
            self.damage_cells();
        }
        let personality = self.random.pick(&[Personality::Wy50, Personality::Wy60]);
        let always_enough = self.bench.terminal.page.len();
        let (mended, _) = self.bench.clone().mend(personality, always_enough);
        let entries = match self.random.below(6) {
            0 => 0,
            1 => mended.needed.saturating_sub(1),
            2 => mended.needed,
            3 => self.random.within(0..=mended.needed + 3),
            4 => self.random.pick(&[always_enough, MOST_ENTRIES]),
            _ => mended.needed + self.random.within(0..=3),
        };
        self.add(Line::Mend {
            personality,
            entries,
        });
    }

    fn damage_cells(&mut self) {
        for _ in 0..self.random.within(1..=8) {
            let index = self.random.below(self.bench.terminal.page.len());
            let old = self.bench.terminal.page[index].0;
            let value = match self.random.below(3) {
                0 => old ^ 1 << self.random.below(16),
                1 => self.random.number() as u16,
                _ => self
                    .random
                    .pick(&[0x1F, 0x7F, 0x80, 0xFF, 0x0100, 0x0300, 0x7C41, 0x8020]),
            };
            self.add(Line::Cell { index, value });
        }
    }
}
