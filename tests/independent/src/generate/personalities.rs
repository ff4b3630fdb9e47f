//! Both personalities, and the attribute that is remembered.

use super::Generator;
use crate::state::{Personality, ESC};
use crate::transcript::Line;

impl Generator {
    pub(super) fn power_on_either(&mut self) {
        if self.random.below(3) > 0 {
            self.narrow_page();
        }
        let personality = self.random.pick(&[
            None,
            Some(Personality::Wy50),
            Some(Personality::Wy60),
            Some(Personality::Wy60),
        ]);
        self.add(Line::On(personality));
        self.narrow_page();
    }

    /// A personality with something that it can remember.
    pub fn choose_personality(&mut self) {
        let personality =
            self.random
                .pick(&[Personality::Wy50, Personality::Wy60, Personality::Wy60]);
        self.add(Line::Personality(personality));
        let remembered = match personality {
            Personality::Wy50 => 0,
            Personality::Wy60 => self.random.below(31) as u8,
        };
        self.add(Line::Remembered(remembered));
    }

    /// Something that the personality cannot remember.
    pub(super) fn impossible_memory(&mut self) -> Line {
        match self.bench.terminal.state.personality {
            Personality::Wy50 => Line::Remembered(self.random.within(1..=31) as u8),
            Personality::Wy60 if self.bench.terminal.state.remembered.0 > 0 => {
                Line::Personality(Personality::Wy50)
            }
            Personality::Wy60 => Line::Remembered(31),
        }
    }

    /// Attributes with something stored under each.
    pub(super) fn compose_attributed_text(&mut self, phrase: &mut Vec<u8>) {
        for _ in 0..self.random.within(1..=3) {
            phrase.extend([ESC, b'G', self.attribute()]);
            match self.random.below(3) {
                0 => self.compose_attribute_or_graphic(phrase),
                _ => {
                    let count = self.random.within(1..=6);
                    self.push_text(count, phrase);
                }
            }
        }
    }
}
