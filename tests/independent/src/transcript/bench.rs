//! What a script works on.

use super::limits::WIDEST_ROOM;
use super::line::Line;
use super::set::set;
use crate::mending::{mend, Mended, ENTRY_NUMBERS};
use crate::setups::{self, STORE};
use crate::state::{Cell, Personality, CELLS};
use crate::terminal::{Outcome, Terminal, ROW_NUMBERS};

pub const NUMBER_FILLER: u16 = 0xEEEE;

/// A terminal, and what is lent to it beside the page.
#[derive(Clone)]
pub struct Bench {
    pub terminal: Terminal,
    /// The list of rows that have room, right or wrong.
    pub rows: Vec<u16>,
    /// The store of set-ups, right or wrong.
    pub store: Vec<u8>,
    /// The page that the distant display shows.
    pub display: Vec<Cell>,
}

impl Bench {
    pub fn new() -> Bench {
        Bench {
            terminal: Terminal::new(),
            rows: vec![0; ROW_NUMBERS],
            store: vec![0; STORE],
            display: vec![Cell::NULL; CELLS],
        }
    }

    /// Converts into a target of so many cells, which is the page on 0. Gives the
    /// answer, whether the old page is as it was, and the target.
    pub fn convert(&mut self, count: usize) -> (Outcome, bool, Vec<Cell>) {
        let mut target = vec![Cell(NUMBER_FILLER); count];
        let old = self.terminal.page.clone();
        let outcome = self.terminal.convert(&mut target);
        let is_as_it_was = self.terminal.page == old;
        if outcome.is_ok() {
            self.terminal.page.clone_from(&target);
        }
        (outcome, is_as_it_was, target)
    }

    /// Mends the page with a list of so many entries, and gives the list too.
    pub fn mend(&mut self, personality: Personality, entries: usize) -> (Mended, Vec<u16>) {
        let mut list = vec![NUMBER_FILLER; entries * ENTRY_NUMBERS];
        let mended = mend(&mut self.terminal.page, personality, &mut list);
        (mended, list)
    }

    /// Obeys a line and says how many of its bytes were taken. None if the line
    /// is bad.
    pub fn follow(&mut self, line: &Line) -> Option<usize> {
        let Bench {
            terminal,
            rows,
            store,
            ..
        } = self;
        let mut widest = [0; WIDEST_ROOM];
        let taken = match line {
            Line::On(personality) => {
                let _ = terminal.power_on(personality.unwrap_or(Personality::Wy50));
                0
            }
            Line::Step { byte, room } => terminal.step(*byte, &mut widest[..*room]).own as usize,
            Line::ListStep { byte, room } => {
                let step = terminal.step_with_rows(*byte, &mut widest[..*room], rows);
                step.own as usize
            }
            Line::Run { bytes, room } => terminal.run(bytes, &mut widest[..*room]).taken,
            Line::ListRun { bytes, room } => {
                let report = terminal.run_with_rows(bytes, &mut widest[..*room], rows);
                report.taken
            }
            Line::Next { bytes, room } => terminal.next(bytes, &mut widest[..*room]).run.taken,
            Line::ListNext { bytes, room } => {
                let next = terminal.next_with_rows(bytes, &mut widest[..*room], rows);
                next.run.taken
            }
            Line::Rebuild => {
                let _ = terminal.rebuild_rows(rows);
                0
            }
            Line::Save => {
                let _ = setups::save(&terminal.state, store);
                0
            }
            Line::Restore(number) => {
                let _ = setups::restore(&mut terminal.state, store, *number);
                0
            }
            Line::Convert(count) => {
                let _ = self.convert(*count);
                0
            }
            Line::Mend {
                personality,
                entries,
            } => {
                self.mend(*personality, *entries);
                0
            }
            _ if line.is_output() => 0,
            _ => return set(self, line).then_some(0),
        };
        Some(taken)
    }
}
