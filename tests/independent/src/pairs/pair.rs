//! A pair of scripts.

use crate::generate::{excluded_byte, taken_by_next, Generator};
use crate::state::Cell;
use crate::transcript::{set, Bench, Line};

const PROTECTED: u16 = 128;

/// A protected cell and its number in each terminal.
#[derive(Clone, Copy)]
pub struct LikeCell {
    pub index: usize,
    pub numbers: [u16; 2],
}

/// Two scripts that differ in the numbers of some protected cells alone.
#[derive(Clone)]
pub struct Pair {
    pub setting: Vec<Line>,
    pub cells: Vec<LikeCell>,
    pub calls: Vec<Line>,
}

impl Pair {
    pub fn random(seed: u64, calls: usize) -> Pair {
        let mut generator = Generator::without_excluded(seed);
        set_scene(&mut generator);
        let setting = std::mem::take(&mut generator.script);
        let cells = random_cells(&mut generator);
        for cell in &cells {
            generator.bench.terminal.page[cell.index] = Cell(cell.numbers[0]);
        }
        while generator.calls < calls {
            generator.call();
        }
        generator.add(Line::ListRun {
            bytes: vec![],
            room: 0,
        });
        Pair {
            setting,
            cells,
            calls: generator.script,
        }
    }

    fn start(&self, side: usize) -> Vec<Line> {
        let mut script = self.setting.clone();
        script.extend(self.cells.iter().map(|cell| Line::Cell {
            index: cell.index,
            value: cell.numbers[side],
        }));
        script
    }

    pub fn script(&self, side: usize) -> Vec<Line> {
        let mut script = self.start(side);
        script.extend_from_slice(&self.calls);
        script.push(Line::Show);
        script
    }

    pub fn start_bench(&self, side: usize) -> Option<Bench> {
        let mut bench = Bench::new();
        self.start(side)
            .iter()
            .all(|line| set(&mut bench, line))
            .then_some(bench)
    }

    /// Whether the pair is one that must agree: alike at the start, protect mode
    /// on, and no excluded command completed.
    pub fn must_agree(&self) -> bool {
        let (Some(mut first), Some(second)) = (self.start_bench(0), self.start_bench(1)) else {
            return false;
        };
        let sends_protected_text = first
            .terminal
            .state
            .sending
            .is_some_and(|sending| matches!(sending.command, b'6' | b'7'));
        first.terminal.state.modes.protect
            && !sends_protected_text
            && are_alike(&first.terminal.page, &second.terminal.page)
            && first.rows == second.rows
            && self
                .calls
                .iter()
                .all(|call| obeys_without_excluded(&mut first, call))
    }
}

fn are_alike(first: &[Cell], second: &[Cell]) -> bool {
    first
        .iter()
        .zip(second)
        .all(|(a, b)| a == b || a.is_protected() && b.is_protected())
}

/// A list call whose list agrees takes the same bytes as one without a list; one
/// whose list does not agree takes none, and a step takes none during a send. An
/// empty list is none where a call may do without.
fn obeys_without_excluded(bench: &mut Bench, call: &Line) -> bool {
    let Bench { terminal, rows, .. } = bench;
    let is_sending = terminal.state.sending.is_some();
    let (bytes, room) = match call {
        Line::ListNext { .. } if !rows.is_empty() && !terminal.agrees_with(rows) => (&[][..], 0),
        Line::ListStep { .. } | Line::ListRun { .. } if !terminal.agrees_with(rows) => (&[][..], 0),
        Line::Step { .. } | Line::ListStep { .. } if is_sending => (&[][..], 0),
        Line::Step { byte, room } | Line::ListStep { byte, room } => {
            (std::slice::from_ref(byte), *room)
        }
        Line::Run { bytes, room } | Line::ListRun { bytes, room } => (&bytes[..], *room),
        Line::Next { bytes, room } | Line::ListNext { bytes, room } => {
            (taken_by_next(terminal, bytes, *room), *room)
        }
        _ => (&[][..], 0),
    };
    excluded_byte(terminal, bytes, room).is_none() && bench.follow(call).is_some()
}

fn set_scene(generator: &mut Generator) {
    if generator.random.coin() {
        generator.choose_width();
    }
    for _ in 0..generator.random.within(1..=2) {
        generator.page_scene();
    }
    if generator.random.coin() {
        generator.place_cursors();
    }
    if generator.random.coin() {
        generator.choose_personality();
    }
    for _ in 0..generator.random.within(0..=4) {
        generator.set_something();
    }
    if generator.random.coin() {
        let pending = generator.pending();
        generator.add(pending);
    } else if generator.random.once_in(3) {
        let sending = generator.sending();
        generator.add(sending);
    }
    match generator.random.below(40) {
        0 => generator.impossible(),
        1 => generator.wrong_length(),
        _ => {}
    }
    generator.add(Line::Mode { mode: 0, on: true });
    match generator.random.below(4) {
        0 => generator.row_scene(),
        1 => generator.right_rows(),
        _ => {}
    }
}

/// Numbers for the protected cells, or for some of them.
fn random_cells(generator: &mut Generator) -> Vec<LikeCell> {
    let page = generator.bench.terminal.page.clone();
    let most_differ = generator.random.coin();
    let mut cells = Vec::new();
    for (index, cell) in page.iter().enumerate() {
        if cell.is_protected() && (most_differ || generator.random.once_in(8)) {
            let mut number = || generator.random.number() as u16 | PROTECTED;
            cells.push(LikeCell {
                index,
                numbers: [number(), number()],
            });
        }
    }
    cells
}
