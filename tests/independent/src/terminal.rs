//! The terminal: host bytes, runs of them, and key presses.

#[path = "terminal/arguments.rs"]
mod arguments;
#[path = "terminal/convert.rs"]
mod convert;
#[path = "terminal/cursor.rs"]
mod cursor;
#[path = "terminal/next.rs"]
pub mod next;
#[path = "terminal/replies.rs"]
mod replies;
#[path = "terminal/rows.rs"]
mod rows;
#[path = "terminal/sends.rs"]
mod sends;
#[path = "terminal/taking.rs"]
mod taking;
#[path = "terminal/texts.rs"]
mod texts;
#[path = "terminal/writing.rs"]
mod writing;

use crate::state::*;
use replies::reply;
pub use rows::ROW_NUMBERS;

const ACK: u8 = 0x06;
const SOH: u8 = 0x01;

/// The numbers that come back, but for 0. 5 is not used.
#[derive(Clone, Copy, PartialEq, Eq, Debug)]
pub enum Refusal {
    HighByte = 1,
    UnknownEscape = 2,
    BadArgument = 3,
    Barred = 4,
    NoRoom = 6,
    Impossible = 7,
    Locked = 8,
}

/// How many bytes were replied, or why not.
pub type Outcome = Result<usize, Refusal>;

pub fn answer_number(outcome: Outcome) -> u8 {
    match outcome {
        Ok(_) => 0,
        Err(refusal) => refusal as u8,
    }
}

const DONE: Outcome = Ok(0);

/// What a single step gives back.
#[derive(Clone, Copy, PartialEq, Eq, Debug)]
pub struct Step {
    pub outcome: Outcome,
    /// Whether the step's own byte was taken.
    pub own: bool,
}

impl Step {
    const IMPOSSIBLE: Step = Step {
        outcome: Err(Refusal::Impossible),
        own: false,
    };
}

/// What a run over many bytes reports.
#[derive(Clone, Copy, PartialEq, Eq, Debug)]
pub struct Run<'a> {
    pub answer: u8,
    pub taken: usize,
    pub replied: usize,
    pub refused: usize,
    pub rest: &'a [u8],
}

impl Run<'_> {
    fn impossible(input: &[u8]) -> Run<'_> {
        Run {
            answer: Refusal::Impossible as u8,
            taken: 0,
            replied: 0,
            refused: 0,
            rest: input,
        }
    }
}

#[derive(Clone)]
pub struct Terminal {
    pub page: Vec<Cell>,
    pub state: State,
}

/// The calls.
impl Terminal {
    pub fn new() -> Terminal {
        Terminal {
            page: vec![Cell::NULL; CELLS],
            state: State::power_on(Personality::Wy50),
        }
    }

    /// The state is that of power-on whatever the page's length.
    pub fn power_on(&mut self, personality: Personality) -> Outcome {
        self.state = State::power_on(personality);
        if self.page.len() != CELLS {
            return Err(Refusal::Impossible);
        }
        self.page.fill(Cell::NULL);
        DONE
    }

    /// During a send the room is for the send alone, and the byte waits.
    pub fn step(&mut self, byte: u8, room: &mut [u8]) -> Step {
        if !self.is_possible() {
            return Step::IMPOSSIBLE;
        }
        if self.state.sending.is_none() {
            let outcome = self.take(byte, room);
            let own = outcome != Err(Refusal::NoRoom);
            return Step { outcome, own };
        }
        let outcome = match room.len() {
            0 => Err(Refusal::NoRoom),
            _ => Ok(self.go_on(room)),
        };
        Step {
            outcome,
            own: false,
        }
    }

    pub fn run<'a>(&mut self, input: &'a [u8], room: &mut [u8]) -> Run<'a> {
        if !self.is_possible() {
            return Run::impossible(input);
        }
        let mut report = Run {
            answer: 0,
            taken: 0,
            replied: self.go_on(room),
            refused: 0,
            rest: input,
        };
        while let [byte, rest @ ..] = report.rest {
            if self.state.sending.is_some() {
                // The room ended inside a send.
                if room.is_empty() {
                    report.answer = Refusal::NoRoom as u8;
                }
                break;
            }
            match self.take(*byte, &mut room[report.replied..]) {
                Ok(count) => report.replied += count,
                Err(Refusal::NoRoom) => {
                    report.answer = Refusal::NoRoom as u8;
                    break;
                }
                Err(_) => report.refused += 1,
            }
            report.taken += 1;
            report.rest = rest;
        }
        report
    }

    pub fn press(&self, value: u8, room: &mut [u8]) -> Outcome {
        if !self.is_possible() {
            return Err(Refusal::Impossible);
        }
        if self.state.modes.locked {
            return Err(Refusal::Locked);
        }
        let number = key_number(value).ok_or(Refusal::BadArgument)?;
        if self.state.sending.is_some() {
            return Err(Refusal::NoRoom);
        }
        match self.state.keys[number].kept() {
            [] => reply(room, &[SOH, value, CR]),
            text => reply(room, text),
        }
    }

    pub fn is_possible(&self) -> bool {
        self.page.len() == self.state.cells() && self.state.is_possible()
    }
}
