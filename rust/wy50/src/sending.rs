//! The send under way.
use crate::sys::RawSending;

/// A reply that has begun and is not over: the room ended inside it. It goes on at the next call, before any byte is taken.
#[derive(Clone, Copy, Debug, PartialEq, Eq, Hash)]
pub struct Sending {
    /// The byte after ESC of the command that asked for it: the number of its [`Command`](crate::Command).
    pub command: u8,
    pub place: Place,
}

/// What is sent next.
#[derive(Clone, Copy, Debug, PartialEq, Eq, Hash)]
pub enum Place {
    /// Of a short reply: so many bytes went.
    Byte(usize),
    /// Of a text, ESC 4 to ESC 7: this cell.
    Cell(usize),
    /// The US before this cell, which begins a row.
    Break(usize),
    /// The CR at the end.
    Return,
}

impl Place {
    /// What stands at the place, as wy50.h has it: 0 to 3.
    pub fn number(self) -> u8 {
        match self {
            Place::Byte(_) => 0,
            Place::Cell(_) => 1,
            Place::Break(_) => 2,
            Place::Return => 3,
        }
    }
}

impl Sending {
    /// What these numbers say, if they are of a send. It may be one that is not possible.
    pub fn at(raw: RawSending) -> Option<Self> {
        let n = usize::from(raw.place);
        let place = match raw.kind {
            0 => Place::Byte(n),
            1 => Place::Cell(n),
            2 => Place::Break(n),
            3 => Place::Return,
            _ => return None,
        };
        (raw.command != 0).then_some(Sending { command: raw.command, place })
    }
}
