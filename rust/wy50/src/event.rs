//! What stops a [`Terminal::next`](crate::Terminal::next).
use crate::{sys, Answer};

/// A command that replies. Its number is the byte after ESC; ENQ's is its own.
#[derive(Clone, Copy, Debug, PartialEq, Eq, Hash)]
#[repr(u8)]
pub enum Command {
    /// ENQ: replies 06h.
    Acknowledge = 5,
    /// ESC SPACE: 50 or 60, and CR.
    Identity = b' ',
    /// ESC /: the segment, row and column of the cursor, and CR.
    SegmentCursor = b'/',
    /// ESC 4: the row's cells that are not protected.
    OpenRow = b'4',
    /// ESC 5: the segment's cells that are not protected, an alert.
    OpenSegment = b'5',
    /// ESC 6: the row, protected cells too.
    Row = b'6',
    /// ESC 7: the segment, protected cells too.
    Segment = b'7',
    /// ESC ?: the row and column of the cursor, and CR.
    Cursor = b'?',
    /// ESC M: the cell under the cursor.
    Cell = b'M',
    /// ESC b: the row and column of the cursor in digits.
    DecimalCursor = b'b',
}

impl Command {
    /// As wy50.h has it.
    pub fn number(self) -> u8 {
        self as u8
    }

    /// The command of this number, if there is one.
    pub fn from_number(number: u8) -> Option<Self> {
        use Command::*;
        let all = [Acknowledge, Identity, SegmentCursor, OpenRow, OpenSegment, Row, Segment, Cursor, Cell, DecimalCursor];
        all.into_iter().find(|command| command.number() == number)
    }
}

/// What stopped it.
#[derive(Clone, Copy, Debug, PartialEq, Eq)]
pub enum Event<'r> {
    /// The last byte taken asked for this, or, where none was taken, the send under way went on. A reply is whole if it `begins` and `ends` here; one
    /// that does not fit goes on at the next call.
    Reply {
        command: Command,
        /// The front of the room.
        bytes: &'r [u8],
        begins: bool,
        ends: bool,
    },
    /// The last byte taken was refused, with an answer from 1 to 4. `at` is its place in the bytes handed over.
    Refused { at: usize, byte: u8, answer: Answer },
    /// There is no room, and the first byte of the rest asks for a reply or waits for a send to go on.
    NoRoom,
    /// The state is not possible; nothing changed.
    BadCall,
}

/// What the bytes of a [`Terminal::next`](crate::Terminal::next) came to.
#[must_use]
#[derive(Clone, Copy, Debug, PartialEq, Eq)]
pub struct Next<'a, 'r> {
    /// `None` where all bytes were taken and none of them was an event.
    pub event: Option<Event<'r>>,
    /// How many bytes were taken.
    pub taken: usize,
    /// The bytes not taken: hand them over next.
    pub rest: &'a [u8],
}

impl<'a, 'r> Next<'a, 'r> {
    pub(crate) fn of(next: &sys::RawNext, bytes: &'a [u8], reply: &'r [u8]) -> Self {
        let event = match (Answer::of(next.answer), Command::from_number(next.command)) {
            (Answer::Done, command) => command.map(|command| Event::Reply {
                command,
                bytes: &reply[..next.replied],
                begins: next.taken > 0,
                ends: next.state.sending.command == 0,
            }),
            (Answer::NoRoom, _) => Some(Event::NoRoom),
            (Answer::BadCall | Answer::Locked, _) => Some(Event::BadCall),
            (answer, _) => Some(Event::Refused { at: next.taken - 1, byte: bytes[next.taken - 1], answer }),
        };
        Next { event, taken: next.taken, rest: &bytes[next.taken..] }
    }
}
