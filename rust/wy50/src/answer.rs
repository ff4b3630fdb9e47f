use core::fmt;

/// What a call answers. Only [`Answer::Done`] changes the page.
#[derive(Clone, Copy, Debug, PartialEq, Eq, PartialOrd, Ord, Hash)]
#[repr(u8)]
pub enum Answer {
    /// Done, or more bytes are awaited.
    Done = 0,
    /// A byte 80h to FFh; nothing changed.
    HighByte = 1,
    /// No such byte after ESC; the sequence is cleared.
    Unknown = 2,
    /// An argument outside its range, no such key or segment; the sequence is cleared.
    BadArgument = 3,
    /// A guarded cell or protect mode bars it; the sequence is cleared.
    Barred = 4,
    // 5 is unused.
    /// There is no room while a reply is due, or a key's bytes do not fit or would come into a send; nothing changed, the byte may come again.
    NoRoom = 6,
    /// The state is not possible, or not of the page's width; nothing changed.
    BadCall = 7,
    /// A key is pressed while the keyboard is locked; nothing changed.
    Locked = 8,
}

impl Answer {
    /// The answer's number.
    pub fn number(self) -> u8 {
        self as u8
    }

    /// The answer of this number, if there is one.
    pub fn from_number(number: u8) -> Option<Answer> {
        Some(Answer::of(number)).filter(|answer| answer.number() == number)
    }

    // The library gives 0 to 4 and 6 to 8 and no other number.
    pub(crate) fn of(number: u8) -> Answer {
        match number {
            0 => Answer::Done,
            1 => Answer::HighByte,
            2 => Answer::Unknown,
            3 => Answer::BadArgument,
            4 => Answer::Barred,
            6 => Answer::NoRoom,
            8 => Answer::Locked,
            _ => Answer::BadCall,
        }
    }
}

/// In a few words, those of `wy50_answer_name`.
impl fmt::Display for Answer {
    fn fmt(&self, f: &mut fmt::Formatter<'_>) -> fmt::Result {
        f.write_str(match self {
            Answer::Done => "done",
            Answer::HighByte => "a byte of 80h or above",
            Answer::Unknown => "no such byte after ESC",
            Answer::BadArgument => "an argument outside its range",
            Answer::Barred => "barred by protection",
            Answer::NoRoom => "no room for the reply",
            Answer::BadCall => "a page, state or row list that is not possible",
            Answer::Locked => "the keyboard is locked",
        })
    }
}

impl core::error::Error for Answer {}
