use core::fmt;

/// Why a text is not counted: the first of these that applies.
#[derive(Clone, Copy, Debug, PartialEq, Eq, Hash)]
pub enum Refusal {
    /// The reply has no final CR.
    NoReturn,
    /// The first number is 0 or above the last.
    BadFirst,
    /// The last number is beyond the pieces.
    BadLast,
    /// A byte is outside the alphabet, at this place of the whole, from 0.
    BadByte { place: u64 },
}

impl fmt::Display for Refusal {
    fn fmt(&self, f: &mut fmt::Formatter<'_>) -> fmt::Result {
        match self {
            Refusal::NoReturn => f.write_str("the reply has no final CR"),
            Refusal::BadFirst => f.write_str("the first piece is 0 or above the last"),
            Refusal::BadLast => f.write_str("the last piece is beyond those of the reply"),
            Refusal::BadByte { place } => write!(f, "the byte at place {place} is outside the alphabet"),
        }
    }
}

impl core::error::Error for Refusal {}
