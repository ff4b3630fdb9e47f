//! Personalities, and the attribute that WY-60 remembers.

#[derive(Clone, Copy, PartialEq, Eq, Debug)]
pub enum Personality {
    Wy50,
    Wy60,
}

impl Personality {
    /// The two digits by which it is called and which it replies.
    pub fn digits(self) -> &'static str {
        match self {
            Personality::Wy50 => "50",
            Personality::Wy60 => "60",
        }
    }
}

/// A cell's attribute as five flags: dim 16, underscore 8, reverse 4, blink 2, blank 1.
#[derive(Clone, Copy, PartialEq, Eq, Debug)]
pub struct Flags(pub u8);

impl Flags {
    pub const NORMAL: Flags = Flags(0);
    pub const DIM: u8 = 16;

    /// The attribute that an attribute code names. 20h names none.
    pub fn of_code(code: u8) -> Option<Flags> {
        match code {
            0x30..=0x3F => Some(Flags(code & 15)),
            0x70..=0x7E => Some(Flags(code & 15 | Flags::DIM)),
            _ => None,
        }
    }

    /// The attribute code that names these.
    pub fn code(self) -> u8 {
        match self.0 & Flags::DIM {
            0 => 0x30 + self.0,
            _ => 0x70 + self.0 - Flags::DIM,
        }
    }

    /// Whether a personality can remember these. No code names dim with all others.
    pub fn can_be_remembered(self, personality: Personality) -> bool {
        match personality {
            Personality::Wy50 => self == Flags::NORMAL,
            Personality::Wy60 => self.0 < 31,
        }
    }
}
