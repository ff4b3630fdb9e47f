//! Whose rules a terminal follows.

/// Chosen at power-on, changed by no byte.
#[derive(Clone, Copy, Debug, Default, PartialEq, Eq, Hash)]
pub enum Personality {
    /// An attribute of ESC G takes a cell.
    #[default]
    Wy50,
    /// It takes none: it is remembered, and kept with each cell stored later.
    Wy60,
}

impl Personality {
    /// As wy50.h has it: 50 or 60.
    pub fn number(self) -> u8 {
        match self {
            Personality::Wy50 => 50,
            Personality::Wy60 => 60,
        }
    }

    /// The personality of this number, if there is one.
    pub fn from_number(number: u8) -> Option<Self> {
        [Personality::Wy50, Personality::Wy60].into_iter().find(|p| p.number() == number)
    }
}
