//! A cell's number, and a row of cells.

use crate::sys;
use core::fmt::{self, Write};
use core::ops::BitOr;

/// What a cell holds.
#[derive(Clone, Copy, Debug, PartialEq, Eq, Hash)]
pub enum Kind {
    Text,
    Attribute,
    Graphic,
}

impl Kind {
    /// As wy50.h has it: 0 to 2.
    pub fn number(self) -> u8 {
        self as u8
    }

    /// The kind of this number, if there is one.
    pub fn from_number(number: u8) -> Option<Self> {
        [Kind::Text, Kind::Attribute, Kind::Graphic].into_iter().find(|k| k.number() == number)
    }
}

/// A cell's attribute: its flags. A WY-50 sets none of them.
#[derive(Clone, Copy, Debug, PartialEq, Eq, Hash)]
pub struct Attributes(pub u8);

impl Attributes {
    pub const BLANK: Attributes = Attributes(1);
    pub const BLINK: Attributes = Attributes(2);
    pub const REVERSE: Attributes = Attributes(4);
    pub const UNDERSCORE: Attributes = Attributes(8);
    pub const DIM: Attributes = Attributes(16);

    /// All of these flags are set.
    pub fn has(self, flags: Attributes) -> bool {
        self.0 & flags.0 == flags.0
    }

    pub fn is_normal(self) -> bool {
        self.0 == 0
    }

    pub fn dim(self) -> bool {
        self.has(Self::DIM)
    }

    pub fn underscore(self) -> bool {
        self.has(Self::UNDERSCORE)
    }

    pub fn reverse(self) -> bool {
        self.has(Self::REVERSE)
    }

    pub fn blink(self) -> bool {
        self.has(Self::BLINK)
    }

    pub fn blank(self) -> bool {
        self.has(Self::BLANK)
    }
}

impl BitOr for Attributes {
    type Output = Attributes;

    fn bitor(self, other: Attributes) -> Attributes {
        Attributes(self.0 | other.0)
    }
}

/// One cell's number.
#[derive(Clone, Copy, Debug, PartialEq, Eq, Hash)]
pub struct Cell(pub u16);

impl Cell {
    /// 0 to 127.
    pub fn code(self) -> u8 {
        sys::cell_code(self.0)
    }

    pub fn is_protected(self) -> bool {
        sys::cell_protected(self.0) != 0
    }

    pub fn kind(self) -> Kind {
        match sys::cell_kind(self.0) {
            0 => Kind::Text,
            1 => Kind::Attribute,
            _ => Kind::Graphic,
        }
    }

    /// How it looks in a WY-60.
    pub fn attributes(self) -> Attributes {
        Attributes(sys::cell_attribute(self.0))
    }

    /// The byte that a send gives for it: the code of a text cell from 20h to 7Eh, 20h for any other cell.
    pub fn sent(self) -> u8 {
        sys::cell_sent(self.0)
    }
}

/// A row of the page. It displays as the bytes that a send gives.
#[derive(Clone, Copy, Debug, PartialEq, Eq)]
pub struct Row<'a>(&'a [u16]);

impl<'a> Row<'a> {
    pub(crate) fn new(cells: &'a [u16]) -> Self {
        Row(cells)
    }

    pub fn cells(self) -> impl DoubleEndedIterator<Item = Cell> + ExactSizeIterator + 'a {
        self.0.iter().copied().map(Cell)
    }
}

impl fmt::Display for Row<'_> {
    fn fmt(&self, f: &mut fmt::Formatter<'_>) -> fmt::Result {
        write_cells(f, self.0)
    }
}

pub(crate) fn write_cells(f: &mut fmt::Formatter<'_>, cells: &[u16]) -> fmt::Result {
    cells.iter().try_for_each(|&v| f.write_char(Cell(v).sent().into()))
}
