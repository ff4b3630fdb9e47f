//! The page of a terminal, and its other width.
use crate::{Answer, CELLS, COLUMNS, WIDE_CELLS, WIDE_COLUMNS};
use core::fmt;
use core::ops::{Deref, DerefMut};

/// The cells of a page of either width, in room for the wide one.
#[derive(Clone)]
pub(crate) struct Page {
    room: [u16; WIDE_CELLS],
    wide: bool,
}

impl Page {
    pub(crate) fn new(wide: bool) -> Self {
        Page { room: [0; WIDE_CELLS], wide }
    }

    /// A page of these cells, if there are as many as a width has.
    pub(crate) fn of(cells: &[u16]) -> Option<Self> {
        let mut page = [false, true].map(Page::new).into_iter().find(|page| page.len() == cells.len())?;
        page.copy_from_slice(cells);
        Some(page)
    }

    pub(crate) fn is_wide(&self) -> bool {
        self.wide
    }

    pub(crate) fn columns(&self) -> usize {
        if self.wide {
            WIDE_COLUMNS
        } else {
            COLUMNS
        }
    }
}

impl Deref for Page {
    type Target = [u16];

    fn deref(&self) -> &[u16] {
        &self.room[..if self.wide { WIDE_CELLS } else { CELLS }]
    }
}

impl DerefMut for Page {
    fn deref_mut(&mut self) -> &mut [u16] {
        &mut self.room[..if self.wide { WIDE_CELLS } else { CELLS }]
    }
}

/// Why a terminal stays at its width. Nothing has changed.
#[derive(Clone, Copy, Debug, PartialEq, Eq, Hash)]
pub enum Unconverted {
    /// The state is not possible, or not of the page's width.
    BadState,
    /// A send is under way: let it go on to its end first.
    Sending,
    /// Narrowing would lose a cell: some cell beyond column 80 is not 0.
    WouldLose,
}

impl Unconverted {
    /// Its number, an answer of C.
    pub fn number(self) -> u8 {
        match self {
            Unconverted::BadState => 7,
            Unconverted::Sending => 6,
            Unconverted::WouldLose => 4,
        }
    }

    // The library gives 0, 4, 6 and 7 and no other number.
    pub(crate) fn refused(answer: u8) -> Option<Self> {
        match answer {
            0 => None,
            4 => Some(Unconverted::WouldLose),
            6 => Some(Unconverted::Sending),
            _ => Some(Unconverted::BadState),
        }
    }
}

impl fmt::Display for Unconverted {
    fn fmt(&self, f: &mut fmt::Formatter<'_>) -> fmt::Result {
        match self {
            Unconverted::BadState => Answer::BadCall.fmt(f),
            Unconverted::Sending => f.write_str("a send is under way"),
            Unconverted::WouldLose => f.write_str("a cell beyond column 80 would be lost"),
        }
    }
}

impl core::error::Error for Unconverted {}
