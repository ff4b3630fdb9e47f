//! Saved pages that may be damaged.
use crate::{sys, Personality};
use core::fmt;

/// A cell that a [`mend`] changed: its row and its column, both from 1, its old number and its new one, which is 0.
#[repr(C)]
#[derive(Clone, Copy, Debug, Default, PartialEq, Eq, Hash)]
pub struct Mended {
    pub row: u16,
    pub column: u16,
    pub old: u16,
    pub new: u16,
}

/// Why a page is not mended. Nothing has changed.
#[derive(Clone, Copy, Debug, PartialEq, Eq, Hash)]
pub enum Unmended {
    /// The list is shorter than the cells that are damaged; it needs so many.
    ListTooShort { needed: usize },
    /// The page is neither [`CELLS`](crate::CELLS) nor [`WIDE_CELLS`](crate::WIDE_CELLS) long.
    BadLength,
}

/// Mends a saved page that may be damaged: each cell that a terminal of this personality could not have written becomes an unprotected null, and no other
/// cell changes. Those changed are put at the front of the list in reading order, which is given back; what lies beyond it is not touched. A list as long
/// as the page is always long enough.
///
/// Mending twice is mending once, and a page that a terminal of this personality left stays as it is.
///
/// ```
/// use wy50::{mend, Mended, Personality, Terminal, Unmended, CELLS};
///
/// let mut page = [0; CELLS];
/// page[..3].copy_from_slice(&[0x41, 0x80, 0x7f]); // A, a protected null, no code of a text
/// assert_eq!(mend(&mut page, Personality::Wy50, &mut []), Err(Unmended::ListTooShort { needed: 2 }));
///
/// let mut list = [Mended::default(); CELLS];
/// let changed = mend(&mut page, Personality::Wy50, &mut list)?;
/// assert_eq!(changed[0], Mended { row: 1, column: 2, old: 0x80, new: 0 });
/// assert_eq!((changed.len(), &page[..3]), (2, &[0x41, 0, 0][..]));
/// assert!(Terminal::from_parts(&page, *Terminal::new().state()).is_some());
/// # Ok::<(), Unmended>(())
/// ```
pub fn mend<'l>(page: &mut [u16], personality: Personality, list: &'l mut [Mended]) -> Result<&'l [Mended], Unmended> {
    let mended = sys::mend(page, personality.number(), list);
    let needed = usize::from(mended.needed);
    // The library gives 0, 6 and 7 and no other number.
    match mended.answer {
        0 => Ok(&list[..needed]),
        6 => Err(Unmended::ListTooShort { needed }),
        _ => Err(Unmended::BadLength),
    }
}

impl Unmended {
    /// Its number, an answer of C.
    pub fn number(self) -> u8 {
        match self {
            Unmended::ListTooShort { .. } => 6,
            Unmended::BadLength => 7,
        }
    }
}

impl fmt::Display for Unmended {
    fn fmt(&self, f: &mut fmt::Formatter<'_>) -> fmt::Result {
        match self {
            Unmended::ListTooShort { needed } => write!(f, "the list is too short: {needed} cells are damaged"),
            Unmended::BadLength => f.write_str("a page has 1,920 or 3,168 cells"),
        }
    }
}

impl core::error::Error for Unmended {}
