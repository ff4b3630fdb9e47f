//! Saved set-ups.
use crate::{sys, Answer, Terminal};
use core::{fmt, ops::RangeInclusive};

/// The bytes of a [`Store`].
pub const STORE_BYTES: usize = 8714;

/// Why a save or a restore is refused. Nothing has changed.
#[derive(Clone, Copy, Debug, PartialEq, Eq, Hash)]
pub enum Refusal {
    /// The terminal's state is not possible.
    BadState,
    /// No saves could have left the store so.
    BadStore,
    /// A number never saved, or overwritten since.
    BadNumber,
    /// Number 65,535 is used.
    Full,
}

/// The last eight set-ups by number, from 1: tab stops of columns 1 to 80, features, field attributes, keys and key labels.
///
/// ```
/// use wy50::{Refusal, Store, Terminal};
///
/// let mut store = Store::new();
/// let mut terminal = Terminal::new();
/// let _ = terminal.feed(b"\x1b=\x20\x28\x1b1\x1bz0Help\r", &mut []); // a tab stop in column 9, and a label
/// assert_eq!(store.save(&terminal), Ok(1));
///
/// let mut other = Terminal::new();
/// assert_eq!(store.restore(&mut other, 1), Ok(()));
/// assert_eq!((other.state().tabs[8], other.label(0x30)), (1, Some(&b"Help"[..])));
/// assert_eq!(store.restore(&mut other, 2), Err(Refusal::BadNumber));
/// assert_eq!(store.numbers(), 1..=1);
/// ```
#[derive(Clone, PartialEq, Eq)]
pub struct Store([u8; STORE_BYTES]);

impl Store {
    /// A store that nothing is saved in.
    pub const fn new() -> Self {
        Store([0; STORE_BYTES])
    }

    /// A store of these bytes, as [`as_bytes`](Self::as_bytes) gave them. Bytes that no saves could have left do no harm: every call refuses them.
    pub const fn from_bytes(bytes: [u8; STORE_BYTES]) -> Self {
        Store(bytes)
    }

    pub const fn as_bytes(&self) -> &[u8; STORE_BYTES] {
        &self.0
    }

    /// The numbers that can be restored, the oldest first.
    pub fn numbers(&self) -> RangeInclusive<u16> {
        let last = u16::from_le_bytes([self.0[0], self.0[1]]);
        last.saturating_sub(7).max(1)..=last
    }

    /// Saves the terminal's set-up; the number that it has from now on.
    pub fn save(&mut self, terminal: &Terminal) -> Result<u16, Refusal> {
        let saved = sys::save(terminal.state, &mut self.0);
        refused(saved.answer).map_or(Ok(saved.number), Err)
    }

    /// Gives the terminal the settings of a number. Page, width, wish, stops beyond column 80, cursor, modes, host message and shifted line stay as
    /// they are.
    pub fn restore(&self, terminal: &mut Terminal, number: u16) -> Result<(), Refusal> {
        let restored = sys::restore(terminal.state, &self.0, number);
        terminal.state = restored.state;
        refused(restored.answer).map_or(Ok(()), Err)
    }

    /// Whether saves could have left the store so.
    pub fn is_sound(&self) -> bool {
        self.restore(&mut Terminal::new(), 0) == Err(Refusal::BadNumber)
    }
}

#[cfg(feature = "std")]
impl Store {
    /// The store in a file. One that saves could not have left, also of another length, is [`InvalidData`](std::io::ErrorKind::InvalidData).
    pub fn read(path: impl AsRef<std::path::Path>) -> std::io::Result<Self> {
        let bytes = std::fs::read(path)?;
        let store = bytes.try_into().map(Store).ok().filter(Store::is_sound);
        store.ok_or_else(|| std::io::Error::new(std::io::ErrorKind::InvalidData, Refusal::BadStore))
    }

    /// Writes the store to a file: first to one beside it, which then takes its name.
    pub fn write(&self, path: impl AsRef<std::path::Path>) -> std::io::Result<()> {
        let path = path.as_ref();
        let mut beside = std::ffi::OsString::from(path);
        beside.push(".new");
        std::fs::write(&beside, self.0)?;
        std::fs::rename(&beside, path)
    }
}

impl Refusal {
    /// Its number, an answer of C.
    pub fn number(self) -> u8 {
        match self {
            Refusal::BadState => 7,
            Refusal::BadStore => 9,
            Refusal::BadNumber => 10,
            Refusal::Full => 11,
        }
    }
}

// The library gives 0, 7 and 9 to 11 and no other number.
fn refused(answer: u8) -> Option<Refusal> {
    match answer {
        0 => None,
        9 => Some(Refusal::BadStore),
        10 => Some(Refusal::BadNumber),
        11 => Some(Refusal::Full),
        _ => Some(Refusal::BadState),
    }
}

impl Default for Store {
    fn default() -> Self {
        Store::new()
    }
}

impl fmt::Debug for Store {
    fn fmt(&self, f: &mut fmt::Formatter<'_>) -> fmt::Result {
        f.debug_struct("Store").field("numbers", &self.numbers()).finish_non_exhaustive()
    }
}

/// In a few words, those of `wy50_answer_name`.
impl fmt::Display for Refusal {
    fn fmt(&self, f: &mut fmt::Formatter<'_>) -> fmt::Result {
        match self {
            Refusal::BadState => Answer::BadCall.fmt(f),
            Refusal::BadStore => f.write_str("no saves could have left the store so"),
            Refusal::BadNumber => f.write_str("no set-up is kept under that number"),
            Refusal::Full => f.write_str("all numbers are used"),
        }
    }
}

impl core::error::Error for Refusal {}
