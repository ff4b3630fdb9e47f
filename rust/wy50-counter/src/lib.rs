//! How many text parts an alert takes, in the GSM 7-bit alphabet of 3GPP TS 23.038.
//!
//! ```
//! use wy50::{Terminal, LONGEST_REPLY};
//! use wy50_counter::{count_reply, count_text, Count, Refusal};
//!
//! assert_eq!(count_text(b"24 bags, ready ~ 9"), Ok(Count { units: 19, parts: 1 }));
//! assert_eq!(count_text(b"Caf\xe9"), Err(Refusal::BadByte { place: 3 }));
//!
//! // what the fields on the page come to: the reply to ESC 5 has a mark before each
//! let mut terminal = Terminal::new();
//! let mut reply = [0; LONGEST_REPLY];
//! let fed = terminal.feed(b"\x1b)Roast: \x1b(dark\x1b&\x1b5", &mut reply);
//! assert_eq!(count_reply(&reply[..fed.replied], 2, 2), Ok(Count { units: 4, parts: 1 }));
//! ```
//!
//! It links the proved library libwy50_counter.a (see `build.rs`), which keeps nothing between calls and allocates nothing; neither does
//! this crate.
#![no_std]

mod refusal;
mod sys;

pub use refusal::Refusal;

/// The version of this crate: that of the library that it is made for.
pub const VERSION: &str = env!("CARGO_PKG_VERSION");

/// The version of the library that is linked, as [`VERSION`] has it: major, minor, patch. With another library no call may be made.
pub fn library_version() -> [u32; 3] {
    let number = sys::version();
    [number / 1_000_000, number / 1_000 % 1_000, number % 1_000]
}

/// The units and the parts of a text without its trailing spaces. The characters `^ { } \ [ ~ ] |` are two units, others one; no unit is no part,
/// up to 160 units are one, and beyond that the parts are the fewest that hold at most 153 units each, no character cut.
#[derive(Clone, Copy, Debug, PartialEq, Eq, Hash)]
pub struct Count {
    pub units: u64,
    pub parts: u64,
}

/// Counts a text. It is refused for its first byte outside 20h to 7Eh or that is a backquote, and for no other reason.
pub fn count_text(text: &[u8]) -> Result<Count, Refusal> {
    sys::count_text(text).result()
}

/// Counts some pieces of a reply to ESC 5. What stands before its final CR is cut at each FS and US into pieces numbered from 1; those from
/// number `first` to number `last` are joined with nothing between.
pub fn count_reply(reply: &[u8], first: usize, last: usize) -> Result<Count, Refusal> {
    sys::count_reply(reply, first, last).result()
}
