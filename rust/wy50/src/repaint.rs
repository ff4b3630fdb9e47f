//! Repainting a distant display.
use crate::{sys, Personality};
use core::fmt;

/// No proposal has more spans.
pub const MOST_SPANS: usize = 960;
/// No proposal has more bytes.
pub const MOST_PAINT_BYTES: usize = 7772;

/// Cells of one row: the row and the first column, both from 1, and how many they are.
#[repr(C)]
#[derive(Clone, Copy, Debug, Default, PartialEq, Eq, Hash)]
pub struct Span {
    pub row: u16,
    pub column: u16,
    pub length: u16,
}

/// What [`propose`] has put at the front of its rooms.
#[must_use]
#[derive(Clone, Copy, Debug, PartialEq, Eq)]
pub struct Proposal<'s, 'b> {
    /// The cells to paint, in reading order.
    pub spans: &'s [Span],
    /// What paints them.
    pub bytes: &'b [u8],
}

/// Why a judge does not accept.
#[derive(Clone, Copy, Debug, PartialEq, Eq, Hash)]
pub enum Unaccepted {
    /// The spans or the bytes are not what the judge asks for.
    NotAccepted,
    /// The pages are not both [`CELLS`](crate::CELLS) or both [`WIDE_CELLS`](crate::WIDE_CELLS) long.
    BadLength,
}

/// Why nothing is proposed. Nothing is written.
#[derive(Clone, Copy, Debug, PartialEq, Eq, Hash)]
pub enum Unproposed {
    /// A page has 132 columns, or a cell other than unprotected text of 20h to 7Eh as this personality writes it, or their last cells differ.
    NotServed,
    /// The spans or the bytes do not fit.
    NoRoom,
    /// The pages are not both [`CELLS`](crate::CELLS) or both [`WIDE_CELLS`](crate::WIDE_CELLS) long.
    BadLength,
}

/// Accepts spans exactly if they are in reading order, do not overlap, lie within their rows, are not empty and cover every cell in which the pages
/// differ. They may touch and may cover cells that are equal.
///
/// ```
/// use wy50::{judge_spans, Span, Unaccepted, CELLS};
///
/// let (before, mut after) = ([0x20; CELLS], [0x20; CELLS]);
/// after[80..82].copy_from_slice(&[0x48, 0x69]);
/// assert_eq!(judge_spans(&before, &after, &[Span { row: 2, column: 1, length: 80 }]), Ok(()));
/// assert_eq!(judge_spans(&before, &after, &[Span { row: 2, column: 1, length: 1 }]), Err(Unaccepted::NotAccepted));
/// assert_eq!(judge_spans(&before, &after[1..], &[]), Err(Unaccepted::BadLength));
/// ```
pub fn judge_spans(before: &[u16], after: &[u16], spans: &[Span]) -> Result<(), Unaccepted> {
    Unaccepted::refused(sys::judge_spans(before, after, spans))
}

/// Accepts bytes exactly if a terminal of this personality, just powered on at the pages' width, that shows the page `before` and has no reply room, answers
/// [`Done`](crate::Answer::Done) to each of them and then shows the page `after`.
///
/// ```
/// use wy50::{judge_bytes, Personality, Unaccepted, CELLS};
///
/// let (before, mut after) = ([0x20; CELLS], [0x20; CELLS]);
/// after[80..82].copy_from_slice(&[0x48, 0x69]);
/// assert_eq!(judge_bytes(&before, &after, Personality::Wy50, b"\nHi"), Ok(()));
/// assert_eq!(judge_bytes(&before, &after, Personality::Wy50, b"\nHi\x1b?"), Err(Unaccepted::NotAccepted)); // a reply would be due
/// ```
pub fn judge_bytes(before: &[u16], after: &[u16], personality: Personality, bytes: &[u8]) -> Result<(), Unaccepted> {
    Unaccepted::refused(sys::judge_bytes(before, after, personality.number(), bytes))
}

/// Proposes spans and bytes that bring a display from the page `before` to the page `after`: the longest stretches of cells in a row that differ, and ESC =
/// to each start, then its cells, ESC G before each whose attribute is not the one remembered. Both judges accept them. They are put at the front of their
/// rooms; what lies beyond is not touched. [`MOST_SPANS`] and [`MOST_PAINT_BYTES`] are always enough.
///
/// The bytes are for a display as at power-on but for its page. They move its cursor, and leave a WY-60 with the attribute of the last cell painted: one
/// that goes on is told ESC G 30h before the next ones. A WY-50 would take that as a cell.
///
/// ```
/// use wy50::{propose, Personality, Span, Terminal, Unproposed, MOST_PAINT_BYTES, MOST_SPANS};
///
/// let mut host = Terminal::with_personality(Personality::Wy60);
/// let mut display = host.clone();
/// for (terminal, bytes) in [(&mut host, &b"\x1aRoast: \x1bG4dark"[..]), (&mut display, b"\x1a")] {
///     assert_eq!(terminal.feed(bytes, &mut []).refused, 0); // 1Ah makes spaces of the nulls that both show at power-on
/// }
///
/// let (mut spans, mut bytes) = ([Span::default(); MOST_SPANS], [0; MOST_PAINT_BYTES]);
/// let proposal = propose(display.page(), host.page(), Personality::Wy60, &mut spans, &mut bytes)?;
/// assert_eq!(proposal.spans, [Span { row: 1, column: 1, length: 6 }, Span { row: 1, column: 8, length: 4 }]);
/// assert_eq!(proposal.bytes, b"\x1b=\x20\x20Roast:\x1b=\x20\x27\x1bG4dark");
///
/// assert_eq!(display.feed(proposal.bytes, &mut []).refused, 0);
/// assert_eq!(display.page(), host.page());
/// assert_eq!(display.feed(b"\x1bG0", &mut []).refused, 0); // as at power-on, for the next proposal
/// # Ok::<(), Unproposed>(())
/// ```
pub fn propose<'s, 'b>(
    before: &[u16],
    after: &[u16],
    personality: Personality,
    spans: &'s mut [Span],
    bytes: &'b mut [u8],
) -> Result<Proposal<'s, 'b>, Unproposed> {
    let proposed = sys::propose(before, after, personality.number(), spans, bytes);
    // The library gives 0, 3, 6 and 7 and no other number.
    match proposed.answer {
        0 => Ok(Proposal { spans: &spans[..proposed.spans.into()], bytes: &bytes[..proposed.bytes.into()] }),
        3 => Err(Unproposed::NotServed),
        6 => Err(Unproposed::NoRoom),
        _ => Err(Unproposed::BadLength),
    }
}

impl Unaccepted {
    /// Its number, an answer of C.
    pub fn number(self) -> u8 {
        match self {
            Unaccepted::NotAccepted => 3,
            Unaccepted::BadLength => 7,
        }
    }

    // The library gives 0, 3 and 7 and no other number.
    fn refused(answer: u8) -> Result<(), Self> {
        match answer {
            0 => Ok(()),
            3 => Err(Unaccepted::NotAccepted),
            _ => Err(Unaccepted::BadLength),
        }
    }
}

impl Unproposed {
    /// Its number, an answer of C.
    pub fn number(self) -> u8 {
        match self {
            Unproposed::NotServed => 3,
            Unproposed::NoRoom => 6,
            Unproposed::BadLength => 7,
        }
    }
}

const LENGTHS: &str = "both pages have 1,920 or both 3,168 cells";

impl fmt::Display for Unaccepted {
    fn fmt(&self, f: &mut fmt::Formatter<'_>) -> fmt::Result {
        f.write_str(match self {
            Unaccepted::NotAccepted => "not accepted",
            Unaccepted::BadLength => LENGTHS,
        })
    }
}

impl fmt::Display for Unproposed {
    fn fmt(&self, f: &mut fmt::Formatter<'_>) -> fmt::Result {
        f.write_str(match self {
            Unproposed::NotServed => "a page is wide or has other cells than text, or the last cells differ",
            Unproposed::NoRoom => "no room for the spans or the bytes",
            Unproposed::BadLength => LENGTHS,
        })
    }
}

impl core::error::Error for Unaccepted {}

impl core::error::Error for Unproposed {}
