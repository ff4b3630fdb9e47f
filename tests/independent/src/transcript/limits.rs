//! How much a line may ask for.

/// Cells of a page, and of the target of a conversion.
pub const LONGEST_PAGE: usize = 4000;
/// Numbers of a row list.
pub const LONGEST_ROW_LIST: usize = 4000;
/// Entries of the list of a mending.
pub const MOST_ENTRIES: usize = 16384;
/// Spans and bytes of the rooms of a proposal.
pub const MOST_SPANS: usize = 4000;
pub const MOST_PAINT_BYTES: usize = 16384;
/// Bytes of a store.
pub const LONGEST_STORE: usize = 16384;
/// Bytes of the room of a reply or a text.
pub const WIDEST_ROOM: usize = 4000;
/// The cell, row or column that a page is read at.
pub const FARTHEST: usize = (1 << 60) - 1;
