//! What is read of a page: fields, texts and places. Each is asked of the library.

use crate::cell::write_cells;
use crate::{sys, Cell, LONGEST_TEXT};
use core::fmt;
use core::ops::Deref;

/// A row and a column of the page, from 0.
#[derive(Clone, Copy, Debug, PartialEq, Eq, Hash)]
pub struct Position {
    pub row: usize,
    pub column: usize,
}

impl Position {
    pub(crate) fn at(raw: sys::RawPosition) -> Option<Self> {
        (raw.answer == 0).then_some(Position { row: raw.row, column: raw.column })
    }
}

/// The text of a field or a row: bytes from 20h to 7Eh. It is a `str`.
#[derive(Clone, Copy)]
pub struct Text {
    bytes: [u8; LONGEST_TEXT],
    length: usize,
}

impl Text {
    /// What `put` puts into a room, if it is answered 0.
    pub(crate) fn read(put: impl FnOnce(&mut [u8]) -> sys::RawText) -> Option<Self> {
        let mut bytes = [0; LONGEST_TEXT];
        let read = put(&mut bytes);
        (read.answer == 0).then_some(Text { bytes, length: read.length })
    }

    pub fn as_str(&self) -> &str {
        core::str::from_utf8(&self.bytes[..self.length]).expect("a text is 20h to 7Eh")
    }
}

impl Deref for Text {
    type Target = str;

    fn deref(&self) -> &str {
        self.as_str()
    }
}

impl PartialEq for Text {
    fn eq(&self, other: &Self) -> bool {
        self.as_str() == other.as_str()
    }
}

impl Eq for Text {}

impl fmt::Display for Text {
    fn fmt(&self, f: &mut fmt::Formatter<'_>) -> fmt::Result {
        f.pad(self)
    }
}

impl fmt::Debug for Text {
    fn fmt(&self, f: &mut fmt::Formatter<'_>) -> fmt::Result {
        fmt::Debug::fmt(self.as_str(), f)
    }
}

/// A field: a longest stretch of cells within one row that are not marked protected. It displays at its full width, as a send gives it.
#[derive(Clone, Copy, PartialEq, Eq)]
pub struct Field<'a> {
    page: &'a [u16],
    start: usize,
    length: usize,
    position: Position,
}

impl<'a> Field<'a> {
    /// Its first cell, from 0.
    pub fn start(self) -> usize {
        self.start
    }

    /// The row of the page, from 0.
    pub fn row(self) -> usize {
        self.position.row
    }

    /// The column of its first cell, from 0.
    pub fn column(self) -> usize {
        self.position.column
    }

    pub fn cells(self) -> impl DoubleEndedIterator<Item = Cell> + ExactSizeIterator + 'a {
        self.numbers().iter().copied().map(Cell)
    }

    /// What it holds, without trailing spaces.
    pub fn text(self) -> Text {
        Text::read(|room| sys::field_text(self.page, self.start, true, room)).expect("a field starts here")
    }

    fn numbers(self) -> &'a [u16] {
        &self.page[self.start..self.start + self.length]
    }
}

impl fmt::Display for Field<'_> {
    fn fmt(&self, f: &mut fmt::Formatter<'_>) -> fmt::Result {
        write_cells(f, self.numbers())
    }
}

impl fmt::Debug for Field<'_> {
    fn fmt(&self, f: &mut fmt::Formatter<'_>) -> fmt::Result {
        f.debug_struct("Field").field("start", &self.start).field("text", &self.text()).finish_non_exhaustive()
    }
}

/// The fields of a page in reading order.
#[derive(Clone)]
pub struct Fields<'a> {
    page: &'a [u16],
    from: usize,
}

impl<'a> Fields<'a> {
    pub(crate) fn new(page: &'a [u16]) -> Self {
        Fields { page, from: 0 }
    }
}

impl<'a> Iterator for Fields<'a> {
    type Item = Field<'a>;

    fn next(&mut self) -> Option<Field<'a>> {
        let found = sys::next_field(self.page, self.from);
        if found.length == 0 {
            self.from = self.page.len();
            return None;
        }
        self.from = found.start + found.length;
        let position = Position { row: found.row, column: found.column };
        Some(Field { page: self.page, start: found.start, length: found.length, position })
    }
}

impl core::iter::FusedIterator for Fields<'_> {}

impl fmt::Debug for Fields<'_> {
    fn fmt(&self, f: &mut fmt::Formatter<'_>) -> fmt::Result {
        f.debug_list().entries(self.clone()).finish()
    }
}

/// Protect mode is off: the form is not drawn yet, or the host has opened its labels. What is not marked protected may be no field of a form.
#[derive(Clone, Debug)]
pub struct ProtectOff<'a>(Fields<'a>);

impl<'a> ProtectOff<'a> {
    pub(crate) fn new(fields: Fields<'a>) -> Self {
        ProtectOff(fields)
    }

    /// The fields all the same, by the cells' own marks: no label is in them.
    pub fn fields(self) -> Fields<'a> {
        self.0
    }
}

impl fmt::Display for ProtectOff<'_> {
    fn fmt(&self, f: &mut fmt::Formatter<'_>) -> fmt::Result {
        f.write_str("protect mode is off")
    }
}

impl core::error::Error for ProtectOff<'_> {}
