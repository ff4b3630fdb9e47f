//! The sequence under way, by name.

/// Which sequence is under way: the number of [`Sequence::kind`](crate::Sequence). What its other numbers are is said with each; a number that its
/// kind does not have is 0.
#[derive(Clone, Copy, Debug, PartialEq, Eq, Hash)]
#[repr(u16)]
pub enum SequenceKind {
    /// None.
    Idle = 0,
    /// ESC
    Escape = 1,
    /// ESC =
    Address = 2,
    /// ESC = r: `first` is the row code.
    AddressRow = 3,
    /// ESC -
    Segment = 4,
    /// ESC - n: `first` is the segment code.
    SegmentNumber = 5,
    /// ESC - n r: `first` is the segment code, `second` the row code.
    SegmentRow = 6,
    /// ESC a: `first` counts the digits so far, `second` is their number.
    DecimalRow = 7,
    /// ESC a row R: `first` is the row, `second` counts the column's digits so far, `third` is their number.
    DecimalColumn = 8,
    /// ESC x
    Split = 9,
    /// ESC x 1
    SplitRow = 10,
    /// ESC G
    SetAttribute = 11,
    /// ESC H
    SetGraphic = 12,
    /// ESC !
    FillAttribute = 13,
    /// ESC .
    FillCode = 14,
    /// ESC `
    SetFeature = 15,
    /// ESC A
    FieldAttribute = 16,
    /// ESC A n: `first` is the field code.
    FieldNumber = 17,
    /// ESC z
    KeyValue = 18,
    /// ESC z value, a key's: `first` is the value, `second` counts the bytes of [`State::gathered`](crate::State), the text so far.
    KeyText = 19,
    /// ESC z value and more than 8 bytes: `first` is the value.
    KeyOver = 20,
    /// ESC z value, a label's: `first` is the value, `second` counts the bytes gathered.
    LabelText = 21,
    /// ESC z value and more than 8 bytes, or a bad one: `first` is the value.
    LabelSpoilt = 22,
    /// ESC F: `second` counts the bytes gathered.
    MessageText = 23,
    /// ESC F and more than 46 bytes, or a bad one.
    MessageSpoilt = 24,
}

use SequenceKind::*;

const ALL: [SequenceKind; 25] = [
    Idle,
    Escape,
    Address,
    AddressRow,
    Segment,
    SegmentNumber,
    SegmentRow,
    DecimalRow,
    DecimalColumn,
    Split,
    SplitRow,
    SetAttribute,
    SetGraphic,
    FillAttribute,
    FillCode,
    SetFeature,
    FieldAttribute,
    FieldNumber,
    KeyValue,
    KeyText,
    KeyOver,
    LabelText,
    LabelSpoilt,
    MessageText,
    MessageSpoilt,
];

impl SequenceKind {
    /// As wy50.h has it: 0 to 24.
    pub fn number(self) -> u16 {
        self as u16
    }

    /// The kind of this number, if there is one.
    pub fn from_number(number: u16) -> Option<Self> {
        ALL.get(usize::from(number)).copied()
    }
}
