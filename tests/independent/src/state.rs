//! The terminal's state.

#[path = "state/cell.rs"]
mod cell;
#[path = "state/codes.rs"]
mod codes;
#[path = "state/personality.rs"]
mod personality;
#[path = "state/sending.rs"]
mod sending;
#[path = "state/sequence.rs"]
mod sequence;
#[path = "state/tabs.rs"]
mod tabs;
#[path = "state/text.rs"]
mod text;

pub use cell::Cell;
pub use codes::{feature_number, is_attribute, key_number, label_number};
pub use personality::{Flags, Personality};
pub use sending::{Place, Sending};
pub use sequence::{Gathered, Sequence};
use std::ops::Range;
pub use tabs::TabStops;
pub use text::{is_character, is_key_byte, Key, Label, Message, Text};

pub const ROWS: usize = 24;
/// Of a narrow page.
pub const COLUMNS: usize = 80;
pub const CELLS: usize = ROWS * COLUMNS;
/// The columns of a wide page.
pub const WIDEST: usize = 132;
pub const KEYS: usize = 32;
pub const KEY_BYTES: usize = 8;
pub const LABELS: usize = 16;
pub const LABEL_BYTES: usize = 8;
pub const MESSAGE_BYTES: usize = 46;

pub const ESC: u8 = 0x1B;
pub const CR: u8 = 0x0D;
pub const DEL: u8 = 0x7F;

#[derive(Clone, Copy, PartialEq, Eq, Debug)]
pub struct Modes {
    pub protect: bool,
    pub write_protect: bool,
    pub insert: bool,
    pub autoscroll: bool,
    pub locked: bool,
    pub local_edit: bool,
}

#[derive(Clone, PartialEq, Eq, Debug)]
pub struct State {
    pub active: u8,
    pub cursors: [u16; 2],
    /// The row where segment 1 starts, counted from 1; 0 when unsplit.
    pub split: u8,
    pub modes: Modes,
    pub tab_stops: TabStops,
    pub attributes: [u8; 4],
    pub features: [u8; 5],
    pub keys: [Key; KEYS],
    pub bells: u8,
    pub sequence: Sequence,
    pub message: Message,
    pub labels: [Label; LABELS],
    /// Whether the shifted line is on.
    pub shifted: bool,
    pub personality: Personality,
    /// What is kept with every character and graphic stored.
    pub remembered: Flags,
    pub sending: Option<Sending>,
    /// Whether the page has 132 columns.
    pub wide: bool,
    /// Whether a wide page is wished for.
    pub wish: bool,
}

impl State {
    pub fn power_on(personality: Personality) -> State {
        State {
            active: 0,
            cursors: [0, 0],
            split: 0,
            modes: Modes {
                protect: false,
                write_protect: false,
                insert: false,
                autoscroll: true,
                locked: false,
                local_edit: false,
            },
            tab_stops: TabStops::NONE,
            attributes: [b'0'; 4],
            features: *b"1579@",
            keys: [Text::EMPTY; KEYS],
            bells: 0,
            sequence: Sequence::None,
            message: Text::EMPTY,
            labels: [Text::EMPTY; LABELS],
            shifted: false,
            personality,
            remembered: Flags::NORMAL,
            sending: None,
            wide: false,
            wish: false,
        }
    }

    pub fn is_possible(&self) -> bool {
        self.has_possible_cursors()
            && self.keys.iter().all(|key| key.is_possible(is_key_byte))
            && self.message.is_possible(is_character)
            && self
                .labels
                .iter()
                .all(|label| label.is_possible(is_character))
            && self.attributes.iter().all(|&code| is_attribute(code))
            && (0..5).all(|number| feature_number(self.features[number]) == Some(number))
            && self.remembered.can_be_remembered(self.personality)
            && self.has_possible_send()
            && self
                .tab_stops
                .columns()
                .all(|column| column < self.columns())
    }

    fn has_possible_cursors(&self) -> bool {
        let last_segment = match self.split {
            0 => 0,
            2..=24 => 1,
            _ => return false,
        };
        self.active <= last_segment
            && (0..2).all(|number| {
                self.segment(number)
                    .contains(&(self.cursors[number] as usize))
            })
    }

    pub fn columns(&self) -> usize {
        if self.wide {
            WIDEST
        } else {
            COLUMNS
        }
    }

    /// The columns after a conversion.
    pub fn other_columns(&self) -> usize {
        COLUMNS + WIDEST - self.columns()
    }

    /// How many cells the page has.
    pub fn cells(&self) -> usize {
        ROWS * self.columns()
    }

    /// The first cell of a cell's row.
    pub fn row_start(&self, cell: usize) -> usize {
        cell - cell % self.columns()
    }

    /// The active cursor.
    pub fn cursor(&self) -> usize {
        self.cursors[self.active as usize] as usize
    }

    pub fn active_segment(&self) -> Range<usize> {
        self.segment(self.active as usize)
    }

    /// The cells of a segment; unsplit, the whole page for both.
    pub fn segment(&self, number: usize) -> Range<usize> {
        if self.split == 0 {
            return 0..self.cells();
        }
        let border = (self.split as usize - 1) * self.columns();
        if number == 0 {
            0..border
        } else {
            border..self.cells()
        }
    }
}
