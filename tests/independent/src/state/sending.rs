//! The send under way, and the places of a reply.

use super::State;

/// A place of a reply.
#[derive(Clone, Copy, PartialEq, Eq, Debug)]
pub enum Place {
    Cell(u16),
    /// The US before a row's first cell.
    RowMark(u16),
    Cr,
    /// Of a reply that reads no cells, with so many bytes before it.
    Byte(u8),
}

/// A reply that has begun: its command's byte after ESC, and the place after the
/// last byte sent.
#[derive(Clone, Copy, PartialEq, Eq, Debug)]
pub struct Sending {
    pub command: u8,
    pub place: Place,
}

impl Sending {
    pub fn reads_cells(command: u8) -> bool {
        matches!(command, b'4'..=b'7')
    }

    /// How many bytes a reply that reads no cells has.
    pub fn short_length(command: u8) -> Option<usize> {
        match command {
            b' ' | b'?' => Some(3),
            b'/' => Some(4),
            b'b' => Some(7),
            _ => None,
        }
    }
}

impl State {
    /// The places of a command's reply, in the order in which they are sent; none
    /// for ESC ? and ESC / on a wide page.
    pub fn places(&self, command: u8) -> Vec<Place> {
        let cursor = self.cursor();
        match command {
            b'4' | b'6' => self.places_of_cells(self.row_start(cursor), cursor),
            b'5' | b'7' => self.places_of_cells(self.active_segment().start, cursor),
            b'?' | b'/' if self.wide => vec![],
            _ => {
                let length = Sending::short_length(command).unwrap_or(0);
                (0..length as u8).map(Place::Byte).collect()
            }
        }
    }

    /// Whether a send can stand where it does: at any place but the first.
    pub(super) fn has_possible_send(&self) -> bool {
        self.sending.is_none_or(|sending| {
            self.sequence == super::Sequence::None
                && self
                    .places(sending.command)
                    .iter()
                    .skip(1)
                    .any(|&place| place == sending.place)
        })
    }

    fn places_of_cells(&self, first: usize, last: usize) -> Vec<Place> {
        let mut places = Vec::new();
        for cell in first..=last {
            if cell > first && cell == self.row_start(cell) {
                places.push(Place::RowMark(cell as u16));
            }
            places.push(Place::Cell(cell as u16));
        }
        places.push(Place::Cr);
        places
    }
}
