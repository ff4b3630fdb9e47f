//! Replies that may be sent in parts.

use super::*;

const FS: u8 = 0x1C;
const US: u8 = 0x1F;

impl Terminal {
    pub(super) fn begin_reply(&mut self, command: u8, room: &mut [u8]) -> Outcome {
        let places = self.state.places(command);
        if places.is_empty() {
            return Err(Refusal::BadArgument);
        }
        if room.is_empty() {
            return Err(Refusal::NoRoom);
        }
        Ok(self.send(command, &places, room))
    }

    /// Goes on with the send under way, if there is one.
    pub(super) fn go_on(&mut self, room: &mut [u8]) -> usize {
        let Some(Sending { command, place }) = self.state.sending else {
            return 0;
        };
        let places = self.state.places(command);
        let left = places.iter().skip_while(|&&other| other != place);
        let left: Vec<Place> = left.copied().collect();
        self.send(command, &left, room)
    }

    /// Sends these places as far as there is room, and remembers the next.
    fn send(&mut self, command: u8, places: &[Place], room: &mut [u8]) -> usize {
        self.state.sending = None;
        let mut sent = 0;
        for &place in places {
            if sent == room.len() {
                self.state.sending = Some(Sending { command, place });
                break;
            }
            if let Some(byte) = self.byte_at(command, place) {
                room[sent] = byte;
                sent += 1;
            }
        }
        sent
    }

    fn byte_at(&self, command: u8, place: Place) -> Option<u8> {
        match place {
            Place::Cell(cell) => self.cell_sent(command, cell as usize),
            Place::RowMark(_) => Some(US),
            Place::Cr => Some(CR),
            Place::Byte(number) => Some(self.short_reply(command)[number as usize]),
        }
    }

    /// A stretch of cells left out within a row goes as one FS, at its first cell.
    fn cell_sent(&self, command: u8, cell: usize) -> Option<u8> {
        let leaves_out = |cell: usize| {
            let may_leave_out = matches!(command, b'4' | b'5');
            may_leave_out && self.page[cell].is_protected()
        };
        if !leaves_out(cell) {
            return Some(self.page[cell].sent());
        }
        let is_first = cell == self.row_start(cell) || !leaves_out(cell - 1);
        is_first.then_some(FS)
    }
}
