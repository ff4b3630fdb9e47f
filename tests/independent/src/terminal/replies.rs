//! Modes and replies.

use super::*;

impl Terminal {
    pub(super) fn lock(&mut self, locked: bool) -> Outcome {
        self.state.modes.locked = locked;
        DONE
    }

    pub(super) fn protect_on(&mut self) -> Outcome {
        self.state.modes.protect = true;
        self.settle(self.cursor())
    }

    pub(super) fn set_tab_stop(&mut self, on: bool) -> Outcome {
        let column = self.cursor() % self.columns();
        self.state.tab_stops.set(column, on);
        DONE
    }

    pub(super) fn clear_tab_stops(&mut self) -> Outcome {
        self.state.tab_stops = TabStops::NONE;
        DONE
    }

    /// The cursor's row and column, counted from 0 at the segment's top.
    pub(super) fn position(&self) -> (u8, u8) {
        let offset = self.cursor() - self.segment().start;
        let columns = self.columns();
        ((offset / columns) as u8, (offset % columns) as u8)
    }

    /// The bytes of a reply that reads no cells.
    pub(super) fn short_reply(&self, command: u8) -> Vec<u8> {
        let (row, column) = self.position();
        match (command, self.state.personality) {
            (b' ', Personality::Wy50) => b"50\r".to_vec(),
            (b' ', Personality::Wy60) => b"60\r".to_vec(),
            (b'?', _) => vec![0x20 + row, 0x20 + column, CR],
            (b'/', _) => vec![b'0' + self.state.active, 0x20 + row, 0x20 + column, CR],
            _ => format!("{:02}R{:03}C", row + 1, column + 1).into_bytes(),
        }
    }

    pub(super) fn reply_cell(&self, room: &mut [u8]) -> Outcome {
        self.check_cursor_open()?;
        reply(room, &[self.page[self.cursor()].sent()])
    }
}

pub(super) fn reply(room: &mut [u8], bytes: &[u8]) -> Outcome {
    if room.len() < bytes.len() {
        return Err(Refusal::NoRoom);
    }
    room[..bytes.len()].copy_from_slice(bytes);
    Ok(bytes.len())
}
