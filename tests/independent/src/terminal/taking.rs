//! Taking one byte.

use super::*;

/// Taking one byte. Whatever the byte does, the sequence under way is over
/// unless it is put back.
impl Terminal {
    pub(super) fn take(&mut self, byte: u8, room: &mut [u8]) -> Outcome {
        if byte >= 0x80 {
            return Err(Refusal::HighByte);
        }
        let before = self.state.sequence;
        self.state.sequence = Sequence::None;
        let outcome = match before {
            Sequence::None => self.plain(byte, room),
            Sequence::Escape => self.escape(byte, room),
            Sequence::Arguments(gathered) => self.argument(gathered, byte),
            Sequence::Spoilt(head) => self.swallow(head, byte),
        };
        if outcome == Err(Refusal::NoRoom) {
            self.state.sequence = before;
        }
        outcome
    }

    fn plain(&mut self, byte: u8, room: &mut [u8]) -> Outcome {
        match byte {
            b' '..=b'~' => self.store_with_attribute(Cell::text(byte)),
            ESC => self.await_next(Sequence::Escape),
            0x05 => reply(room, &[ACK]),
            0x07 => {
                self.state.bells = self.state.bells.wrapping_add(1);
                DONE
            }
            0x08 => self.left(),
            0x09 => self.tab(),
            0x0A => self.down(),
            0x0B => self.up(),
            0x0C => self.right(),
            0x0D => self.carriage_return(),
            0x0E => self.lock(false),
            0x0F => self.lock(true),
            0x1A => self.clear_open_cells(Cell::SPACE),
            0x1E => self.home(),
            0x1F => self.new_line(),
            _ => DONE,
        }
    }

    fn escape(&mut self, byte: u8, room: &mut [u8]) -> Outcome {
        match byte {
            b'=' | b'-' | b'A' | b'G' | b'H' | b'!' | b'.' | b'`' | b'x' | b'a' | b'z' | b'F' => {
                self.await_next(Sequence::Arguments(Gathered::new(byte)))
            }
            b' ' | b'?' | b'/' | b'b' | b'4'..=b'7' => self.begin_reply(byte, room),
            b'M' => self.reply_cell(room),
            _ => self.escape_without_reply(byte),
        }
    }

    fn escape_without_reply(&mut self, byte: u8) -> Outcome {
        match byte {
            b'i' => self.tab(),
            b'I' => self.back_tab(),
            b'j' => self.up_or_scroll(),
            b'{' => self.home(),
            b'J' | b'K' => self.activate_other(),
            b']' => self.activate(0),
            b'}' => self.activate(1),
            b'Q' => self.insert_space(),
            b'W' => self.delete_cell(),
            b'E' => self.insert_row(),
            b'R' => self.delete_row(),
            b'T' => self.clear_row_rest(Cell::SPACE),
            b't' => self.clear_row_rest(Cell::NULL),
            b'Y' => self.clear_segment_rest(Cell::SPACE),
            b'y' => self.clear_segment_rest(Cell::NULL),
            b';' => self.clear_open_cells(Cell::SPACE),
            b':' => self.clear_open_cells(Cell::NULL),
            b'*' => self.clear_all_cells(Cell::NULL),
            b'+' => self.clear_all_cells(Cell::SPACE),
            b',' => self.clear_all_to_protected(),
            b'V' => self.protect_column(),
            b'&' => self.protect_on(),
            b'"' => self.lock(false),
            b'#' => self.lock(true),
            b'0' => self.clear_tab_stops(),
            b'1' => self.set_tab_stop(true),
            b'2' => self.set_tab_stop(false),
            _ => self.switch_mode(byte),
        }
    }

    fn switch_mode(&mut self, byte: u8) -> Outcome {
        let modes = &mut self.state.modes;
        match byte {
            b')' => modes.write_protect = true,
            b'(' => modes.write_protect = false,
            b'\'' => modes.protect = false,
            b'O' => modes.autoscroll = true,
            b'N' => modes.autoscroll = false,
            b'q' => modes.insert = true,
            b'r' => modes.insert = false,
            b'k' => modes.local_edit = true,
            b'l' => modes.local_edit = false,
            _ => return Err(Refusal::UnknownEscape),
        }
        DONE
    }

    pub(super) fn await_next(&mut self, sequence: Sequence) -> Outcome {
        self.state.sequence = sequence;
        DONE
    }
}
