//! Arguments of sequences.

use super::*;

impl Terminal {
    pub(super) fn argument(&mut self, gathered: Gathered, byte: u8) -> Outcome {
        match (gathered.command(), gathered.arguments()) {
            (b'=', &[row]) => self.address(self.state.active as usize, row, byte),
            (b'-', &[segment, row]) => self.address_in_segment(segment, row, byte),
            (b'A', &[field]) => self.set_field_attribute(field, byte),
            (b'G', _) => self.attribute(byte),
            (b'H', _) => self.store_with_attribute(graphic_cell(byte)?),
            (b'!', _) => self.clear_open_cells(attribute_cell(byte)?),
            (b'.', _) => self.clear_open_cells(filler_cell(byte)?),
            (b'`', _) => self.set_feature(byte),
            (b'x', []) => self.split_choice(gathered, byte),
            (b'x', _) => self.split_at(byte),
            (b'a', _) => self.decimal_address(gathered, byte),
            (b'z', []) => self.text_place(gathered, byte),
            (b'z' | b'F', _) => self.text(gathered, byte),
            _ => self.await_more(gathered, byte),
        }
    }

    pub(super) fn await_more(&mut self, mut gathered: Gathered, byte: u8) -> Outcome {
        gathered.push(byte);
        self.await_next(Sequence::Arguments(gathered))
    }

    /// By codes, which reach column 80 on a wide page too.
    fn address(&mut self, segment: usize, row_code: u8, column_code: u8) -> Outcome {
        let row = (row_code as usize)
            .checked_sub(0x20)
            .ok_or(Refusal::BadArgument)?;
        let column = (column_code as usize)
            .checked_sub(0x20)
            .filter(|&column| column < COLUMNS)
            .ok_or(Refusal::BadArgument)?;
        self.move_to(segment, row, column)
    }

    fn address_in_segment(&mut self, segment: u8, row: u8, column: u8) -> Outcome {
        match segment {
            b'0' => self.address(0, row, column),
            b'1' if self.state.split != 0 => self.address(1, row, column),
            _ => Err(Refusal::BadArgument),
        }
    }

    /// Makes the segment active and moves to a place in it, counted from 0.
    fn move_to(&mut self, segment: usize, row: usize, column: usize) -> Outcome {
        let (cells, columns) = (self.state.segment(segment), self.columns());
        if row >= cells.len() / columns || column >= columns {
            return Err(Refusal::BadArgument);
        }
        self.state.active = segment as u8;
        self.settle(cells.start + row * columns + column)
    }

    /// One or two digits, R, one to three digits, C.
    fn decimal_address(&mut self, mut gathered: Gathered, byte: u8) -> Outcome {
        let so_far = gathered.arguments();
        match so_far.iter().position(|&argument| argument == b'R') {
            None => match (so_far.len(), byte) {
                (0 | 1, b'0'..=b'9') => self.await_more(gathered, byte),
                (1, b'R') => {
                    gathered.push_front(b'0');
                    self.await_more(gathered, byte)
                }
                (2, b'R') => self.await_more(gathered, byte),
                _ => Err(Refusal::BadArgument),
            },
            Some(mark) => match (so_far.len() - mark - 1, byte) {
                (0..=2, b'0'..=b'9') => self.await_more(gathered, byte),
                (1..=3, b'C') => {
                    let (row, column) = (decimal(&so_far[..mark]), decimal(&so_far[mark + 1..]));
                    self.move_to_counted(row, column)
                }
                _ => Err(Refusal::BadArgument),
            },
        }
    }

    /// Moves to a place of the active segment, counted from 1.
    fn move_to_counted(&mut self, row: usize, column: usize) -> Outcome {
        if row == 0 || column == 0 {
            return Err(Refusal::BadArgument);
        }
        self.move_to(self.state.active as usize, row - 1, column - 1)
    }

    /// In WY-50 an attribute takes a cell; in WY-60 it is remembered.
    fn attribute(&mut self, code: u8) -> Outcome {
        match (self.state.personality, Flags::of_code(code)) {
            (Personality::Wy60, Some(flags)) => {
                self.state.remembered = flags;
                DONE
            }
            _ => self.store(attribute_cell(code)?),
        }
    }

    fn set_field_attribute(&mut self, field: u8, code: u8) -> Outcome {
        if !(b'0'..=b'3').contains(&field) || !is_attribute(code) {
            return Err(Refusal::BadArgument);
        }
        self.state.attributes[(field - b'0') as usize] = code;
        DONE
    }

    fn set_feature(&mut self, code: u8) -> Outcome {
        if let b':' | b';' = code {
            self.state.wish = code == b';';
            return DONE;
        }
        let number = feature_number(code).ok_or(Refusal::BadArgument)?;
        self.state.features[number] = code;
        DONE
    }

    fn split_choice(&mut self, gathered: Gathered, byte: u8) -> Outcome {
        match byte {
            b'0' => self.split_screen(0),
            b'1' => self.await_more(gathered, byte),
            _ => Err(Refusal::BadArgument),
        }
    }

    fn split_at(&mut self, row_code: u8) -> Outcome {
        match row_code {
            0x21..=0x37 => self.split_screen(row_code - 0x1F),
            _ => Err(Refusal::BadArgument),
        }
    }

    pub(super) fn split_screen(&mut self, row: u8) -> Outcome {
        self.state.split = row;
        self.state.active = 0;
        let lower_home = if row == 0 {
            0
        } else {
            self.state.segment(1).start
        };
        self.state.cursors[1] = lower_home as u16;
        self.home()
    }
}

fn decimal(digits: &[u8]) -> usize {
    digits
        .iter()
        .fold(0, |number, digit| number * 10 + (digit - b'0') as usize)
}

/// The attribute 20h is a text space.
fn attribute_cell(code: u8) -> Result<Cell, Refusal> {
    match code {
        b' ' => Ok(Cell::SPACE),
        _ if is_attribute(code) => Ok(Cell::attribute(code)),
        _ => Err(Refusal::BadArgument),
    }
}

fn graphic_cell(code: u8) -> Result<Cell, Refusal> {
    match code {
        0x30..=0x3F => Ok(Cell::graphic(code)),
        _ => Err(Refusal::BadArgument),
    }
}

fn filler_cell(code: u8) -> Result<Cell, Refusal> {
    match code {
        0x00 | b' '..=b'~' => Ok(Cell::text(code)),
        _ => Err(Refusal::BadArgument),
    }
}
