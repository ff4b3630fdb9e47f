//! Cells.

use super::Flags;

/// One cell as its 16-bit number: code, the protected mark worth 128, kind times
/// 256, attribute flags times 1024.
#[derive(Clone, Copy, PartialEq, Eq, Debug)]
pub struct Cell(pub u16);

impl Cell {
    pub const NULL: Cell = Cell(0);
    pub const SPACE: Cell = Cell(b' ' as u16);
    const PROTECTED: u16 = 0x80;

    pub fn text(code: u8) -> Cell {
        Cell(code as u16)
    }

    pub fn attribute(code: u8) -> Cell {
        Cell(0x100 | code as u16)
    }

    pub fn graphic(code: u8) -> Cell {
        Cell(0x200 | code as u16)
    }

    pub fn with_flags(self, flags: Flags) -> Cell {
        Cell(self.0 | (flags.0 as u16) << 10)
    }

    pub fn with_protection(self) -> Cell {
        Cell(self.0 | Cell::PROTECTED)
    }

    pub fn is_protected(self) -> bool {
        self.0 & Cell::PROTECTED != 0
    }

    pub fn code(self) -> u8 {
        (self.0 & 0x7F) as u8
    }

    /// 0 text, 1 attribute, 2 and 3 graphic.
    pub fn kind(self) -> u16 {
        self.0 >> 8 & 3
    }

    pub fn flags(self) -> Flags {
        Flags((self.0 >> 10 & 31) as u8)
    }

    /// The bit worth 32768.
    pub fn has_unread_bit(self) -> bool {
        self.0 >> 15 != 0
    }

    /// The byte this cell goes as when text is sent.
    pub fn sent(self) -> u8 {
        let code = self.code();
        if self.kind() == 0 && (b' '..=b'~').contains(&code) {
            code
        } else {
            b' '
        }
    }
}
