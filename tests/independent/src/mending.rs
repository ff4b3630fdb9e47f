//! Mending a damaged saved page.

use crate::state::{Cell, Flags, Personality, COLUMNS, ROWS, WIDEST};

/// What mending says: its answer, and how many entries are needed.
#[derive(Clone, Copy, PartialEq, Eq, Debug)]
pub struct Mended {
    pub answer: u8,
    pub needed: usize,
}

/// Row, column, old number and new number.
pub const ENTRY_NUMBERS: usize = 4;

/// Makes each cell that the personality could not have written a null, and lists
/// the cells changed. Nothing is changed if the list is too short.
pub fn mend(page: &mut [Cell], personality: Personality, list: &mut [u16]) -> Mended {
    let columns = match page.len() / ROWS {
        columns @ (COLUMNS | WIDEST) if page.len() % ROWS == 0 => columns,
        _ => {
            return Mended {
                answer: 7,
                needed: 0,
            }
        }
    };
    let unwritable: Vec<usize> = (0..page.len())
        .filter(|&place| !is_writable(page[place], personality))
        .collect();
    let needed = unwritable.len();
    if needed > list.len() / ENTRY_NUMBERS {
        return Mended { answer: 6, needed };
    }
    for (place, entry) in unwritable.into_iter().zip(list.chunks_mut(ENTRY_NUMBERS)) {
        let (row, column) = (place / columns + 1, place % columns + 1);
        entry.copy_from_slice(&[row as u16, column as u16, page[place].0, Cell::NULL.0]);
        page[place] = Cell::NULL;
    }
    Mended { answer: 0, needed }
}

/// Whether the terminal could have written a cell. In WY-60 only ESC ! writes
/// attribute cells, unprotected and with normal flags.
pub fn is_writable(cell: Cell, personality: Personality) -> bool {
    let (code, flags) = (cell.code(), cell.flags());
    let is_stored = match cell.kind() {
        0 => (b' '..=b'~').contains(&code),
        1 => {
            let is_normal = flags == Flags::NORMAL && !cell.is_protected();
            Flags::of_code(code).is_some() && (personality == Personality::Wy50 || is_normal)
        }
        2 => (0x30..=0x3F).contains(&code),
        _ => false,
    };
    let is_known = flags.can_be_remembered(personality) && !cell.has_unread_bit();
    cell == Cell::NULL || is_stored && is_known
}
