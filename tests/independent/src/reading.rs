//! Reading a page: its fields, its texts, its places. The page's length says how
//! wide it is.

use crate::state::{Cell, COLUMNS, ROWS, WIDEST};
use crate::terminal::{Outcome, Refusal};

/// A longest stretch of cells within one row that are not marked protected.
#[derive(Clone, Copy, PartialEq, Eq, Debug)]
pub struct Field {
    pub start: usize,
    pub length: usize,
    pub row: usize,
    pub column: usize,
}

/// The columns of a page of so many cells.
fn columns(cells: usize) -> Option<usize> {
    [COLUMNS, WIDEST]
        .into_iter()
        .find(|columns| cells == ROWS * columns)
}

/// All fields in reading order; none in a page of another length.
pub fn fields(page: &[Cell]) -> Vec<Field> {
    let Some(columns) = columns(page.len()) else {
        return vec![];
    };
    let mut fields = Vec::new();
    for (row, cells) in page.chunks(columns).enumerate() {
        let mut column = 0;
        for stretch in cells.chunk_by(|a, b| a.is_protected() == b.is_protected()) {
            if !stretch[0].is_protected() {
                fields.push(Field {
                    start: row * columns + column,
                    length: stretch.len(),
                    row,
                    column,
                });
            }
            column += stretch.len();
        }
    }
    fields
}

/// The first field that starts at a cell or behind it.
pub fn next_field(page: &[Cell], from: usize) -> Option<Field> {
    fields(page).into_iter().find(|field| field.start >= from)
}

pub fn field_text(page: &[Cell], start: usize, trim: bool, room: &mut [u8]) -> Outcome {
    columns(page.len()).ok_or(Refusal::Impossible)?;
    let field = next_field(page, start).filter(|field| field.start == start);
    let field = field.ok_or(Refusal::BadArgument)?;
    put_text(&page[start..start + field.length], trim, room)
}

pub fn row_text(page: &[Cell], row: usize, trim: bool, room: &mut [u8]) -> Outcome {
    let columns = columns(page.len()).ok_or(Refusal::Impossible)?;
    let cells = page.chunks(columns).nth(row);
    put_text(cells.ok_or(Refusal::BadArgument)?, trim, room)
}

/// What a send gives for the cells, if it fits.
fn put_text(cells: &[Cell], trim: bool, room: &mut [u8]) -> Outcome {
    let mut text: Vec<u8> = cells.iter().map(|cell| cell.sent()).collect();
    while trim && text.last() == Some(&b' ') {
        text.pop();
    }
    let front = room.get_mut(..text.len()).ok_or(Refusal::NoRoom)?;
    front.copy_from_slice(&text);
    Ok(text.len())
}

/// The row and column of a cell in a page of so many cells.
pub fn position(cells: usize, cell: usize) -> Result<(usize, usize), Refusal> {
    let columns = columns(cells).ok_or(Refusal::Impossible)?;
    if cell >= cells {
        return Err(Refusal::BadArgument);
    }
    Ok((cell / columns, cell % columns))
}

/// The cell at a row and column; the number of cells where there is none.
pub fn cell_at(cells: usize, row: usize, column: usize) -> usize {
    match columns(cells) {
        Some(columns) if row < ROWS && column < columns => row * columns + column,
        _ => cells,
    }
}
