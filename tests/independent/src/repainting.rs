//! Repainting a distant display: from the page it shows to the page wanted.

use crate::state::{Cell, Flags, Personality, State, CELLS, COLUMNS, ESC, ROWS, WIDEST};
use crate::terminal::Terminal;

const ACCEPTED: u8 = 0;
const NOT_ACCEPTED: u8 = 3;
const NO_ROOM: u8 = 6;
const WRONG_LENGTH: u8 = 7;

/// Some cells of a row. Rows and columns count from 1; any numbers may stand here.
#[derive(Clone, Copy, PartialEq, Eq, Debug)]
pub struct Span {
    pub row: u16,
    pub column: u16,
    pub length: u16,
}

/// The columns of two pages of the same length, if they have one of the widths.
fn common_columns(shown: &[Cell], wanted: &[Cell]) -> Option<usize> {
    [COLUMNS, WIDEST]
        .into_iter()
        .find(|columns| shown.len() == ROWS * columns && wanted.len() == shown.len())
}

/// Accepts spans in reading order, apart, within their rows, not empty, that cover
/// every cell that differs.
pub fn judge_spans(shown: &[Cell], wanted: &[Cell], spans: &[Span]) -> u8 {
    let Some(columns) = common_columns(shown, wanted) else {
        return WRONG_LENGTH;
    };
    let mut is_covered = vec![false; shown.len()];
    let mut end = 0;
    for span in spans {
        let [row, column, length] = [span.row, span.column, span.length].map(usize::from);
        let is_on_page = (1..=ROWS).contains(&row) && (1..=columns).contains(&column);
        if !is_on_page || length == 0 || column - 1 + length > columns {
            return NOT_ACCEPTED;
        }
        let start = (row - 1) * columns + column - 1;
        if start < end {
            return NOT_ACCEPTED;
        }
        end = start + length;
        is_covered[start..end].fill(true);
    }
    let is_missed = |cell: usize| shown[cell] != wanted[cell] && !is_covered[cell];
    if (0..shown.len()).any(is_missed) {
        return NOT_ACCEPTED;
    }
    ACCEPTED
}

/// Accepts bytes that a terminal just powered on, with the page shown and no reply
/// room, answers 0 to each and turns into the page wanted.
pub fn judge_bytes(shown: &[Cell], wanted: &[Cell], personality: Personality, bytes: &[u8]) -> u8 {
    let Some(columns) = common_columns(shown, wanted) else {
        return WRONG_LENGTH;
    };
    let mut terminal = terminal_showing(shown, personality, columns == WIDEST);
    let obeys_all = bytes
        .iter()
        .all(|&byte| terminal.step(byte, &mut []).outcome.is_ok());
    if obeys_all && terminal.page == wanted {
        ACCEPTED
    } else {
        NOT_ACCEPTED
    }
}

/// A terminal just powered on, but with this page.
pub fn terminal_showing(shown: &[Cell], personality: Personality, wide: bool) -> Terminal {
    Terminal {
        page: shown.to_vec(),
        state: State {
            wide,
            ..State::power_on(personality)
        },
    }
}

/// The longest stretches of differing cells within a row.
pub fn differing_stretches(shown: &[Cell], wanted: &[Cell]) -> Option<Vec<Span>> {
    let columns = common_columns(shown, wanted)?;
    let mut spans: Vec<Span> = Vec::new();
    let mut last = None;
    for cell in (0..shown.len()).filter(|&cell| shown[cell] != wanted[cell]) {
        let goes_on = cell % columns > 0 && last == Some(cell - 1);
        match spans.last_mut() {
            Some(span) if goes_on => span.length += 1,
            _ => spans.push(Span {
                row: (cell / columns + 1) as u16,
                column: (cell % columns + 1) as u16,
                length: 1,
            }),
        }
        last = Some(cell);
    }
    Some(spans)
}

/// Proposes spans and the bytes that paint them, and says how many of each.
pub fn propose(
    shown: &[Cell],
    wanted: &[Cell],
    personality: Personality,
    span_room: &mut [Span],
    byte_room: &mut [u8],
) -> Result<(usize, usize), u8> {
    let spans = differing_stretches(shown, wanted).ok_or(WRONG_LENGTH)?;
    let is_plain_page = |page: &[Cell]| page.iter().all(|&cell| is_plain(cell, personality));
    let ends_alike = shown.last() == wanted.last();
    if shown.len() != CELLS || !is_plain_page(shown) || !is_plain_page(wanted) || !ends_alike {
        return Err(NOT_ACCEPTED);
    }
    let bytes = painting(wanted, &spans);
    if spans.len() > span_room.len() || bytes.len() > byte_room.len() {
        return Err(NO_ROOM);
    }
    span_room[..spans.len()].copy_from_slice(&spans);
    byte_room[..bytes.len()].copy_from_slice(&bytes);
    Ok((spans.len(), bytes.len()))
}

/// Whether a cell is unprotected text as the personality writes it.
fn is_plain(cell: Cell, personality: Personality) -> bool {
    let written = Cell::text(cell.code()).with_flags(cell.flags());
    (b' '..=b'~').contains(&cell.code())
        && cell.flags().can_be_remembered(personality)
        && cell == written
}

/// Goes to each span and writes its cells, with ESC G before each whose attribute
/// is not the one remembered.
fn painting(wanted: &[Cell], spans: &[Span]) -> Vec<u8> {
    let mut bytes = Vec::new();
    let mut remembered = Flags::NORMAL;
    for span in spans {
        let [row, column] = [span.row, span.column].map(|number| number - 1);
        bytes.extend([ESC, b'=', 0x20 + row as u8, 0x20 + column as u8]);
        let start = row as usize * COLUMNS + column as usize;
        for cell in &wanted[start..][..span.length as usize] {
            if cell.flags() != remembered {
                remembered = cell.flags();
                bytes.extend([ESC, b'G', remembered.code()]);
            }
            bytes.push(cell.code());
        }
    }
    bytes
}
