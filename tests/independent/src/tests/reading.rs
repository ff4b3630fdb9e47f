//! Reading a page: fields, texts, places.

use super::*;
use crate::reading::{cell_at, field_text, fields, next_field, position, row_text, Field};
use crate::transcript::Bench;

/// Labels but for cells 3 and 4, and 78 to 81.
fn form() -> Vec<Cell> {
    let mut page = vec![Cell::text(b'L').with_protection(); 1920];
    for (place, letter) in [(3, b' '), (4, b'a'), (78, b'b'), (79, b' '), (80, b'c')] {
        page[place] = Cell::text(letter);
    }
    page[81] = Cell::NULL;
    page
}

fn starts(page: &[Cell], from: usize) -> Option<(usize, usize)> {
    next_field(page, from).map(|field| (field.start, field.length))
}

#[test]
fn a_field_ends_with_its_row() {
    for (from, expected) in [
        (0, Some((3, 2))),
        (3, Some((3, 2))),
        (4, Some((78, 2))),
        (79, Some((80, 2))),
        (81, None),
        (1920, None),
        (65535, None),
    ] {
        assert_eq!(starts(&form(), from), expected);
    }
    let expected = Field {
        start: 80,
        length: 2,
        row: 1,
        column: 0,
    };
    assert_eq!(next_field(&form(), 80), Some(expected));
    for length in [0, 1, 1919, 1921, 1944, 3167] {
        assert_eq!(starts(&vec![Cell::NULL; length], 0), None);
    }
    assert_eq!(starts(&[Cell::NULL; 3168], 1), Some((132, 132)));
}

/// A field starts at each open cell that is first in its row or follows a label.
#[test]
fn fields_are_the_longest_stretches() {
    for seed in 0..30 {
        let mut bench = Bench::new();
        for line in generate::script(seed, 100) {
            assert!(bench.follow(&line).is_some());
        }
        let page = &bench.terminal.page;
        let columns = match page.len() {
            1920 => 80,
            3168 => 132,
            _ => continue,
        };
        let is_open = |cell: usize| !page[cell].is_protected();
        let is_start = |cell: usize| is_open(cell) && (cell % columns == 0 || !is_open(cell - 1));
        let found: Vec<usize> = fields(page).iter().map(|field| field.start).collect();
        let expected: Vec<usize> = (0..page.len()).filter(|&cell| is_start(cell)).collect();
        assert_eq!(found, expected);
        for field in fields(page) {
            let end = field.start + field.length;
            assert!((field.start..end).all(is_open));
            assert!(end % columns == 0 || !is_open(end));
            assert_eq!(
                position(page.len(), field.start),
                Ok((field.row, field.column))
            );
            assert_eq!(cell_at(page.len(), field.row, field.column), field.start);
        }
    }
}

fn read(outcome: impl Fn(&mut [u8]) -> crate::terminal::Outcome, room: usize) -> (u8, Vec<u8>) {
    let mut text = vec![0xEE; room];
    let outcome = outcome(&mut text);
    let (front, beyond) = text.split_at(outcome.unwrap_or(0));
    assert!(beyond.iter().all(|&byte| byte == 0xEE));
    (answer_number(outcome), front.to_vec())
}

#[test]
fn texts_are_what_a_send_gives() {
    let page = form();
    let field = |start, trim, room| read(|text| field_text(&page, start, trim, text), room);
    assert_eq!(field(3, false, 2), (0, b" a".to_vec()));
    assert_eq!(field(3, true, 2), (0, b" a".to_vec()));
    assert_eq!(field(78, false, 1), (6, vec![]));
    assert_eq!(field(78, true, 1), (0, b"b".to_vec()));
    assert_eq!(field(80, true, 9), (0, b"c".to_vec()));
    for start in [0, 2, 4, 5, 79, 81, 1920, usize::MAX] {
        assert_eq!(field(start, true, 0), (3, vec![]));
    }
    let row = |row, trim, room| read(|text| row_text(&page, row, trim, text), room);
    assert_eq!(row(0, false, 79), (6, vec![]));
    let (answer, text) = row(0, true, 79);
    assert_eq!((answer, &text[..6], text.len()), (0, &b"LLL aL"[..], 79));
    assert_eq!(row(24, true, 0), (3, vec![]));
    assert_eq!(
        read(|text| row_text(&[Cell::NULL; 1920], 23, true, text), 0),
        (0, vec![])
    );
    let short = &page[1..];
    assert_eq!(
        read(|text| field_text(short, 0, true, text), 0),
        (7, vec![])
    );
    assert_eq!(read(|text| row_text(short, 24, true, text), 0), (7, vec![]));
}

#[test]
fn places_there_and_back() {
    for columns in [80, 132] {
        let cells = 24 * columns;
        for cell in 0..cells {
            let (row, column) = position(cells, cell).expect("a cell of the page");
            assert!(row < 24 && column < columns);
            assert_eq!(cell_at(cells, row, column), cell);
        }
        assert_eq!(position(cells, cells), Err(Refusal::BadArgument));
        for (row, column) in [(24, 0), (0, columns), (usize::MAX, usize::MAX)] {
            assert_eq!(cell_at(cells, row, column), cells);
        }
    }
    assert_eq!(position(1921, 1921), Err(Refusal::Impossible));
    assert_eq!((cell_at(1921, 0, 0), cell_at(0, 0, 0)), (1921, 0));
}

#[test]
fn the_trace_of_a_page_read() {
    let script =
        "fill 0 1920 204\nfill 84 3 65\ncell 86 32\nfield 5\nfieldtext 84 1 9\nfieldtext 84 0 2\n\
                  rowtext 24 0 9\nposition 84\nplace 1 4\nnext 4105 9\nrows 0\nlistnext 42ff 9\n";
    let (trace, outcome) = trace_of(script.as_bytes());
    assert_eq!(outcome, Ok(()));
    for (line, expected) in trace.lines().zip([
        "1 field start=84 length=3 row=1 column=4 active=",
        "2 fieldtext answer=0 length=2 text=4141 beyond=1 active=",
        "3 fieldtext answer=6 length=0 text=- beyond=1 active=",
        "4 rowtext answer=3 length=0 text=- beyond=1 active=",
        "5 position answer=0 row=1 column=4 active=",
        "6 place cell=84 active=",
        "7 next answer=0 taken=2 replied=1 refused=0 asked=05 rest=- reply=06 beyond=1 active=",
        "8 listnext answer=1 taken=2 replied=0 refused=1 asked=- rest=- reply=- beyond=1 rows=- active=",
    ]) {
        assert!(line.starts_with(expected), "{line}");
    }
}
