//! Mending through the wrapper: each kind of damage, the list and its rest, refusals, and the terminal's own pages.
use wy50::{mend, Mended, Personality, Terminal, Unmended, CELLS, COLUMNS, WIDE_CELLS, WIDE_COLUMNS};

const OTHER: Mended = Mended { row: 7, column: 7, old: 7, new: 7 };

fn at(row: u16, column: u16, old: u16) -> Mended {
    Mended { row, column, old, new: 0 }
}

/// A, a protected null, 7Fh, a protected attribute cell, a blank A, a protected A, kind 3; a last cell of all bits.
fn damaged(cells: usize) -> Vec<u16> {
    let mut page = vec![0x20; cells];
    page[..7].copy_from_slice(&[0x41, 0x80, 0x7f, 0x1b0, 0x441, 0xc1, 0x341]);
    page[cells - 1] = 0xffff;
    page
}

#[test]
fn both_personalities_and_widths() {
    for (cells, last) in [(CELLS, (24, COLUMNS as u16)), (WIDE_CELLS, (24, WIDE_COLUMNS as u16))] {
        for (personality, fourth) in [(Personality::Wy50, at(1, 5, 0x441)), (Personality::Wy60, at(1, 4, 0x1b0))] {
            let (mut page, mut list) = (damaged(cells), [OTHER; 7]);
            let expected = [at(1, 2, 0x80), at(1, 3, 0x7f), fourth, at(1, 7, 0x341), at(last.0, last.1, 0xffff)];
            assert_eq!(mend(&mut page, personality, &mut list), Ok(&expected[..]));
            assert_eq!((&list[..5], &list[5..]), (&expected[..], &[OTHER; 2][..]));
            let mut by_hand = damaged(cells);
            for cell in expected {
                by_hand[usize::from(cell.row - 1) * cells / 24 + usize::from(cell.column - 1)] = cell.new;
            }
            assert_eq!(page, by_hand);
            // twice is once
            assert_eq!((mend(&mut page, personality, &mut []), page), (Ok(&[][..]), by_hand));
        }
    }
}

#[test]
fn refusals() {
    let mut list = [OTHER; 8];
    let mut page = damaged(CELLS);
    for room in 0..5 {
        assert_eq!(mend(&mut page, Personality::Wy50, &mut list[..room]), Err(Unmended::ListTooShort { needed: 5 }));
    }
    assert_eq!((page, list), (damaged(CELLS), [OTHER; 8]));
    for length in [0, 1, CELLS - 1, CELLS + 1, WIDE_CELLS - 1, WIDE_CELLS + 1] {
        let mut page = vec![0x80; length];
        assert_eq!(mend(&mut page, Personality::Wy60, &mut list), Err(Unmended::BadLength));
        assert_eq!((page, list), (vec![0x80; length], [OTHER; 8]));
    }
    let told = [Unmended::ListTooShort { needed: 5 }, Unmended::BadLength].map(|why| (why.number(), why.to_string()));
    let words = ["the list is too short: 5 cells are damaged", "a page has 1,920 or 3,168 cells"];
    assert_eq!(told, [(6, words[0].to_string()), (7, words[1].to_string())]);
}

#[test]
fn every_cell() {
    let mut list = vec![OTHER; WIDE_CELLS];
    let mut page = vec![0x80; WIDE_CELLS];
    assert_eq!(mend(&mut page, Personality::Wy50, &mut list[1..]), Err(Unmended::ListTooShort { needed: WIDE_CELLS }));
    let changed = mend(&mut page, Personality::Wy50, &mut list).unwrap();
    let places = (1..=24).flat_map(|row| (1..=132).map(move |column| at(row, column, 0x80)));
    assert!(changed.iter().copied().eq(places) && page == vec![0; WIDE_CELLS]);
}

/// What a terminal left is not damaged, and goes on from its parts.
#[test]
fn a_terminals_own_page() {
    for personality in [Personality::Wy50, Personality::Wy60] {
        let mut terminal = Terminal::with_personality(personality);
        for wide in [false, true] {
            let fed = terminal.feed(b"\x1b)Roast: \x1bG4x\x1bH5\x1b(\x1bGtdark\x1b=##\x1b!s\x1b=$$\x1b.*", &mut []);
            assert_eq!((fed.refused, terminal.is_wide()), (0, wide));
            let mut page = terminal.page().to_vec();
            assert_eq!(mend(&mut page, personality, &mut []), Ok(&[][..]));
            assert!(Terminal::from_parts(&page, *terminal.state()).unwrap() == terminal);
            let _ = terminal.convert();
        }
    }
}
