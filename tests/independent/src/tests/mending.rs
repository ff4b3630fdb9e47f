//! Mending a damaged saved page.

use super::*;
use crate::mending::{is_writable, mend, Mended};
use crate::state::CELLS;
use std::collections::HashSet;

const BOTH: [Personality; 2] = [Personality::Wy50, Personality::Wy60];

/// Every number that some bytes write into the first cell.
fn numbers_written(personality: Personality) -> HashSet<u16> {
    let mut numbers = HashSet::from([0]);
    let mut attributes: Vec<u8> = (0x30..=0x3F).chain(0x70..=0x7E).collect();
    if personality == Personality::Wy50 {
        attributes.truncate(1);
    }
    for attribute in attributes {
        for write_protect in [b'(', b')'] {
            for code in 0x00..=0x7F {
                for bytes in [
                    &[code][..],
                    &[ESC, b'G', code],
                    &[ESC, b'H', code],
                    &[ESC, b'!', code],
                    &[ESC, b'.', code],
                    &[ESC, code],
                ] {
                    let mut terminal = Terminal::new();
                    let _ = terminal.power_on(personality);
                    if personality == Personality::Wy60 {
                        answers(&mut terminal, &[ESC, b'G', attribute]);
                    }
                    answers(&mut terminal, &[ESC, write_protect]);
                    answers(&mut terminal, bytes);
                    numbers.insert(terminal.page[0].0);
                }
            }
        }
    }
    numbers
}

#[test]
fn writable_is_what_the_terminal_writes() {
    for personality in BOTH {
        let written = numbers_written(personality);
        for number in 0..=0xFFFF {
            assert_eq!(
                is_writable(Cell(number), personality),
                written.contains(&number),
                "{number:04x} {personality:?}"
            );
        }
    }
}

#[test]
fn each_cell_changed_is_listed() {
    let mut page = vec![Cell::SPACE; CELLS];
    for (place, number) in [(0, 127), (79, 0x0341), (80, 128), (1919, 0x8041)] {
        page[place] = Cell(number);
    }
    let damaged = page.clone();
    let mut list = [0xEEEE; 19];
    let mended = mend(&mut page, Personality::Wy50, &mut list[..15]);
    let needed = 4;
    assert_eq!(mended, Mended { answer: 6, needed });
    assert!(page == damaged && list == [0xEEEE; 19]);
    let mended = mend(&mut page, Personality::Wy50, &mut list);
    assert_eq!(mended, Mended { answer: 0, needed });
    let entries = [
        [1, 1, 127, 0],
        [1, 80, 0x0341, 0],
        [2, 1, 128, 0],
        [24, 80, 0x8041, 0],
    ];
    assert_eq!(list[..16], entries.concat());
    assert_eq!(list[16..], [0xEEEE; 3]);
    let needed = 0;
    let again = mend(&mut page, Personality::Wy50, &mut []);
    assert_eq!(again, Mended { answer: 0, needed });
}

#[test]
fn pages_of_other_lengths_are_refused() {
    for length in [0, 24, 1919, 1921, 1944, 3167, 3169, 3192] {
        let mut page = vec![Cell(127); length];
        let (answer, needed) = (7, 0);
        assert_eq!(
            mend(&mut page, Personality::Wy60, &mut [0; 20000]),
            Mended { answer, needed }
        );
    }
    let mut page = vec![Cell(127); 3168];
    let mut list = vec![0; 4 * 3168];
    assert_eq!(mend(&mut page, Personality::Wy60, &mut list).needed, 3168);
    assert_eq!(list[4 * 131..][..8], [1, 132, 127, 0, 2, 1, 127, 0]);
}

#[test]
fn nothing_written_from_power_on_is_mended() {
    for seed in 0..10 {
        for personality in BOTH {
            for mut terminal in [Terminal::new(), widths::wide()] {
                terminal.state.personality = personality;
                for line in generate::script(seed, 400) {
                    if let transcript::Line::Run { bytes, .. } = line {
                        terminal.run(&bytes, &mut [0; 4000]);
                    }
                }
                let mended = mend(&mut terminal.page, personality, &mut []);
                assert_eq!((mended.answer, mended.needed), (0, 0));
            }
        }
    }
}
