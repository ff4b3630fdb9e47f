//! The list of rows that have room.

use super::*;
use crate::terminal::ROW_NUMBERS;
use crate::transcript::{Bench, Line};

/// Marked from cell 0 to 84, and again all of row 3 and row 4 but its last cell.
fn form() -> Terminal {
    let mut terminal = Terminal::new();
    for place in (0..85).chain(160..319) {
        terminal.page[place] = Cell::text(b'#').with_protection();
    }
    terminal.state.modes.protect = true;
    terminal.state.cursors[0] = 85;
    terminal
}

#[test]
fn two_numbers_for_each_row() {
    let mut list = [9; ROW_NUMBERS];
    let mut terminal = form();
    assert_eq!(terminal.rebuild_rows(&mut list), Ok(0));
    assert_eq!(list[..10], [0, 0, 75, 6, 0, 0, 1, 80, 80, 1]);
    terminal.state.modes.protect = false;
    assert_eq!(terminal.rebuild_rows(&mut list), Ok(0));
    assert_eq!(list, [80, 1].repeat(24)[..]);
}

#[test]
fn a_rebuild_refused_leaves_the_list() {
    for length in [0, 47, 49] {
        let mut list = vec![9; length];
        assert_eq!(form().rebuild_rows(&mut list), Err(Refusal::Impossible));
        assert_eq!(list, vec![9; length]);
    }
    let mut list = [9; ROW_NUMBERS];
    let mut terminal = form();
    terminal.state.split = 1;
    assert_eq!(terminal.rebuild_rows(&mut list), Err(Refusal::Impossible));
    terminal.state.split = 0;
    terminal.page.pop();
    assert_eq!(terminal.rebuild_rows(&mut list), Err(Refusal::Impossible));
    assert_eq!(list, [9; ROW_NUMBERS]);
}

#[test]
fn each_wrong_number_is_refused() {
    let right = form().rows_with_room();
    for place in 0..ROW_NUMBERS {
        for wrong in [right[place] + 1, right[place] ^ 0x100] {
            let mut terminal = form();
            let mut list = right.clone();
            list[place] = wrong;
            let before = list.clone();
            let step = terminal.step_with_rows(b'x', &mut [], &mut list);
            assert_eq!((step.outcome, step.own), (Err(Refusal::Impossible), false));
            let report = terminal.run_with_rows(b"xy", &mut [], &mut list);
            assert_eq!(
                (report.answer, report.taken, report.rest),
                (7, 0, &b"xy"[..])
            );
            assert_eq!(terminal.run_with_rows(b"", &mut [], &mut list).answer, 7);
            assert!(terminal.page == form().page && terminal.state == form().state);
            assert_eq!(list, before);
        }
    }
}

#[test]
fn calls_with_the_list_do_as_those_without() {
    for seed in 0..20 {
        let mut bench = Bench::new();
        for line in generate::script(seed, 300) {
            let (mut listed, mut plain) = (bench.terminal.clone(), bench.terminal.clone());
            let mut list = match plain.is_possible() {
                true => plain.rows_with_room(),
                false => vec![0; ROW_NUMBERS],
            };
            let [mut listed_room, mut plain_room] = [[0; WIDEST_ROOM]; 2];
            match &line {
                Line::Step { byte, room } | Line::ListStep { byte, room } => assert_eq!(
                    listed.step_with_rows(*byte, &mut listed_room[..*room], &mut list),
                    plain.step(*byte, &mut plain_room[..*room])
                ),
                Line::Run { bytes, room } | Line::ListRun { bytes, room } => assert_eq!(
                    listed.run_with_rows(bytes, &mut listed_room[..*room], &mut list),
                    plain.run(bytes, &mut plain_room[..*room])
                ),
                _ => {}
            }
            assert!(listed_room == plain_room && listed.page == plain.page);
            assert_eq!(listed.state, plain.state);
            assert!(!plain.is_possible() || list == plain.rows_with_room());
            assert!(bench.follow(&line).is_some());
        }
    }
}
