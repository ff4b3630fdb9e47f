//! Runs up to the first reply or refusal.

use super::*;
use crate::state::{Place, Sending};
use crate::terminal::ROW_NUMBERS;
use crate::transcript::{Bench, Line};

/// Answer, bytes taken, reply bytes, refused bytes, the command that was asked.
type Told = (u8, usize, usize, usize, Option<u8>);

fn told(terminal: &mut Terminal, bytes: &[u8], room: usize) -> Told {
    let next = terminal.next(bytes, &mut vec![0; room]);
    assert_eq!(next.run.rest, &bytes[next.run.taken..]);
    let run = next.run;
    (run.answer, run.taken, run.replied, run.refused, next.asked)
}

#[test]
fn a_reply_is_told_with_its_command() {
    for (asking, length) in [
        (&b"\x05"[..], 1),
        (b"\x1b ", 3),
        (b"\x1b/", 4),
        (b"\x1b4", 2),
        (b"\x1b5", 2),
        (b"\x1b6", 2),
        (b"\x1b7", 2),
        (b"\x1b?", 3),
        (b"\x1bM", 1),
        (b"\x1bb", 7),
    ] {
        let bytes = [b"\x07", asking, b"\x05\xff"].concat();
        let expected = (0, 1 + asking.len(), length, 0, asking.last().copied());
        assert_eq!(told(&mut Terminal::new(), &bytes, 10), expected);
        let waiting = (6, asking.len(), 0, 0, None);
        assert_eq!(told(&mut Terminal::new(), &bytes, 0), waiting);
    }
}

#[test]
fn a_refusal_is_told_by_its_answer() {
    for (bytes, answer, taken) in [
        (&b"AB\xff\x05"[..], 1, 3),
        (b"\x1b\x05\x05", 2, 2),
        (b"A\x1b=\x38\x20\x05", 3, 5),
        (b"\x1b,\x1b&A\x05", 4, 5),
    ] {
        for room in [0, 9] {
            let expected = (answer, taken, 0, 1, None);
            assert_eq!(told(&mut Terminal::new(), bytes, room), expected);
        }
    }
    assert_eq!(told(&mut Terminal::new(), b"AB\x1b", 0), (0, 3, 0, 0, None));
    assert_eq!(told(&mut Terminal::new(), b"", 0), (0, 0, 0, 0, None));
}

#[test]
fn during_a_send_no_byte_is_taken() {
    let mut terminal = Terminal::new();
    assert_eq!(told(&mut terminal, b"\x1bbA", 2), (0, 2, 2, 0, Some(b'b')));
    assert_eq!(told(&mut terminal, b"A", 0), (6, 0, 0, 0, None));
    assert_eq!(told(&mut terminal, b"", 0), (0, 0, 0, 0, None));
    assert_eq!(told(&mut terminal, b"\xff", 1), (0, 0, 1, 0, Some(b'b')));
    assert_eq!(told(&mut terminal, b"\x05", 9), (0, 0, 4, 0, Some(b'b')));
    assert_eq!(told(&mut terminal, b"\x05", 9), (0, 1, 1, 0, Some(5)));
    terminal.state.sending = Some(Sending {
        command: b'b',
        place: Place::Byte(0),
    });
    assert_eq!(told(&mut terminal, b"A", 9), (7, 0, 0, 0, None));
}

#[test]
fn an_empty_list_is_none_and_a_wrong_one_is_refused() {
    let mut terminal = Terminal::new();
    for length in [0, 1, 47, 48, 49] {
        let mut list = vec![0; length];
        let next = terminal.next_with_rows(b"A\x05", &mut [0; 1], &mut list);
        assert_eq!(next.run.answer, if length == 0 { 0 } else { 7 });
        assert_eq!(list, vec![0; length]);
    }
    let mut list = [0; ROW_NUMBERS];
    assert_eq!(terminal.rebuild_rows(&mut list), Ok(0));
    let next = terminal.next_with_rows(b"\x1b)A\x1b&\x05", &mut [0; 1], &mut list);
    assert_eq!((next.run.answer, next.asked), (0, Some(5)));
    assert_eq!(list[..4], [79, 1, 80, 1]);
}

/// A loop of calls in rooms of this size: all replies, and how many were refused.
fn looped(terminal: &mut Terminal, mut bytes: &[u8], size: usize) -> (Vec<u8>, usize) {
    let (mut joined, mut refused) = (Vec::new(), 0);
    while !bytes.is_empty() || terminal.state.sending.is_some() {
        let mut room = vec![0; size];
        let next = terminal.next(bytes, &mut room);
        assert!(next.run.refused == 0 || next.run.answer > 0 && next.run.replied == 0);
        assert_eq!(next.asked.is_some(), next.run.replied > 0);
        joined.extend_from_slice(&room[..next.run.replied]);
        refused += next.run.refused;
        bytes = next.run.rest;
    }
    (joined, refused)
}

#[test]
fn a_loop_comes_to_one_roomy_run_and_one_byte_to_the_step() {
    for seed in 0..10 {
        let mut bench = Bench::new();
        for line in generate::script(seed, 200) {
            let start = bench.terminal.clone();
            if let Line::Run { bytes, .. } | Line::Next { bytes, .. } = &line {
                if start.is_possible() {
                    let [mut first, mut second] = [start.clone(), start.clone()];
                    let mut room = vec![0; 200_000];
                    let report = first.run(bytes, &mut room);
                    assert_eq!((report.answer, report.taken), (0, bytes.len()));
                    let expected = (room[..report.replied].to_vec(), report.refused);
                    let size = 1 + seed as usize * seed as usize;
                    assert_eq!(looped(&mut second, bytes, size), expected);
                    assert!(first.page == second.page && first.state == second.state);
                }
            }
            if let Line::Step { byte, room } = line {
                let [mut first, mut second] = [start.clone(), start.clone()];
                let step = first.step(byte, &mut vec![0; room]);
                let next = second.next(std::slice::from_ref(&byte), &mut vec![0; room]);
                assert_eq!(next.run.answer, answer_number(step.outcome));
                assert_eq!(next.run.replied, step.outcome.unwrap_or(0));
                assert_eq!(next.run.taken, step.own as usize);
                assert!(first.page == second.page && first.state == second.state);
            }
            assert!(bench.follow(&line).is_some());
        }
    }
}
