//! Repainting a distant display.

use super::*;
use crate::random::Random;
use crate::repainting::{differing_stretches, judge_bytes, judge_spans, propose, Span};
use crate::state::CELLS;

const NO_SPAN: Span = Span {
    row: 0,
    column: 0,
    length: 0,
};

fn span(row: u16, column: u16, length: u16) -> Span {
    Span {
        row,
        column,
        length,
    }
}

fn blank() -> Vec<Cell> {
    vec![Cell::SPACE; CELLS]
}

/// A blank page with these texts.
fn page(texts: &[(usize, &[u8])]) -> Vec<Cell> {
    let mut page = blank();
    for (start, text) in texts {
        for (cell, &letter) in page[*start..].iter_mut().zip(*text) {
            *cell = Cell::text(letter);
        }
    }
    page
}

fn proposed(
    shown: &[Cell],
    wanted: &[Cell],
    personality: Personality,
) -> Result<(Vec<Span>, Vec<u8>), u8> {
    let (mut spans, mut bytes) = (vec![NO_SPAN; 960], vec![0; 7772]);
    let (span_count, byte_count) = propose(shown, wanted, personality, &mut spans, &mut bytes)?;
    spans.truncate(span_count);
    bytes.truncate(byte_count);
    Ok((spans, bytes))
}

#[test]
fn spans_are_judged() {
    let (shown, wanted) = (blank(), page(&[(5, b"ab"), (79, b"cd")]));
    let right = [span(1, 6, 2), span(1, 80, 1), span(2, 1, 1)];
    assert_eq!(differing_stretches(&shown, &wanted).unwrap(), right);
    for (spans, answer) in [
        (&right[..], 0),
        (&[], 3),
        (&right[..2], 3),
        (&right[1..], 3),
        (&[span(1, 1, 80), span(2, 1, 80)], 0),
        (
            &[span(1, 6, 1), span(1, 7, 1), span(1, 80, 1), span(2, 1, 1)],
            0,
        ),
        (&[span(1, 6, 2), span(1, 7, 74), span(2, 1, 1)], 3),
        (&[span(1, 6, 2), span(1, 80, 2)], 3),
        (&[span(2, 1, 1), span(1, 6, 2), span(1, 80, 1)], 3),
        (&[span(1, 5, 0), span(1, 6, 75), span(2, 1, 1)], 3),
        (&[span(0, 1, 1), span(1, 6, 75), span(2, 1, 1)], 3),
        (&[span(1, 6, 75), span(2, 1, 1), span(25, 1, 1)], 3),
        (&[span(1, 0, 80), span(2, 1, 1)], 3),
        (&[span(1, 1, 65535), span(2, 1, 1)], 3),
    ] {
        assert_eq!(judge_spans(&shown, &wanted, spans), answer, "{spans:?}");
    }
    assert_eq!(judge_spans(&shown, &shown, &[]), 0);
    assert_eq!(judge_spans(&shown, &wanted[1..], &right), 7);
    assert_eq!(judge_spans(&shown[1..], &wanted[1..], &[]), 7);
}

#[test]
fn bytes_are_judged() {
    let (shown, wanted) = (blank(), page(&[(0, b"ab")]));
    for (bytes, answer) in [
        (&b"ab"[..], 0),
        (b"xb\rab\x1b", 0),
        (b"a", 3),
        (b"abc", 3),
        (b"ab\x05", 3),
        (b"ab\x80", 3),
        (b"ab\x1b^", 3),
        (b"ab\x1b=\x38\x20", 3),
    ] {
        assert_eq!(
            judge_bytes(&shown, &wanted, Personality::Wy50, bytes),
            answer
        );
    }
    let wide = vec![Cell::SPACE; 3168];
    let mut far = wide.clone();
    far[131] = Cell::text(b'x');
    assert_eq!(
        judge_bytes(&wide, &far, Personality::Wy60, b"\x1ba1R132Cx"),
        0
    );
    assert_eq!(judge_bytes(&wide, &shown, Personality::Wy60, b""), 7);
}

#[test]
fn a_proposal_goes_to_each_stretch() {
    let wanted = page(&[(5, b"ab"), (79, b"cd")]);
    let bytes = b"\x1b=\x20\x25ab\x1b=\x20\x6fc\x1b=\x21\x20d";
    let (spans, painting) = proposed(&blank(), &wanted, Personality::Wy50).unwrap();
    assert_eq!(spans, [span(1, 6, 2), span(1, 80, 1), span(2, 1, 1)]);
    assert_eq!(painting, bytes);
    assert_eq!(
        proposed(&wanted, &wanted, Personality::Wy50),
        Ok((vec![], vec![]))
    );
}

#[test]
fn attributes_go_on_from_span_to_span() {
    let mut wanted = page(&[(0, b"ab"), (4, b"c"), (160, b"d")]);
    for (place, flags) in [(1, 4), (4, 4), (160, 16 + 4)] {
        wanted[place].0 |= flags << 10;
    }
    let (_, painting) = proposed(&blank(), &wanted, Personality::Wy60).unwrap();
    assert_eq!(
        painting,
        b"\x1b=\x20\x20a\x1bG4b\x1b=\x20\x24c\x1b=\x22\x20\x1bGtd"
    );
    assert_eq!(proposed(&blank(), &wanted, Personality::Wy50), Err(3));
}

#[test]
fn refusals_in_their_order() {
    let wanted = page(&[(0, b"a"), (2, b"b")]);
    for (spans, bytes, answer) in [(2, 10, 0), (1, 10, 6), (2, 9, 6), (0, 0, 6)] {
        let (mut spans, mut bytes) = (vec![NO_SPAN; spans], vec![0; bytes]);
        let result = propose(&blank(), &wanted, Personality::Wy50, &mut spans, &mut bytes);
        assert_eq!(result.err().unwrap_or(0), answer);
        let untouched = bytes.iter().all(|&byte| byte == 0) && spans.iter().all(|&s| s == NO_SPAN);
        assert_eq!(untouched, answer != 0);
    }
    let last = page(&[(CELLS - 1, b"x")]);
    assert_eq!(proposed(&blank(), &last, Personality::Wy50), Err(3));
    assert_eq!(
        proposed(&last, &last, Personality::Wy50),
        Ok((vec![], vec![]))
    );
    for number in [0, 0x1F, 0x7F, 0xA0, 0x0130, 0x0230, 0x0320, 0x7C20, 0x8020] {
        let mut odd = blank();
        odd[7] = Cell(number);
        for personality in [Personality::Wy50, Personality::Wy60] {
            assert_eq!(proposed(&odd, &odd, personality), Err(3));
        }
    }
    let wide = vec![Cell::SPACE; 3168];
    assert_eq!(proposed(&wide, &wide, Personality::Wy60), Err(3));
    assert_eq!(proposed(&wide, &blank(), Personality::Wy60), Err(7));
}

#[test]
fn the_most_spans_and_bytes() {
    let mut striped = blank();
    striped.iter_mut().step_by(2).for_each(|cell| cell.0 = 0x41);
    let (spans, _) = proposed(&blank(), &striped, Personality::Wy50).unwrap();
    assert_eq!(spans.len(), 960);
    let mut changing = blank();
    for (place, cell) in changing[..CELLS - 1].iter_mut().enumerate() {
        cell.0 = 0x41 | (1 + place as u16 % 2) << 10;
    }
    let (_, bytes) = proposed(&blank(), &changing, Personality::Wy60).unwrap();
    assert_eq!(bytes.len(), 7772);
}

#[test]
fn proposals_are_accepted() {
    let mut random = Random::new(1);
    for personality in [Personality::Wy50, Personality::Wy60] {
        for _ in 0..200 {
            let mut pages = [blank(), blank()];
            let share = random.pick(&[2, 10, 300]);
            for page in &mut pages {
                for cell in &mut page[..CELLS - 1] {
                    if random.once_in(share) {
                        let flags = match personality {
                            Personality::Wy50 => 0,
                            Personality::Wy60 => random.below(31) as u16,
                        };
                        cell.0 = random.byte_within(b' '..=b'~') as u16 | flags << 10;
                    }
                }
            }
            let [shown, wanted] = pages;
            let (spans, bytes) = proposed(&shown, &wanted, personality).unwrap();
            assert_eq!(judge_spans(&shown, &wanted, &spans), 0);
            assert_eq!(judge_bytes(&shown, &wanted, personality, &bytes), 0);
        }
    }
}
