//! The alert counter.

use crate::counter::{answer_lines, count, entry, filled, units, Uncounted};
use crate::random::Random;
use crate::{generate, transcript};

#[test]
fn pieces_are_numbered_from_one() {
    let reply = b"ab\x1c\x1f{}\x1cc\r";
    for (first, last, expected) in [
        (1, 1, Ok(1)),
        (2, 2, Ok(0)),
        (1, 4, Ok(1)),
        (4, 4, Ok(1)),
        (0, 0, Err(Uncounted::FirstPiece)),
        (0, 9, Err(Uncounted::FirstPiece)),
        (3, 2, Err(Uncounted::FirstPiece)),
        (9, 8, Err(Uncounted::FirstPiece)),
        (4, 5, Err(Uncounted::LastPiece)),
        (5, 5, Err(Uncounted::LastPiece)),
    ] {
        assert_eq!(count(reply, first, last), expected, "{first} to {last}");
    }
    assert_eq!(count(b"\r", 1, 1), Ok(0));
    assert_eq!(count(b"\r", 1, 2), Err(Uncounted::LastPiece));
}

#[test]
fn a_reply_ends_in_cr() {
    for reply in [&b""[..], b"a", b"\ra", b"a\x1c"] {
        assert_eq!(count(reply, 0, 0), Err(Uncounted::NoFinalCr));
        assert_eq!(count(reply, 1, 9), Err(Uncounted::NoFinalCr));
    }
}

#[test]
fn places_count_in_the_whole() {
    for (reply, first, last, place) in [
        (&b"`\r"[..], 1, 1, 0),
        (b"ab\x1ccd\x1fe`\x1c`\r", 1, 4, 5),
        (b"ab\x1ccd\x1fe`\x1c`\r", 2, 3, 3),
        (b"ab\x1ccd\x1fe`\x1c`\r", 4, 4, 0),
        (b"a  \x1c  \xff  \r", 1, 2, 5),
        (b"a\r\r", 1, 1, 1),
    ] {
        assert_eq!(count(reply, first, last), Err(Uncounted::Byte(place)));
    }
    assert_eq!(count(b"`\x1ca\x1c`\r", 2, 2), Ok(1));
}

#[test]
fn trailing_spaces_are_dropped_from_the_whole() {
    let spaces = [b' '; 200];
    assert_eq!(count(&[&spaces[..], b"\r"].concat(), 1, 1), Ok(0));
    let inner = [b"a", &spaces[..], b"\x1cb\r"].concat();
    assert_eq!(count(&inner, 1, 1), Ok(1));
    assert_eq!(count(&inner, 1, 2), Ok(2));
    assert_eq!(entry(&[b"a", &spaces[..]].concat()), 1);
}

#[test]
fn sizes_of_parts() {
    for (text, parts) in [
        (vec![], 0),
        (vec![b'a'; 1], 1),
        (vec![b'a'; 160], 1),
        (vec![b'a'; 161], 2),
        (vec![b'a'; 306], 2),
        (vec![b'a'; 307], 3),
        (vec![b'{'; 80], 1),
        (vec![b'{'; 81], 2),
        (vec![b'{'; 152], 2),
        (vec![b'{'; 153], 3),
        ([&[b'a'; 152][..], b"{", &[b'a'; 152]].concat(), 3),
        ([&[b'a'; 151][..], b"{", &[b'a'; 153]].concat(), 2),
    ] {
        assert_eq!(entry(&text), parts, "{text:?}");
    }
}

#[test]
fn the_entry_cuts_nothing() {
    for byte in 0x00..=0xFF {
        let is_outside = matches!(byte, 0x00..=0x1F | 0x60 | 0x7F..=0xFF);
        assert_eq!(units(byte).is_none(), is_outside);
        let expected = if is_outside { u64::MAX } else { 1 };
        assert_eq!(entry(&[b'a', byte]), expected);
    }
}

/// The fewest parts of all cuttings between characters.
fn fewest(costs: &[usize], most: usize) -> u64 {
    let mut fewest = vec![0];
    for end in 1..=costs.len() {
        let starts = (0..end).rev();
        let fitting = starts.take_while(|&start| costs[start..end].iter().sum::<usize>() <= most);
        fewest.push(fitting.map(|start| fewest[start] + 1).min().unwrap());
    }
    fewest[costs.len()]
}

#[test]
fn no_cutting_has_fewer_parts() {
    for length in 0..=12 {
        for bits in 0..1 << length {
            let costs: Vec<usize> = (0..length).map(|place| 1 + (bits >> place & 1)).collect();
            for most in 2..=7 {
                assert_eq!(filled(&costs, most), fewest(&costs, most), "{costs:?}");
            }
        }
    }
    let mut random = Random::new(1);
    for _ in 0..300 {
        let costs: Vec<usize> = (0..random.within(81..=400))
            .map(|_| random.within(1..=2))
            .collect();
        assert_eq!(filled(&costs, 153), fewest(&costs, 153));
    }
}

#[test]
fn counts_as_lines() {
    let lines = b"count 610d 1 1\ncount - 1 1\ncount 0d 0 1\ncount 0d 1 2\ncount 600d 1 1\nentry 61\nentry ff\n";
    let mut results = Vec::new();
    assert_eq!(answer_lines(&lines[..], &mut results).unwrap(), Ok(()));
    let expected = "result=parts:1\nresult=no-cr\nresult=first\nresult=last\nresult=byte:0\nparts=1\nparts=18446744073709551615\n";
    assert_eq!(String::from_utf8(results).unwrap(), expected);
    assert_eq!(answer_lines(&b"on\n"[..], Vec::new()).unwrap(), Err(1));
}

#[test]
fn random_counts_reach_every_result() {
    let mut random = Random::new(1);
    let mut seen = [0; 8];
    for _ in 0..5000 {
        let kind = match generate::count_line(&mut random) {
            transcript::Line::Count { reply, first, last } => match count(&reply, first, last) {
                Ok(0) => 0,
                Ok(1) => 1,
                Ok(_) => 2,
                Err(Uncounted::NoFinalCr) => 3,
                Err(Uncounted::FirstPiece) => 4,
                Err(Uncounted::LastPiece) => 5,
                Err(Uncounted::Byte(_)) => 6,
            },
            _ => 7,
        };
        seen[kind] += 1;
    }
    assert!(seen.iter().all(|&times| times > 100), "{seen:?}");
}
