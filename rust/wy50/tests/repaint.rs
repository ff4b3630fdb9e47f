//! Repainting through the wrapper: a display that follows a host, rooms and their rests, each refusal, and the judges.
use wy50::{
    judge_bytes, judge_spans, propose, Personality, Proposal, Span, Terminal, Unaccepted, Unproposed, CELLS, MOST_PAINT_BYTES, MOST_SPANS,
    WIDE_CELLS,
};

const OTHER: Span = Span { row: 7, column: 7, length: 7 };

fn span(row: u16, column: u16, length: u16) -> Span {
    Span { row, column, length }
}

/// A page of spaces with this text from a cell on, each letter with so many flags.
fn page(cell: usize, text: &[u8], flags: u16) -> [u16; CELLS] {
    let mut page = [0x20; CELLS];
    for (place, &code) in text.iter().enumerate() {
        page[cell + place] = u16::from(code) + 1024 * flags;
    }
    page
}

#[test]
fn spans_and_bytes() {
    let (before, after) = (page(0, b"", 0), page(78, b"dark roast", 0));
    let (mut spans, mut bytes) = ([OTHER; 9], [0xe9; 30]);
    let proposal = propose(&before, &after, Personality::Wy50, &mut spans, &mut bytes).unwrap();
    // the row's end cuts a stretch, and the space is equal
    assert_eq!(proposal.spans, [span(1, 79, 2), span(2, 1, 2), span(2, 4, 5)]);
    assert_eq!(proposal.bytes, b"\x1b=\x20nda\x1b=\x21\x20rk\x1b=\x21\x23roast");
    let (n, k) = (proposal.spans.len(), proposal.bytes.len());
    assert_eq!((&spans[n..], &bytes[k..]), (&[OTHER; 6][..], &[0xe9; 9][..]));
    // dim is 70h, and an attribute goes on from span to span
    let after = page(78, b"dark roast", 17);
    let proposal = propose(&before, &after, Personality::Wy60, &mut spans, &mut bytes).unwrap();
    assert_eq!(proposal.bytes, b"\x1b=\x20n\x1bGqda\x1b=\x21\x20rk roast");
    assert_eq!(judge_spans(&before, &after, proposal.spans), Ok(()));
    assert_eq!(judge_bytes(&before, &after, Personality::Wy60, proposal.bytes), Ok(()));
    // equal pages want no rooms
    let none = Proposal { spans: &[], bytes: &[] };
    assert_eq!(propose(&after, &after, Personality::Wy60, &mut [], &mut []), Ok(none));
}

#[test]
fn refusals() {
    let (before, after) = (page(0, b"", 0), page(78, b"dark roast", 0));
    let (mut spans, mut bytes) = ([OTHER; 3], [0xe9; 21]);
    let mut refused = |before: &[u16], after: &[u16], personality, room: usize, length: usize, why| {
        assert_eq!(propose(before, after, personality, &mut spans[..room], &mut bytes[..length]), Err(why));
        assert_eq!((spans, bytes), ([OTHER; 3], [0xe9; 21]));
    };
    refused(&before, &after, Personality::Wy50, 2, 21, Unproposed::NoRoom);
    refused(&before, &after, Personality::Wy50, 3, 20, Unproposed::NoRoom);
    refused(&before, &page(3, b"x", 4), Personality::Wy50, 3, 21, Unproposed::NotServed);
    refused(&page(3, b"\0", 0), &after, Personality::Wy60, 0, 0, Unproposed::NotServed);
    refused(&before, &page(CELLS - 1, b"x", 0), Personality::Wy60, 3, 21, Unproposed::NotServed);
    refused(&[0x20; WIDE_CELLS], &[0x20; WIDE_CELLS], Personality::Wy60, 3, 21, Unproposed::NotServed);
    refused(&before, &after[1..], Personality::Wy60, 3, 21, Unproposed::BadLength);
    refused(&[], &[], Personality::Wy60, 0, 0, Unproposed::BadLength);
    refused(&[0x20; WIDE_CELLS], &before, Personality::Wy50, 3, 21, Unproposed::BadLength);
    let told = [Unproposed::NotServed, Unproposed::NoRoom, Unproposed::BadLength].map(|why| (why.number(), why.to_string()));
    assert_eq!(told.each_ref().map(|(number, _)| *number), [3, 6, 7]);
    assert_eq!(told[1].1, "no room for the spans or the bytes");
    let told = [Unaccepted::NotAccepted, Unaccepted::BadLength].map(|why| (why.number(), why.to_string()));
    assert_eq!(told, [(3, "not accepted".to_string()), (7, "both pages have 1,920 or both 3,168 cells".to_string())]);
}

#[test]
fn judges() {
    let (before, after) = (page(0, b"", 0), page(163, b"abc", 0));
    let not = Err(Unaccepted::NotAccepted);
    assert_eq!(judge_spans(&before, &after, &[span(3, 4, 2), span(3, 6, 1)]), Ok(()));
    for wrong in [&[][..], &[span(3, 4, 2)], &[span(3, 6, 1), span(3, 4, 2)], &[span(3, 4, 3), span(3, 6, 1)], &[span(3, 4, u16::MAX)]] {
        assert_eq!(judge_spans(&before, &after, wrong), not);
    }
    let wide = [0; WIDE_CELLS];
    assert_eq!(judge_spans(&wide, &wide, &[span(24, 132, 1)]), Ok(()));
    assert_eq!(judge_spans(&before, &before, &[span(24, 81, 1)]), not);
    assert_eq!(judge_spans(&before, &wide, &[]), Err(Unaccepted::BadLength));

    for personality in [Personality::Wy50, Personality::Wy60] {
        assert_eq!(judge_bytes(&before, &after, personality, b"\x1b=\"#abc\x1b"), Ok(()));
        for wrong in [&b""[..], b"\x1b=\"#ab", b"\x1b=\"#abc\x05", b"\x1b=\"#abc\xe9", b"\x1b=\"#abcd"] {
            assert_eq!(judge_bytes(&before, &after, personality, wrong), not);
        }
        assert_eq!(judge_bytes(&wide, &wide, personality, b"\x1ba24R132C"), Ok(()));
        assert_eq!(judge_bytes(&[], &[], personality, b""), Err(Unaccepted::BadLength));
    }
}

/// A host's page is followed through edits, scrolls and clearings, with its last cell a space.
#[test]
fn a_display_that_follows() {
    let (mut spans, mut bytes) = ([OTHER; MOST_SPANS], [0; MOST_PAINT_BYTES]);
    for personality in [Personality::Wy50, Personality::Wy60] {
        let mut host = Terminal::with_personality(personality);
        let mut display = host.clone();
        for terminal in [&mut host, &mut display] {
            assert_eq!(terminal.feed(b"\x1a", &mut []).refused, 0);
        }
        let look = |attribute| if personality == Personality::Wy60 { [0x1b, b'G', attribute] } else { *b"---" };
        for turn in 0..60u8 {
            let words =
                [b"\x1b=".as_slice(), &[0x20 + turn % 24, 0x20 + turn], &look(0x30 + turn % 16), b"roast\x1bE\x1b=7 \nend\x1bQ"].concat();
            assert_eq!(host.feed(&words, &mut []).refused, 0);
            let proposal = propose(display.page(), host.page(), personality, &mut spans, &mut bytes).unwrap();
            assert!(!proposal.spans.is_empty());
            if personality == Personality::Wy60 {
                assert_eq!(display.feed(b"\x1bG0", &mut []).refused, 0);
            }
            assert_eq!(display.feed(proposal.bytes, &mut []).refused, 0);
            assert_eq!(display.page(), host.page());
        }
    }
}
