//! `Terminal::next` against the rules: each reply and refusal with its byte, rooms of every size, and a loop of it against one feed.
use wy50::{Answer, Command, Event, Next, Terminal, CELLS, LONGEST_REPLY};

/// A reply that is whole.
fn whole(command: Command, bytes: &[u8]) -> Option<Event<'_>> {
    Some(Event::Reply { command, bytes, begins: true, ends: true })
}

#[test]
fn each_reply() {
    let cases: [(&[u8], Command, &[u8]); 10] = [
        (b"\x05", Command::Acknowledge, b"\x06"),
        (b"\x1b ", Command::Identity, b"50\r"),
        (b"\x1b/", Command::SegmentCursor, b"0 #\r"),
        (b"\x1b4", Command::OpenRow, b"\x1c! \r"),
        (b"\x1b5", Command::OpenSegment, b"\x1c! \r"),
        (b"\x1b6", Command::Row, b"No! \r"),
        (b"\x1b7", Command::Segment, b"No! \r"),
        (b"\x1b?", Command::Cursor, b" #\r"),
        (b"\x1bM", Command::Cell, b" "),
        (b"\x1bb", Command::DecimalCursor, b"01R004C"),
    ];
    for (asks, command, reply) in cases {
        let host = [b"\x1b)No\x1b(!", asks, b"A"].concat();
        for listed in [false, true] {
            let start = if listed { Terminal::new().with_row_list() } else { Terminal::new() };
            let mut t = start.clone();
            let mut room = [0; LONGEST_REPLY];
            assert_eq!(t.next(&host, &mut room), Next { event: whole(command, reply), taken: host.len() - 1, rest: b"A" });
            assert_eq!(t.next(b"A", &mut room), Next { event: None, taken: 1, rest: b"" });
            let mut narrow = start.clone();
            let none = narrow.next(&host, &mut []);
            assert_eq!((none.event, none.rest), (Some(Event::NoRoom), &host[host.len() - 2..]));
            let mut bytes = none.rest;
            for (i, part) in reply.chunks(2).enumerate() {
                let ends = 2 * i + part.len() == reply.len();
                let next = narrow.next(bytes, &mut room[..2]);
                assert_eq!(next.event, Some(Event::Reply { command, bytes: part, begins: i == 0, ends }));
                assert_eq!((next.taken, next.rest), (usize::from(i == 0), &b"A"[..]));
                assert_eq!(narrow.sending().is_none(), ends);
                bytes = next.rest;
                if !ends {
                    assert_eq!(narrow.next(bytes, &mut []).event, Some(Event::NoRoom));
                    assert_eq!(narrow.next(b"", &mut []).event, None);
                }
            }
            assert_eq!(narrow.next(bytes, &mut []).event, None);
            assert!(narrow == t);
            assert_eq!(narrow.row_list(), t.row_list());
        }
    }
}

/// Every byte that replies, alone or after ESC, is a command by name.
#[test]
fn every_command() {
    let mut found = Vec::new();
    for (before, byte) in [&b""[..], b"\x1b"].into_iter().flat_map(|before| (0..=u8::MAX).map(move |byte| (before, byte))) {
        let mut room = [0; LONGEST_REPLY];
        let (mut one, mut other) = (Terminal::new(), Terminal::new());
        assert_eq!(one.feed(before, &mut []), other.feed(before, &mut []));
        let replied = one.step(byte, &mut room.clone()).replied;
        match other.next(&[byte], &mut room).event {
            Some(Event::Reply { command, bytes, .. }) => {
                assert_eq!((command.number(), bytes.len()), (byte, replied));
                found.push(command);
            }
            _ => assert_eq!(replied, 0),
        }
    }
    assert_eq!(found.len(), 10);
}

#[test]
fn each_refusal() {
    let mut t = Terminal::new();
    let mut refused = |bytes: &[u8], at: usize, answer: Answer| {
        let mut room = [0; 9];
        let next = t.next(bytes, &mut room);
        assert_eq!(next.event, Some(Event::Refused { at, byte: bytes[at], answer }));
        assert_eq!((next.taken, next.rest), (at + 1, &bytes[at + 1..]));
    };
    refused(b"A\xe9\x05", 1, Answer::HighByte);
    refused(b"\x1b\x01\x05", 1, Answer::Unknown);
    refused(b"B\x1b=\x38 C", 4, Answer::BadArgument);
    refused(b"\x1b,\x1b&DE", 4, Answer::Barred);
    refused(b"E", 0, Answer::Barred);
}

#[test]
fn an_impossible_state_is_told() {
    let mut state = *Terminal::new().state();
    state.screen.cursor0 = CELLS as u16;
    let mut bad = Terminal::from_parts(&[7; CELLS], state).unwrap();
    let before = bad.clone();
    assert_eq!(bad.next(b"A\x05", &mut [0; 9]), Next { event: Some(Event::BadCall), taken: 0, rest: b"A\x05" });
    assert!(bad == before);
}

/// Text, forms, every reply, every refusal, and rubbish.
fn host(dice: &mut impl FnMut(usize) -> usize) -> Vec<u8> {
    let whole: [&[u8]; 16] = [
        b"\x1b,\x1b)Roast\x1b(dark \x1b&",
        b"\x1b'",
        b"\x1b=\x37\x6f",
        b"\x1ba12R34C",
        b"\x1bx1,",
        b"\x1bx0",
        b"\x05",
        b"\x1b ",
        b"\x1b/",
        b"\x1b4",
        b"\x1b5",
        b"\x1b6",
        b"\x1b7",
        b"\x1b?",
        b"\x1bM",
        b"\x1bb",
    ];
    let mut bytes = Vec::new();
    for _ in 0..dice(60) {
        match dice(4) {
            0 => bytes.push(dice(256) as u8),
            1 => bytes.extend((0..dice(20)).map(|i| b'A' + i as u8)),
            _ => bytes.extend(whole[dice(whole.len())]),
        }
    }
    bytes
}

#[test]
fn a_loop_is_one_feed() {
    let mut seed = 22u64;
    let mut dice = move |n: usize| {
        seed ^= seed << 13;
        seed ^= seed >> 7;
        seed ^= seed << 17;
        (seed >> 16) as usize % n
    };
    let (mut roomy, mut plain, mut listed) = (Terminal::new(), Terminal::new(), Terminal::new().with_row_list());
    let mut one = vec![0; 80 * LONGEST_REPLY];
    for _ in 0..300 {
        let host = host(&mut dice);
        let fed = roomy.feed(&host, &mut one);
        assert!(fed.rest.is_empty() && roomy.sending().is_none());
        for terminal in [&mut plain, &mut listed] {
            let (mut bytes, mut joined, mut refused, mut room) = (&host[..], Vec::new(), 0, [0; LONGEST_REPLY]);
            while !bytes.is_empty() || terminal.sending().is_some() {
                let length = if dice(4) > 0 { dice(70) } else { dice(LONGEST_REPLY + 1) };
                let next = terminal.next(bytes, &mut room[..length]);
                match next.event {
                    Some(Event::Reply { command, bytes: reply, begins, .. }) => {
                        assert!(!begins || bytes[next.taken - 1] == command.number());
                        joined.extend(reply);
                    }
                    Some(Event::Refused { at, byte, .. }) => {
                        assert_eq!((bytes[at], at + 1), (byte, next.taken));
                        refused += 1;
                    }
                    Some(Event::NoRoom) => assert_eq!(length, 0),
                    Some(Event::BadCall) => panic!("a good state stays good"),
                    None => assert!(next.rest.is_empty()),
                }
                bytes = next.rest;
            }
            assert_eq!((&joined[..], refused), (&one[..fed.replied], fed.refused));
            assert!(*terminal == roomy);
        }
    }
    let list = listed.row_list().copied();
    assert_eq!(list, listed.clone().with_row_list().row_list().copied());
}
