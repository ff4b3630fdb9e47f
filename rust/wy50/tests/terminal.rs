//! The wrapper against the rules: the bench list where it is short, the tail handed back, rows, cells, fields, answers, row lists, personalities, sends.
use wy50::{
    Answer, Attributes, Cell, Kind, Personality, Place, Position, Replied, Row, Sending, State, Terminal, CELLS, COLUMNS, LONGEST_REPLY,
    ROWS, ROW_NUMBERS, WIDE_CELLS,
};

/// Feeds all of it; the reply of all of it.
fn fed(terminal: &mut Terminal, bytes: &[u8]) -> Vec<u8> {
    let mut reply = [0; LONGEST_REPLY];
    let fed = terminal.feed(bytes, &mut reply);
    assert_eq!((fed.answer, fed.taken, fed.rest), (Answer::Done, bytes.len(), &b""[..]));
    reply[..fed.replied].to_vec()
}

#[test]
fn sizes() {
    assert_eq!(std::mem::size_of::<State>(), 698);
    assert_eq!((CELLS, WIDE_CELLS, LONGEST_REPLY), (1920, 3168, WIDE_CELLS + ROWS));
}

#[test]
fn power_on() {
    let t = Terminal::new();
    assert!(t.cells().all(|c| c.0 == 0));
    assert_eq!(t.cursor(), 0);
    assert_eq!((t.state().modes.autoscroll, t.state().modes.protect), (1, 0));
    assert_eq!(&t.state().features, b"1579@");
}

#[test]
fn bench_1_and_4() {
    let mut t = Terminal::new();
    assert_eq!(fed(&mut t, b"AB\x1b?"), b"\x20\x22\r");
    assert_eq!(fed(&mut t, b"\x1ba24R80C\x1bb"), b"24R080C");
}

#[test]
fn bench_5() {
    let mut t = Terminal::new();
    fed(&mut t, b"\x1b)No\x1b(\x1b&");
    assert_eq!(t.page()[..2], [206, 239]);
    fed(&mut t, b"\r");
    assert_eq!(t.cursor(), 2);
    assert_eq!(fed(&mut t, b"\x08x\x1b4"), b"\x1cx \r");
}

#[test]
fn bench_8() {
    let mut t = Terminal::new();
    let mut reply = [0; 8];
    fed(&mut t, b"\x1bz@hi\x7f");
    assert_eq!(t.press(0x40, &mut reply), Replied { answer: Answer::Done, replied: 2 });
    assert_eq!(&reply[..2], b"hi");
    assert_eq!(t.press(0x41, &mut reply), Replied { answer: Answer::Done, replied: 3 });
    assert_eq!(&reply[..3], b"\x01\x41\r");
    assert_eq!(t.press(0x50, &mut reply).answer, Answer::BadArgument);
    assert_eq!(t.press(0x40, &mut reply[..1]).answer, Answer::NoRoom);
    fed(&mut t, b"\x0f");
    assert_eq!(t.press(0x40, &mut reply).answer, Answer::Locked);
}

#[test]
fn message_labels_and_shifted_line() {
    let mut t = Terminal::new();
    assert_eq!(
        (t.message(), t.label(0x30), t.label(0x57), t.label(0x40), t.shifted_line()),
        (&b""[..], Some(&b""[..]), Some(&b""[..]), None, false)
    );
    fed(&mut t, b"\x1bFRoast 6 is late\r\x1bz7Help\r");
    assert_eq!((t.message(), t.label(0x37), t.shifted_line()), (&b"Roast 6 is late"[..], Some(&b"Help"[..]), false));
    fed(&mut t, b"\x1bzPSend\r");
    assert_eq!((t.label(0x50), t.shifted_line()), (Some(&b"Send"[..]), true));
    fed(&mut t, b"\x1bzP\r");
    assert_eq!((t.label(0x50), t.shifted_line()), (Some(&b""[..]), true));
    fed(&mut t, b"\x1bz\x7f\x1bF\r");
    assert_eq!((t.message(), t.shifted_line()), (&b""[..], false));
    let mut reply = [0; 1];
    assert_eq!(t.feed(b"\x1bzPninebytes\r", &mut reply).refused, 1);
    assert_eq!(t.feed(b"\x1bFa\x1bb\r", &mut reply).refused, 1);
    assert_eq!((t.label(0x50), t.message(), t.shifted_line()), (Some(&b""[..]), &b""[..], false));
    assert!(t.cells().all(|c| c.0 == 0) && t.cursor() == 0);
    assert_eq!(t.state(), {
        let mut on = Terminal::new();
        fed(&mut on, b"\x1bz7Help\r");
        &on.state().clone()
    });
    let mut state = *t.state();
    state.message.len = 255;
    assert_eq!(Terminal::from_parts(t.page(), state).unwrap().message().len(), 46);
}

#[test]
fn bench_12_by_the_tail() {
    let mut t = Terminal::new();
    let mut room = [0; 1943];
    let input = b"\x1b=\x37\x6f\x1b7!";
    let stopped = t.feed(input, &mut room);
    assert_eq!((stopped.answer, stopped.taken, stopped.replied, stopped.rest), (Answer::Done, 6, 1943, &b"!"[..]));
    assert_eq!(t.sending(), Some(Sending { command: b'7', place: Place::Return }));
    let full = t.feed(stopped.rest, &mut []);
    assert_eq!((full.answer, full.taken, full.rest), (Answer::NoRoom, 0, &b"!"[..]));
    let rest = t.feed(stopped.rest, &mut room);
    assert_eq!((rest.answer, rest.taken, rest.replied, rest.rest), (Answer::Done, 1, 1, &b""[..]));
    assert_eq!((room[0], t.sending()), (b'\r', None));
}

/// Feeds all of it through a room of this length; the joined replies.
fn fed_through(terminal: &mut Terminal, mut bytes: &[u8], length: usize) -> Vec<u8> {
    let (mut joined, mut reply) = (Vec::new(), vec![0; length]);
    while !bytes.is_empty() || terminal.sending().is_some() {
        let fed = terminal.feed(bytes, &mut reply);
        assert!(fed.taken + fed.replied > 0, "each call takes a byte or sends one");
        joined.extend(&reply[..fed.replied]);
        bytes = fed.rest;
    }
    joined
}

/// Every reply of host bytes, over labels and fields, between text.
const SENDS: &[u8] =
    b"\x1b)Roast\x1b(dark\x1f\x1b)Date\x1b(24 bags\x1b4a\x1b5b\x1b6c\x1b7d\x1b e\x1b?f\x1b/g\x1bbh\x05i\x1bMj\x1b=\x37\x6f\x1b5k\x1b7";

#[test]
fn narrow_rooms_send_what_a_roomy_one_does() {
    let mut roomy = Terminal::new();
    let whole = fed_through(&mut roomy, SENDS, 3 * LONGEST_REPLY);
    for length in [1, 7, 64, 1943] {
        for start in [Terminal::new(), Terminal::new().with_row_list()] {
            let mut narrow = start;
            assert_eq!(fed_through(&mut narrow, SENDS, length), whole, "room {length}");
            assert!(narrow == roomy);
        }
    }
}

#[test]
fn the_place_of_a_send() {
    let mut t = Terminal::new();
    let mut reply = [0; 80];
    assert_eq!(t.sending(), None);
    let begun = t.feed(b"\x1b=!!\x1b7", &mut reply[..79]);
    assert_eq!((begun.answer, begun.taken, begun.replied), (Answer::Done, 6, 79));
    let at = |place| Some(Sending { command: b'7', place });
    assert_eq!(t.sending(), at(Place::Cell(79)));
    let step = t.step(0xe9, &mut reply[..1]);
    assert_eq!((step.answer, step.taken, step.replied), (Answer::Done, false, 1));
    assert_eq!(t.sending(), at(Place::Break(80)));
    assert_eq!(t.press(0x40, &mut reply).answer, Answer::NoRoom);
    let none = t.step(b'A', &mut []);
    assert_eq!((none.answer, none.taken), (Answer::NoRoom, false));
    let last = t.step(b'A', &mut reply);
    assert_eq!((last.answer, last.taken, last.replied, &reply[..4]), (Answer::Done, false, 4, &b"\x1f  \r"[..]));
    assert_eq!(t.sending(), None);
    let own = t.step(b'A', &mut reply);
    assert_eq!((own.answer, own.taken, own.replied, t.page()[81]), (Answer::Done, true, 0, 0x41));
    let two = t.feed(b"\x1b ", &mut reply[..2]);
    assert_eq!((two.replied, t.sending()), (2, Some(Sending { command: b' ', place: Place::Byte(2) })));
}

#[test]
fn a_sequence_and_a_send_answer_7() {
    let mut t = Terminal::new();
    let _ = t.feed(b"\x1b ", &mut [0; 1]);
    assert!(t.sending().is_some());
    let mut state = *t.state();
    state.sequence.kind = 1;
    let mut bad = Terminal::from_parts(t.page(), state).unwrap();
    let before = bad.clone();
    assert_eq!((bad.feed(b"A", &mut [0; 9]).answer, bad.step(b'A', &mut [0; 9]).answer), (Answer::BadCall, Answer::BadCall));
    assert_eq!(bad.press(0x40, &mut [0; 9]).answer, Answer::BadCall);
    assert!(bad == before && bad.with_row_list().row_list().is_none());
    let short = [(b' ', 0, 0), (b' ', 0, 3), (b' ', 1, 1), (b' ', 0, 257), (b'M', 0, 1), (b'x', 0, 1), (0, 0, 1)];
    let text = [(b'7', 0, 1), (b'7', 1, 0), (b'7', 1, 1), (b'7', 2, 80), (b'7', 3, 1), (b'7', 4, 0)];
    for (command, kind, place) in short.into_iter().chain(text) {
        let mut state = *t.state();
        (state.sending.command, state.sending.kind, state.sending.place) = (command, kind, place);
        assert_eq!(
            Terminal::from_parts(t.page(), state).unwrap().feed(b"", &mut [0; 9]).answer,
            Answer::BadCall,
            "{command} {kind} {place}"
        );
    }
}

#[test]
fn refusals_are_counted() {
    let mut t = Terminal::new();
    let fed = t.feed(b"\x1b\xe9=  \x1b\x01\x1b=\x38 ", &mut []);
    assert_eq!((fed.answer, fed.refused, fed.rest.len()), (Answer::Done, 3, 0));
    assert_eq!(t.step(0xe9, &mut []).answer, Answer::HighByte);
    let _ = t.step(0x1b, &mut []);
    assert_eq!(t.step(0x01, &mut []).answer, Answer::Unknown);
}

#[test]
fn an_impossible_state_answers_7() {
    let t = Terminal::new();
    let mut state = *t.state();
    state.tabs[9] = 2;
    let mut bad = Terminal::from_parts(&[7; CELLS], state).unwrap();
    let before = bad.clone();
    let fed = bad.feed(b"AB", &mut []);
    assert_eq!((fed.answer, fed.taken, fed.rest), (Answer::BadCall, 0, &b"AB"[..]));
    assert_eq!(bad.step(b'A', &mut []).answer, Answer::BadCall);
    assert_eq!(bad.press(0x40, &mut []).answer, Answer::BadCall);
    assert!(bad == before);
}

#[test]
fn rows_and_cells() {
    let mut t = Terminal::new();
    fed(&mut t, b"Roast\x1fDate\x1bG4\x1bH2");
    let rows: Vec<String> = t.rows().map(|r| r.to_string()).collect();
    assert_eq!((rows.len(), rows[0].trim_end(), rows[1].trim_end()), (ROWS, "Roast", "Date"));
    assert!(rows.iter().all(|r| r.len() == COLUMNS));
    let second: Vec<_> = t.rows().nth(1).unwrap().cells().take(6).map(|c| (c.kind(), c.code(), c.is_protected())).collect();
    assert_eq!(second[3..], [(Kind::Text, b'e', false), (Kind::Attribute, b'4', false), (Kind::Graphic, b'2', false)]);
    assert_eq!(t.to_string().lines().count(), ROWS);
}

/// ESC G takes a cell in a WY-50; in a WY-60 the next letter carries it.
#[test]
fn personalities() {
    let mut t = Terminal::new();
    assert_eq!(t.personality(), Some(Personality::Wy50));
    fed(&mut t, b"\x1bG4A");
    assert_eq!(t.page()[..3], [0x134, 0x41, 0]);
    assert!(t.cells().all(|c| c.attributes().is_normal()));
    assert_eq!(fed(&mut t, b"\x1b "), b"50\r");

    let mut t = Terminal::with_personality(Personality::Wy60);
    assert_eq!(t.personality(), Some(Personality::Wy60));
    fed(&mut t, b"\x1bG4");
    assert_eq!((t.cursor(), t.remembered().reverse(), t.page()[0]), (0, true, 0));
    fed(&mut t, b"A\x1bGyB\x1bG0C");
    assert_eq!(t.page()[..4], [0x41 + 4096, 0x42 + 16384 + 8192 + 1024, 0x43, 0]);
    let looks: Vec<_> = t.cells().take(3).map(|c| c.attributes()).collect();
    assert_eq!(looks, [Attributes(4), Attributes(25), Attributes(0)]);
    let second = looks[1];
    assert!(second.dim() && second.underscore() && !second.reverse() && !second.blink() && second.blank());
    assert_eq!(t.rows().next().unwrap().to_string().trim_end(), "ABC");
    assert_eq!(fed(&mut t, b"\x1b "), b"60\r");
}

/// A form with open fields; a row's end parts two of them.
#[test]
fn fields() {
    let mut t = Terminal::new();
    fed(&mut t, b"\x1b,\x1b(\x1b= \x25dark \x1b= \x6eA\x1b=! B\x1b&");
    let told = |t: &Terminal| t.fields().unwrap().map(|f| (f.start(), f.to_string())).collect::<Vec<_>>();
    assert_eq!(told(&t), [(5, "dark ".to_string()), (78, "A".to_string()), (80, "B".to_string())]);
    fed(&mut t, b"\x1b'\x1b=! \x1b= \x6fC\x1b&");
    assert_eq!(told(&t), [(5, "dark ".to_string()), (78, "AC".to_string()), (80, "B".to_string())]);
    let places: Vec<_> = t.fields().unwrap().map(|f| (f.row(), f.column(), f.cells().len(), f.text().to_string())).collect();
    assert_eq!(places, [(0, 5, 5, "dark".to_string()), (0, 78, 2, "AC".to_string()), (1, 0, 1, "B".to_string())]);
    fed(&mut t, b"\x1b'");
    let off = t.fields().expect_err("protect mode off is said");
    assert_eq!(off.to_string(), "protect mode is off");
    assert_eq!(off.fields().map(|f| f.start()).collect::<Vec<_>>(), [5, 78, 80], "and tells no label");
    fed(&mut t, b"\x1b+");
    assert_eq!(t.fields().unwrap_err().fields().map(|f| f.cells().len()).collect::<Vec<_>>(), [COLUMNS; ROWS]);
}

/// Rows as text, and places as row and column.
#[test]
fn texts_and_places() {
    let mut t = Terminal::new();
    fed(&mut t, b"\x1b)Roast:\x1b( dark  ");
    assert_eq!(t.row_text(0).unwrap().as_str(), "Roast: dark");
    assert_eq!((t.row_text(1).unwrap().len(), t.row_text(ROWS)), (0, None));
    assert_eq!(t.cursor_position(), Some(Position { row: 0, column: 13 }));
    fed(&mut t, b"\x1bx1\x2c\x1b}\x1f");
    assert_eq!(t.cursor_position(), t.position_of(t.cursor()));
    for cell in 0..CELLS {
        let place = t.position_of(cell).unwrap();
        assert_eq!((place.row, place.column, t.cell_at(place)), (cell / COLUMNS, cell % COLUMNS, Some(cell)));
    }
    assert_eq!(
        (t.position_of(CELLS), t.cell_at(Position { row: 0, column: COLUMNS }), t.cell_at(Position { row: ROWS, column: 0 })),
        (None, None, None)
    );
    let mut state = *t.state();
    (state.screen.active, state.screen.cursor0) = (0, 1920);
    assert_eq!(Terminal::from_parts(t.page(), state).unwrap().cursor_position(), None);
}

#[test]
fn answers() {
    assert_eq!((Answer::Done.number(), Answer::Locked.number()), (0, 8));
    assert_eq!(Answer::NoRoom.to_string(), "no room for the reply");
}

/// The row list of a terminal, counted here.
fn counted(t: &Terminal) -> Vec<u16> {
    let open = |cell: Cell| !(t.protects() && cell.is_protected());
    let numbers = |row: Row| [row.cells().filter(|&cell| open(cell)).count(), row.cells().position(open).map_or(0, |column| column + 1)];
    t.rows().flat_map(numbers).map(|number| number as u16).collect()
}

/// A form, filled, closed while it is written, split, edited, cleared and opened again.
const HOST: &[u8] = b"\x1b,\x1b(\x1b=\x22\x25Guji   \x1b=\x29\x23dark\x1b=\x29\x4324 bags\x1b&\x1eSidamo, washed, and more than there is room for\x1bq\
    \x1ein\x1br\x1bQ\x1bW\x1bR\x1bj\n\n\r\x08\t\x1bI\x1b5\x1e\x1b)closed\x1b(\x1b4\x1b7\x1bx1\x29\x1e\x1bJ\x1ehere\x1b}\x1ethere\x1bx0\x1e\x1bT\x1bY\x1b;\
    \xe9\x1b\x01\x1b=\x38 \x1b'\x1bE\x1bV\x1b&\x1eA\x1b'\x1b+\x1b&A\x1b,\x1b&A\x1b'";

#[test]
fn a_row_list_changes_no_result_and_is_kept() {
    let (mut plain, mut listed) = (Terminal::new(), Terminal::new().with_row_list());
    assert_eq!(listed.row_list(), Some(&std::array::from_fn(|i| if i % 2 == 0 { 80 } else { 1 })));
    assert_eq!(plain.row_list(), None);
    for length in [1, 2, 7, 100, HOST.len()] {
        for mut bytes in HOST.chunks(length) {
            while !bytes.is_empty() {
                let (mut reply, mut other) = ([7; LONGEST_REPLY], [7; LONGEST_REPLY]);
                let fed = listed.feed(bytes, &mut reply);
                assert_eq!(fed, plain.feed(bytes, &mut other));
                assert!(reply == other && listed == plain);
                assert_eq!(listed.row_list().unwrap()[..], counted(&listed));
                bytes = fed.rest;
            }
        }
    }
    for &byte in HOST {
        let mut waits = true;
        while waits {
            let (mut reply, mut other) = ([7; 30], [7; 30]);
            let stepped = listed.step(byte, &mut reply);
            assert_eq!(stepped, plain.step(byte, &mut other));
            assert!(reply == other && listed == plain);
            assert_eq!(listed.row_list().unwrap()[..], counted(&listed));
            waits = !stepped.taken;
        }
    }
}

#[test]
fn a_row_list_at_any_time() {
    let mut t = Terminal::new();
    fed(&mut t, b"\x1b,\x1b=\x37\x6f\x1bT\x1b&");
    let t = Terminal::from_parts(t.page(), *t.state()).unwrap().with_row_list();
    let mut last = [0; ROW_NUMBERS];
    last[46..].copy_from_slice(&[1, 80]);
    assert_eq!(t.row_list(), Some(&last));
    let mut again = t.clone().with_row_list();
    fed(&mut again, b"\x1e\x1e!\x1b'");
    assert_eq!((t.row_list(), again.row_list().map(|list| list[0])), (Some(&last), Some(80)));
}

#[test]
fn an_impossible_state_has_no_row_list() {
    let mut state = *Terminal::new().state();
    state.screen.cursor0 = CELLS as u16;
    let mut bad = Terminal::from_parts(&[0; CELLS], state).unwrap().with_row_list();
    assert_eq!(bad.row_list(), None);
    assert_eq!((bad.feed(b"A", &mut []).answer, bad.step(b'A', &mut []).answer), (Answer::BadCall, Answer::BadCall));
}

/// A row list that is kept goes through `next` as through `feed`: with protect mode on, each cell that write-protect guards changes it.
#[test]
fn next_hands_the_row_list_on() {
    let mut listed = Terminal::new().with_row_list();
    let mut plain = Terminal::new();
    for bytes in [&b"\x1b)\x1b&AB"[..], b"C\x1bi\x1e", b"\x1b(D", b"\x1b'E\x1b&"] {
        for terminal in [&mut listed, &mut plain] {
            let next = terminal.next(bytes, &mut []);
            assert_eq!((next.event, next.rest), (None, &b""[..]));
        }
        assert_eq!(listed.row_list(), plain.clone().with_row_list().row_list());
        let (a, b) = (listed.feed(b"!", &mut []), plain.feed(b"!", &mut []));
        assert_eq!((a.answer, a.refused), (Answer::Done, b.refused));
        assert!(listed == plain);
    }
}

/// Two terminals are equal if page and state are, and not if one of these differs.
#[test]
fn equal_terminals() {
    let t = Terminal::new();
    let mut state = *t.state();
    state.bells = 1;
    let mut page = t.page().to_vec();
    page[CELLS - 1] = 0x41;
    let other_state = Terminal::from_parts(t.page(), state).unwrap();
    let other_page = Terminal::from_parts(&page, *t.state()).unwrap();
    assert!(t == t.clone() && t == t.clone().with_row_list());
    assert!(t != other_state && t != other_page && other_state != other_page);
    assert!(other_page == Terminal::from_parts(&page, *t.state()).unwrap());
}

/// What is remembered is the attribute, and the personality is another number.
#[test]
fn remembered_attribute() {
    let mut t = Terminal::with_personality(Personality::Wy60);
    assert_eq!((t.remembered(), t.personality()), (Attributes(0), Some(Personality::Wy60)));
    fed(&mut t, b"\x1bGt");
    assert_eq!((t.remembered(), t.personality()), (Attributes(20), Some(Personality::Wy60)));
}

/// Bytes that mean nothing come back as they came: behind each text, and behind the bytes gathered. What is written has zeros behind it.
#[test]
fn nothing_changed() {
    let mut state = *Terminal::new().state();
    state.gathered = [0xfe; 46];
    state.keys.iter_mut().for_each(|key| (key.len, key.bytes) = (2, *b"ok\xfc\xfc\xfc\xfc\xfc\xfc"));
    state.labels.iter_mut().for_each(|label| (label.len, label.bytes) = (2, *b"go\xfb\xfb\xfb\xfb\xfb\xfb"));
    (state.message.len, state.message.bytes) = (1, [0x20; 46]);
    let before = Terminal::from_parts(Terminal::new().page(), state).unwrap();
    for listed in [false, true] {
        let mut t = if listed { before.clone().with_row_list() } else { before.clone() };
        assert_eq!((t.step(0xe9, &mut []).answer, t == before), (Answer::HighByte, true));
        assert_eq!((t.feed(b"\xe9\xff", &mut []).refused, t == before), (2, true));
        assert_eq!((t.next(b"\xe9", &mut []).rest, t == before), (&b""[..], true));
        assert_eq!((t.step(5, &mut []).answer, t == before), (Answer::NoRoom, true));
        assert_eq!((t.feed(b"\x05", &mut []).answer, t == before), (Answer::NoRoom, true));
        assert_eq!((t.next(b"\x05", &mut []).rest, t == before), (&b"\x05"[..], true));
        assert_eq!((t.press(0x40, &mut [0; 2]).replied, t == before), (2, true));
        fed(&mut t, b"\x1bF");
        fed(&mut t, b"xyz");
        assert_eq!((&t.state().gathered[..4], t.state().keys == state.keys), (&b"xyz\xfe"[..], true));
        fed(&mut t, b"\r");
        state.message = t.state().message;
        state.gathered[..3].fill(0);
        assert_eq!((state.message.len, &state.message.bytes[..4], state.message.bytes[45]), (3, &b"xyz\0"[..], 0));
        assert_eq!(*t.state(), state);
        (state.message.len, state.message.bytes, state.gathered) = (1, [0x20; 46], [0xfe; 46]);
    }
    state.modes.protect = 2;
    let mut t = Terminal::from_parts(Terminal::new().page(), state).unwrap();
    assert_eq!((t.step(b'A', &mut []).answer, *t.state(), t.cursor_position()), (Answer::BadCall, state, None));
}
