//! The two widths through the wrapper: the wish, the conversion and its refusals, and what goes by the width.
use wy50::{Answer, Event, Personality, Position, Terminal, Unconverted, CELLS, COLUMNS, LONGEST_REPLY, ROWS, WIDE_CELLS, WIDE_COLUMNS};

/// Feeds all of it; the reply of all of it.
fn fed(terminal: &mut Terminal, bytes: &[u8]) -> Vec<u8> {
    let mut reply = [0; LONGEST_REPLY];
    let fed = terminal.feed(bytes, &mut reply);
    assert_eq!((fed.answer, fed.refused, fed.rest), (Answer::Done, 0, &b""[..]));
    reply[..fed.replied].to_vec()
}

fn wide(bytes: &[u8]) -> Terminal {
    let mut terminal = Terminal::new();
    terminal.convert().unwrap();
    fed(&mut terminal, bytes);
    terminal
}

#[test]
fn the_wish() {
    let mut t = Terminal::new();
    assert_eq!((t.wishes_wide(), t.is_wide(), t.columns(), t.page().len()), (false, false, COLUMNS, CELLS));
    fed(&mut t, b"\x1b`;");
    assert_eq!((t.wishes_wide(), t.is_wide()), (true, false));
    t.convert().unwrap();
    assert_eq!((t.wishes_wide(), t.is_wide(), t.columns(), t.page().len()), (true, true, WIDE_COLUMNS, WIDE_CELLS));
    fed(&mut t, b"\x1b`:");
    assert_eq!((t.wishes_wide(), t.is_wide()), (false, true));
    t.convert().unwrap();
    assert!(t == Terminal::new());
}

#[test]
fn there_and_back() {
    for personality in [Personality::Wy50, Personality::Wy60] {
        let mut t = Terminal::with_personality(personality);
        fed(&mut t, b"\x1b)Roast:\x1b( dark\x1b=\x37\x6b\x1bG4end\x1b=\x20\x28\x1b1\x1bFhello\r\x1bx1,\x1b&\x07");
        let narrow = t.clone();
        t.convert().unwrap();
        for (cell, place) in (0..WIDE_CELLS).map(|cell| (cell, t.position_of(cell).unwrap())) {
            let was = if place.column < COLUMNS { narrow.page()[narrow.cell_at(place).unwrap()] } else { 0 };
            assert_eq!((t.page()[cell], t.cell_at(place)), (was, Some(cell)));
        }
        assert_eq!((t.cursor_position(), t.state().screen.split), (Some(Position { row: 0, column: 6 }), 0));
        assert_eq!((t.message(), t.state().tabs[8], t.state().bells), (&b"hello"[..], 1, 1));
        t.convert().unwrap();
        assert_eq!((t.page(), t.state().tabs), (narrow.page(), narrow.state().tabs));
        let mut state = *narrow.state();
        state.screen = t.state().screen;
        assert_eq!((state.screen.split, state.screen.cursor0, *t.state()), (0, 6, state));
    }
}

#[test]
fn refusals() {
    let mut t = wide(b"\x1ba24R132C!\x1ba7R81C ");
    let before = t.clone();
    assert_eq!(t.convert(), Err(Unconverted::WouldLose));
    assert!(t == before);
    let sent = t.feed(b"\x1bb", &mut [0; 3]);
    assert_eq!(sent.replied, 3);
    let before = t.clone();
    assert_eq!(t.convert(), Err(Unconverted::Sending));
    assert!(t == before);
    let mut state = *t.state();
    state.wish = 2;
    let mut bad = Terminal::from_parts(t.page(), state).unwrap();
    let before = bad.clone();
    assert_eq!(bad.convert(), Err(Unconverted::BadState));
    assert!(bad == before);
    let told = [Unconverted::BadState, Unconverted::Sending, Unconverted::WouldLose].map(|why| (why.number(), why.to_string()));
    let words = ["a page, state or row list that is not possible", "a send is under way", "a cell beyond column 80 would be lost"];
    assert_eq!(told, [(7, words[0].to_string()), (6, words[1].to_string()), (4, words[2].to_string())]);
}

/// A page that is not of its state's width, and one of neither.
#[test]
fn parts() {
    let (narrow, mut wide) = (Terminal::new(), wide(b"\x1ba2R132C!"));
    for length in [0, 1, CELLS - 1, CELLS + 1, WIDE_CELLS - 1, WIDE_CELLS + 1] {
        assert!(Terminal::from_parts(&vec![0; length], *narrow.state()).is_none());
    }
    assert!(Terminal::from_parts(wide.page(), *wide.state()).unwrap() == wide);
    for (page, state) in [(narrow.page(), *wide.state()), (wide.page(), *narrow.state())] {
        let mut t = Terminal::from_parts(page, state).unwrap();
        let before = t.clone();
        assert_eq!((t.feed(b"A", &mut []).answer, t.step(b'A', &mut []).answer), (Answer::BadCall, Answer::BadCall));
        assert_eq!((t.press(0x40, &mut [0; 9]).answer, t.convert()), (Answer::BadCall, Err(Unconverted::BadState)));
        assert_eq!(t.next(b"A", &mut []).event, Some(Event::BadCall));
        assert!(t == before && t.with_row_list().row_list().is_none());
    }
    assert!(narrow != wide);
    fed(&mut wide, b"\x1b*\x1b'\x1e");
    wide.convert().unwrap();
    assert!(narrow == wide);
}

#[test]
fn by_the_width() {
    let mut t = wide(b"\x1b,\x1b(\x1ba3R90CGuji\x1ba24R132C\x1bT\x1b&");
    assert_eq!(t.rows().map(|row| row.cells().len()).collect::<Vec<_>>(), [WIDE_COLUMNS; ROWS]);
    assert_eq!(t.to_string().lines().map(str::len).collect::<Vec<_>>(), [WIDE_COLUMNS; ROWS]);
    let told: Vec<_> = t.fields().unwrap().map(|f| (f.start(), f.row(), f.column(), f.text().to_string())).collect();
    assert_eq!(told, [(2 * 132 + 89, 2, 89, "Guji".to_string()), (WIDE_CELLS - 1, 23, 131, String::new())]);
    assert_eq!((t.row_text(2).unwrap().len(), t.cells().len()), (93, WIDE_CELLS));
    assert_eq!((t.position_of(WIDE_CELLS), t.cell_at(Position { row: 0, column: 132 })), (None, None));
    assert_eq!(t.cell_at(Position { row: 23, column: 131 }), Some(WIDE_CELLS - 1));
    assert_eq!(t.cursor_position(), Some(Position { row: 23, column: 131 }));
    assert_eq!(fed(&mut t, b"\x1bb"), b"24R132C");
    assert_eq!(fed(&mut t, b"\x1b'\x1b7").len(), LONGEST_REPLY);
    assert_eq!(t.feed(b"\x1b?", &mut []).refused, 1);
}

#[test]
fn a_row_list_is_kept_through_it() {
    let (mut plain, mut listed) = (Terminal::new(), Terminal::new().with_row_list());
    // a form; open beyond column 80 once it is wide, and written there; cleared
    let lost = Err(Unconverted::WouldLose);
    for (bytes, came_to) in
        [(&b"\x1b,\x1b=\x37\x6f\x1bT\x1b&"[..], Ok(())), (b"\x1e\x1e!", lost), (b"\x1e\x1b'\x1b*", Ok(())), (b"text", Ok(()))]
    {
        assert_eq!((fed(&mut plain, bytes), plain.convert()), (fed(&mut listed, bytes), came_to));
        assert_eq!(listed.convert(), came_to);
        assert!(plain == listed);
        assert_eq!(listed.row_list().copied(), plain.clone().with_row_list().row_list().copied());
    }
    assert!(plain.row_list().is_none() && plain.is_wide());
}
