//! The wrapper against include/wy50.h: every constant of it has its number here too, and the answers have the same words.
use std::collections::BTreeMap;
use wy50::Command;
use wy50::{
    library_version, Answer, Attributes, CursorStyle, Features, Kind, Mended, Personality, Place, ProtectedLook, RawSending, Refusal,
    Scrolling, Sending, SequenceKind, Span, Terminal, CELLS, COLUMNS, KEYS, KEY_BYTES, LABELS, LABEL_BYTES, LONGEST_REPLY, LONGEST_TEXT,
    MESSAGE_BYTES, MOST_PAINT_BYTES, MOST_SPANS, ROWS, ROW_NUMBERS, STORE_BYTES, VERSION, WIDE_CELLS, WIDE_COLUMNS,
};

/// The header without its comments.
fn header() -> String {
    let mut text = include_str!("../../../include/wy50.h").to_string();
    while let Some(from) = text.find("/*") {
        let to = from + text[from..].find("*/").expect("a comment ends") + 2;
        text.replace_range(from..to, "");
    }
    text
}

/// A number or a character in quotes.
fn value(text: &str) -> usize {
    match text.strip_prefix('\'').and_then(|t| t.strip_suffix('\'')) {
        Some(c) => usize::from(c.as_bytes()[0]),
        None => text.parse().unwrap_or_else(|_| panic!("{text} is no number")),
    }
}

/// The constants of every enum.
fn constants() -> BTreeMap<String, usize> {
    let mut found = BTreeMap::new();
    for block in header().split("enum {").skip(1) {
        for constant in block.split('}').next().unwrap().split(',') {
            let (name, number) = constant.split_once('=').unwrap_or_else(|| panic!("{constant} has a number"));
            assert!(found.insert(name.trim().to_string(), value(number.trim())).is_none(), "{name} stands once");
        }
    }
    found
}

/// The answers of stores alone.
fn refusals() -> [(&'static str, Refusal); 3] {
    [("WY50_BAD_STORE", Refusal::BadStore), ("WY50_BAD_NUMBER", Refusal::BadNumber), ("WY50_FULL", Refusal::Full)]
}

fn kinds() -> Vec<(&'static str, SequenceKind)> {
    use SequenceKind::*;
    vec![
        ("WY50_IDLE", Idle),
        ("WY50_ESCAPE", Escape),
        ("WY50_ADDRESS", Address),
        ("WY50_ADDRESS_ROW", AddressRow),
        ("WY50_SEGMENT", Segment),
        ("WY50_SEGMENT_NUMBER", SegmentNumber),
        ("WY50_SEGMENT_ROW", SegmentRow),
        ("WY50_DECIMAL_ROW", DecimalRow),
        ("WY50_DECIMAL_COLUMN", DecimalColumn),
        ("WY50_SPLIT", Split),
        ("WY50_SPLIT_ROW", SplitRow),
        ("WY50_SET_ATTRIBUTE", SetAttribute),
        ("WY50_SET_GRAPHIC", SetGraphic),
        ("WY50_FILL_ATTRIBUTE", FillAttribute),
        ("WY50_FILL_CODE", FillCode),
        ("WY50_SET_FEATURE", SetFeature),
        ("WY50_FIELD_ATTRIBUTE", FieldAttribute),
        ("WY50_FIELD_NUMBER", FieldNumber),
        ("WY50_KEY_VALUE", KeyValue),
        ("WY50_KEY_TEXT", KeyText),
        ("WY50_KEY_OVER", KeyOver),
        ("WY50_LABEL_TEXT", LabelText),
        ("WY50_LABEL_SPOILT", LabelSpoilt),
        ("WY50_MESSAGE_TEXT", MessageText),
        ("WY50_MESSAGE_SPOILT", MessageSpoilt),
    ]
}

fn answers() -> Vec<(&'static str, Answer)> {
    vec![
        ("WY50_DONE", Answer::Done),
        ("WY50_HIGH_BYTE", Answer::HighByte),
        ("WY50_UNKNOWN", Answer::Unknown),
        ("WY50_BAD_ARGUMENT", Answer::BadArgument),
        ("WY50_BARRED", Answer::Barred),
        ("WY50_NO_ROOM", Answer::NoRoom),
        ("WY50_BAD_CALL", Answer::BadCall),
        ("WY50_LOCKED", Answer::Locked),
    ]
}

fn commands() -> Vec<(&'static str, Command)> {
    use Command::*;
    vec![
        ("WY50_ASKS_ACKNOWLEDGE", Acknowledge),
        ("WY50_ASKS_IDENTITY", Identity),
        ("WY50_ASKS_SEGMENT_CURSOR", SegmentCursor),
        ("WY50_ASKS_OPEN_ROW", OpenRow),
        ("WY50_ASKS_OPEN_SEGMENT", OpenSegment),
        ("WY50_ASKS_ROW", Row),
        ("WY50_ASKS_SEGMENT", Segment),
        ("WY50_ASKS_CURSOR", Cursor),
        ("WY50_ASKS_CELL", Cell),
        ("WY50_ASKS_DECIMAL_CURSOR", DecimalCursor),
    ]
}

/// All that the wrapper has, by the header's name.
fn ours() -> BTreeMap<String, usize> {
    let mut all: Vec<(&str, usize)> = vec![
        ("WY50_ROWS", ROWS),
        ("WY50_COLUMNS", COLUMNS),
        ("WY50_CELLS", CELLS),
        ("WY50_WIDE_COLUMNS", WIDE_COLUMNS),
        ("WY50_WIDE_CELLS", WIDE_CELLS),
        ("WY50_ROW_NUMBERS", ROW_NUMBERS),
        ("WY50_LONGEST_REPLY", LONGEST_REPLY),
        ("WY50_LONGEST_TEXT", LONGEST_TEXT),
        ("WY50_KEYS", KEYS),
        ("WY50_KEY_BYTES", KEY_BYTES),
        ("WY50_LABELS", LABELS),
        ("WY50_LABEL_BYTES", LABEL_BYTES),
        ("WY50_MESSAGE_BYTES", MESSAGE_BYTES),
        ("WY50_STORE_BYTES", STORE_BYTES),
        ("WY50_ENTRY_NUMBERS", size_of::<Mended>() / size_of::<u16>()),
        ("WY50_SPAN_NUMBERS", size_of::<Span>() / size_of::<u16>()),
        ("WY50_MOST_SPANS", MOST_SPANS),
        ("WY50_MOST_PAINT_BYTES", MOST_PAINT_BYTES),
        ("WY50_CURSOR_SHOWN", Features::CURSOR_SHOWN),
        ("WY50_CURSOR_STYLE", Features::CURSOR_STYLE),
        ("WY50_PROTECTED_LOOK", Features::PROTECTED_LOOK),
        ("WY50_SCREEN_SHOWN", Features::SCREEN_SHOWN),
        ("WY50_SCROLLING", Features::SCROLLING),
    ];
    let bytes = [
        ("WY50_PERSONALITY_50", Personality::Wy50.number()),
        ("WY50_PERSONALITY_60", Personality::Wy60.number()),
        ("WY50_TEXT", Kind::Text.number()),
        ("WY50_ATTRIBUTE", Kind::Attribute.number()),
        ("WY50_GRAPHIC", Kind::Graphic.number()),
        ("WY50_BLANK", Attributes::BLANK.0),
        ("WY50_BLINK", Attributes::BLINK.0),
        ("WY50_REVERSE", Attributes::REVERSE.0),
        ("WY50_UNDERSCORE", Attributes::UNDERSCORE.0),
        ("WY50_DIM", Attributes::DIM.0),
        ("WY50_SENT_BYTES", Place::Byte(1).number()),
        ("WY50_SENT_CELL", Place::Cell(1).number()),
        ("WY50_SENT_BREAK", Place::Break(80).number()),
        ("WY50_SENT_RETURN", Place::Return.number()),
        ("WY50_CURSOR_OFF", Features::CURSOR_OFF),
        ("WY50_CURSOR_ON", Features::CURSOR_ON),
        ("WY50_STEADY_BLOCK", CursorStyle::SteadyBlock.code()),
        ("WY50_BLINKING_LINE", CursorStyle::BlinkingLine.code()),
        ("WY50_STEADY_LINE", CursorStyle::SteadyLine.code()),
        ("WY50_BLINKING_BLOCK", CursorStyle::BlinkingBlock.code()),
        ("WY50_PROTECTED_REVERSE", ProtectedLook::Reverse.code()),
        ("WY50_PROTECTED_DIM", ProtectedLook::Dim.code()),
        ("WY50_PROTECTED_NORMAL", ProtectedLook::Normal.code()),
        ("WY50_SCREEN_OFF", Features::SCREEN_OFF),
        ("WY50_SCREEN_ON", Features::SCREEN_ON),
        ("WY50_SMOOTH_1", Scrolling::Smooth1.code()),
        ("WY50_SMOOTH_2", Scrolling::Smooth2.code()),
        ("WY50_SMOOTH_4", Scrolling::Smooth4.code()),
        ("WY50_SMOOTH_8", Scrolling::Smooth8.code()),
        ("WY50_JUMP", Scrolling::Jump.code()),
    ];
    all.extend(bytes.map(|(name, byte)| (name, usize::from(byte))));
    all.extend(refusals().map(|(name, refusal)| (name, usize::from(refusal.number()))));
    all.extend(answers().into_iter().map(|(name, answer)| (name, usize::from(answer.number()))));
    all.extend(commands().into_iter().map(|(name, command)| (name, usize::from(command.number()))));
    all.extend(kinds().into_iter().map(|(name, kind)| (name, usize::from(kind.number()))));
    all.into_iter().map(|(name, number)| (name.to_string(), number)).collect()
}

#[test]
fn every_constant() {
    assert_eq!(ours(), constants());
}

/// Each number names what it is the number of, and no other number names anything.
#[test]
fn there_and_back() {
    let (answers, kinds, commands) = (answers(), kinds(), commands());
    for n in 0..=u8::MAX {
        assert_eq!(Answer::from_number(n), answers.iter().map(|&(_, a)| a).find(|a| a.number() == n));
        assert_eq!(Command::from_number(n), commands.iter().map(|&(_, c)| c).find(|c| c.number() == n));
        assert_eq!(Personality::from_number(n), [Personality::Wy50, Personality::Wy60].into_iter().find(|p| p.number() == n));
        assert_eq!(Kind::from_number(n).map(Kind::number), (n < 3).then_some(n));
        assert_eq!(CursorStyle::from_code(n).map(CursorStyle::code), b"2345".contains(&n).then_some(n));
        assert_eq!(ProtectedLook::from_code(n).map(ProtectedLook::code), b"67A".contains(&n).then_some(n));
        assert_eq!(Scrolling::from_code(n).map(Scrolling::code), b"<=>?@".contains(&n).then_some(n));
        for command in [0, b'7'] {
            let sending = Sending::at(RawSending { command, kind: n, place: 0 });
            assert_eq!(sending.map(|s| (s.command, s.place.number())), (n < 4 && command != 0).then_some((command, n)));
        }
    }
    for n in 0..=u16::MAX {
        assert_eq!(SequenceKind::from_number(n), kinds.iter().map(|&(_, k)| k).find(|k| k.number() == n));
    }
}

#[test]
fn attributes() {
    let both = Attributes::DIM | Attributes::BLINK;
    assert!(both.has(Attributes::DIM) && both.has(both) && !both.has(Attributes::DIM | Attributes::BLANK) && !both.is_normal());
    assert_eq!((both.dim(), both.underscore(), both.reverse(), both.blink(), both.blank()), (true, false, false, true, false));
}

/// The features that the bytes set, and the sequence that they leave.
#[test]
fn of_a_terminal() {
    let mut t = Terminal::new();
    let shown = t.features().unwrap();
    let expected = Features {
        cursor_shown: true,
        cursor_style: CursorStyle::BlinkingBlock,
        protected_look: ProtectedLook::Dim,
        screen_shown: true,
        scrolling: Scrolling::Jump,
    };
    assert_eq!((shown, shown.codes()), (expected, *b"1579@"));
    assert_eq!(t.sequence(), Some(SequenceKind::Idle));
    let sets = |code: u8, change: fn(&mut Features)| {
        let mut features = shown;
        let mut t = Terminal::new();
        change(&mut features);
        assert_eq!(t.feed(&[27, b'`', code], &mut []).refused, 0);
        assert_eq!((t.features(), t.state().features), (Some(features), features.codes()));
    };
    sets(b'0', |f| f.cursor_shown = false);
    sets(b'1', |f| f.cursor_shown = true);
    sets(b'2', |f| f.cursor_style = CursorStyle::SteadyBlock);
    sets(b'3', |f| f.cursor_style = CursorStyle::BlinkingLine);
    sets(b'4', |f| f.cursor_style = CursorStyle::SteadyLine);
    sets(b'5', |f| f.cursor_style = CursorStyle::BlinkingBlock);
    sets(b'6', |f| f.protected_look = ProtectedLook::Reverse);
    sets(b'7', |f| f.protected_look = ProtectedLook::Dim);
    sets(b'A', |f| f.protected_look = ProtectedLook::Normal);
    sets(b'8', |f| f.screen_shown = false);
    sets(b'9', |f| f.screen_shown = true);
    sets(b'<', |f| f.scrolling = Scrolling::Smooth1);
    sets(b'=', |f| f.scrolling = Scrolling::Smooth2);
    sets(b'>', |f| f.scrolling = Scrolling::Smooth4);
    sets(b'?', |f| f.scrolling = Scrolling::Smooth8);
    sets(b'@', |f| f.scrolling = Scrolling::Jump);
    assert_eq!(t.feed(b"\x1ba7R3", &mut []).taken, 5);
    assert_eq!(t.sequence(), Some(SequenceKind::DecimalColumn));
    let mut state = *t.state();
    state.sequence.kind = 25;
    state.features[Features::SCROLLING] = b'9';
    let t = Terminal::from_parts(t.page(), state).unwrap();
    assert_eq!((t.sequence(), t.features()), (None, None));
}

/// The words of `wy50_answer_name`.
#[test]
fn words() {
    let header = header();
    let cases = &header[header.find("wy50_answer_name").unwrap()..];
    let cases = &cases[..cases.find("default:").unwrap()];
    let words: BTreeMap<&str, &str> =
        cases.split("case ").skip(1).map(|case| (case.split_once(':').unwrap().0, case.split('"').nth(1).unwrap())).collect();
    assert_eq!(words.len(), answers().len() + refusals().len());
    for (name, answer) in answers() {
        assert_eq!(words[name], answer.to_string());
    }
    for (name, refusal) in refusals() {
        assert_eq!(words[name], refusal.to_string());
    }
    assert_eq!((Refusal::BadState.number(), Refusal::BadState.to_string()), (Answer::BadCall.number(), Answer::BadCall.to_string()));
}

#[test]
fn one_version() {
    assert_eq!(library_version().map(|n| n.to_string()).join("."), VERSION);
    assert!(header().contains(&format!("#define WY50_VERSION \"{VERSION}\"\n")));
}
