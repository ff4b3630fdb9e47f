//! The wrapper against the worked texts, each refusal with its words, and the terminal beside it.
use std::error::Error;
use wy50::{Terminal, LONGEST_REPLY};
use wy50_counter::{count_reply, count_text, library_version, Count, Refusal, VERSION};

fn counted(units: u64, parts: u64) -> Result<Count, Refusal> {
    Ok(Count { units, parts })
}

#[test]
fn texts() {
    for (length, parts) in [(0, 0), (1, 1), (160, 1), (161, 2), (306, 2), (307, 3)] {
        assert_eq!(count_text(&vec![b'a'; length]), counted(length as u64, parts));
    }
    let seam = [&[b'a'; 152][..], b"~", &[b'a'; 152]].concat();
    assert_eq!(count_text(&seam), counted(306, 3));
    assert_eq!(count_text(b"^{}\\[~]|  "), counted(16, 1));
    assert_eq!(count_text(b"\x1f"), Err(Refusal::BadByte { place: 0 }));
}

#[test]
fn refusals_in_their_order() {
    assert_eq!(count_reply(b"a`", 0, 9), Err(Refusal::NoReturn));
    assert_eq!(count_reply(b"a`\r", 0, 9), Err(Refusal::BadFirst));
    assert_eq!(count_reply(b"a`\r", 1, 2), Err(Refusal::BadLast));
    assert_eq!(count_reply(b"a`\r", 1, 1), Err(Refusal::BadByte { place: 1 }));
    assert_eq!(count_reply(b"", 1, 1), Err(Refusal::NoReturn));
}

#[test]
fn one_version() {
    assert_eq!(library_version().map(|n| n.to_string()).join("."), VERSION);
}

#[test]
fn words() {
    let words = |refusal: Refusal| -> String { Box::<dyn Error>::from(refusal).to_string() };
    assert_eq!(words(Refusal::NoReturn), "the reply has no final CR");
    assert_eq!(words(Refusal::BadFirst), "the first piece is 0 or above the last");
    assert_eq!(words(Refusal::BadLast), "the last piece is beyond those of the reply");
    assert_eq!(words(Refusal::BadByte { place: 7 }), "the byte at place 7 is outside the alphabet");
}

#[test]
fn beside_the_terminal() {
    let mut terminal = Terminal::new();
    let mut reply = [0; LONGEST_REPLY];
    let fed = terminal.feed(b"\x1b)Roast:\x1b(dark \x1b)Bags:\x1b(24\x1b&\x1b5", &mut reply);
    let reply = &reply[..fed.replied];
    assert_eq!(reply, b"\x1cdark \x1c24 \r");
    assert_eq!(count_reply(reply, 2, 2), counted(4, 1));
    assert_eq!(count_reply(reply, 1, 3), counted(7, 1));
    assert_eq!(count_reply(reply, 1, 4), Err(Refusal::BadLast));
}
