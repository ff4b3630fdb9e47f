//! Saved set-ups through the wrapper: numbers, what a restore sets and leaves, refusals, bytes and files.
use wy50::{Refusal, Store, Terminal, STORE_BYTES};

fn fed(bytes: &[u8]) -> Terminal {
    let mut terminal = Terminal::new();
    let fed = terminal.feed(bytes, &mut []);
    assert_eq!((fed.refused, fed.rest), (0, &b""[..]));
    terminal
}

#[test]
fn eight_numbers() {
    let mut store = Store::new();
    assert!(store.is_sound() && store.numbers().is_empty());
    for n in 1..=20 {
        assert_eq!(store.save(&fed(format!("\x1bz0{n}\r").as_bytes())), Ok(n));
        assert_eq!(store.numbers(), n.saturating_sub(7).max(1)..=n);
    }
    for n in 0..=22 {
        let mut terminal = Terminal::new();
        let kept = (13..=20).contains(&n);
        assert_eq!(store.restore(&mut terminal, n), if kept { Ok(()) } else { Err(Refusal::BadNumber) });
        assert_eq!(terminal.label(0x30), Some(if kept { n.to_string() } else { String::new() }.as_bytes()));
    }
}

#[test]
fn what_a_restore_leaves() {
    let mut store = Store::new();
    store.save(&fed(b"\x1bzPMore\r\x1bFhello\r")).unwrap();
    let mut terminal = fed(b"abc\x1b&\x1bFbye\r");
    let before = terminal.clone();
    store.restore(&mut terminal, 1).unwrap();
    assert_eq!((terminal.label(0x50), terminal.shifted_line(), terminal.message()), (Some(&b"More"[..]), false, &b"bye"[..]));
    assert_eq!((terminal.page(), terminal.cursor(), terminal.state().modes), (before.page(), before.cursor(), before.state().modes));
}

/// A wide terminal's stops beyond column 80 are not saved, and a restore leaves those that there are.
#[test]
fn stops_beyond_80() {
    let mut wide = fed(b"\x1b=\x20\x28\x1b1\x1b`;");
    wide.convert().unwrap();
    let stopped = wide.feed(b"\x1ba1R100C\x1b1", &mut []);
    assert_eq!((stopped.refused, wide.state().tabs[99]), (0, 1));
    let mut store = Store::new();
    assert_eq!(store.save(&wide), Ok(1));
    let mut narrow = Terminal::new();
    store.restore(&mut narrow, 1).unwrap();
    assert_eq!((narrow.state().tabs[8], narrow.state().tabs[99], narrow.is_wide(), narrow.wishes_wide()), (1, 0, false, false));
    store.save(&Terminal::new()).unwrap();
    store.restore(&mut wide, 2).unwrap();
    assert_eq!((wide.state().tabs[8], wide.state().tabs[99], wide.is_wide(), wide.wishes_wide()), (0, 1, true, true));
}

#[test]
fn refusals() {
    let mut store = Store::new();
    store.save(&Terminal::new()).unwrap();
    let mut bytes = *store.as_bytes();
    bytes[STORE_BYTES - 1] = 1;
    let mut damaged = Store::from_bytes(bytes);
    assert_eq!(damaged.save(&Terminal::new()), Err(Refusal::BadStore));
    assert_eq!((damaged.as_bytes(), damaged.is_sound()), (&bytes, false));
    let mut state = *Terminal::new().state();
    state.screen.split = 1;
    let mut bad = Terminal::from_parts(&[0; wy50::CELLS], state).unwrap();
    assert_eq!((damaged.save(&bad), damaged.restore(&mut bad, 0)), (Err(Refusal::BadState), Err(Refusal::BadState)));
}

#[test]
fn numbers_end() {
    let mut store = Store::new();
    for _ in 0..8 {
        store.save(&Terminal::new()).unwrap();
    }
    let mut bytes = *store.as_bytes();
    bytes[..2].fill(255);
    let mut last = Store::from_bytes(bytes);
    assert_eq!((last.numbers(), last.save(&Terminal::new())), (65528..=65535, Err(Refusal::Full)));
    assert_eq!((last.as_bytes(), last.is_sound()), (&bytes, true));
    assert_eq!(last.restore(&mut Terminal::new(), 65528), Ok(()));
    assert_eq!(last.restore(&mut Terminal::new(), 65527), Err(Refusal::BadNumber));
}

#[cfg(feature = "std")]
#[test]
fn files() {
    let path = std::env::temp_dir().join(format!("wy50-store-{}", std::process::id()));
    let mut store = Store::new();
    store.save(&Terminal::new()).unwrap();
    store.write(&path).unwrap();
    assert_eq!(Store::read(&path).unwrap(), store);
    std::fs::write(&path, &store.as_bytes()[1..]).unwrap();
    assert_eq!(Store::read(&path).unwrap_err().kind(), std::io::ErrorKind::InvalidData);
    std::fs::remove_file(&path).unwrap();
    assert_eq!(Store::read(&path).unwrap_err().kind(), std::io::ErrorKind::NotFound);
}
