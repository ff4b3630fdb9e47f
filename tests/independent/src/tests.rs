//! The bench list and the transcript's example.

mod counter;
mod events;
mod mending;
mod narrow;
mod personalities;
mod reading;
mod repainting;
mod rows;
mod sends;
mod setups;
mod texts;
mod widths;

use crate::state::{Cell, Personality, ESC};
use crate::terminal::{answer_number, Refusal, Terminal};
use crate::transcript::limits::*;
use crate::{conformance, generate, transcript};

/// The replies of a run that takes and obeys every byte.
fn replies(terminal: &mut Terminal, bytes: &[u8]) -> Vec<u8> {
    let mut room = [0; 2000];
    let report = terminal.run(bytes, &mut room);
    assert_eq!(
        (report.answer, report.taken, report.refused),
        (0, bytes.len(), 0)
    );
    room[..report.replied].to_vec()
}

fn answers(terminal: &mut Terminal, bytes: &[u8]) -> Vec<u8> {
    let mut room = [0; 2000];
    bytes
        .iter()
        .map(|&byte| answer_number(terminal.step(byte, &mut room).outcome))
        .collect()
}

fn pressed(terminal: &Terminal, value: u8) -> Vec<u8> {
    let mut room = [0; 8];
    let count = terminal.press(value, &mut room).expect("a key that sends");
    room[..count].to_vec()
}

#[test]
fn bench_1_cursor_address() {
    assert_eq!(replies(&mut Terminal::new(), b"AB\x1b?"), b"\x20\x22\x0d");
}

#[test]
fn bench_2_last_cell_scrolls() {
    let mut terminal = Terminal::new();
    replies(&mut terminal, b"\x1b=\x37\x6fX");
    assert_eq!(terminal.page[1839], Cell::text(b'X'));
    assert_eq!(terminal.state.cursors[0], 23 * 80);
}

#[test]
fn bench_3_address_past_the_end() {
    assert_eq!(
        answers(&mut Terminal::new(), b"\x1b=\x38\x20"),
        [0, 0, 0, 3]
    );
    assert_eq!(
        answers(&mut Terminal::new(), b"\x1b=\x20\x70"),
        [0, 0, 0, 3]
    );
}

#[test]
fn bench_4_decimal_address() {
    assert_eq!(
        replies(&mut Terminal::new(), b"\x1ba24R80C\x1bb"),
        b"24R080C"
    );
}

#[test]
fn bench_5_and_6_labels() {
    for (label, numbers) in [(b"No", [206, 239]), (b"Hi", [200, 233])] {
        let mut terminal = Terminal::new();
        replies(
            &mut terminal,
            &[b"\x1b)", &label[..], b"\x1b(\x1b&"].concat(),
        );
        assert_eq!([terminal.page[0].0, terminal.page[1].0], numbers);
        replies(&mut terminal, b"\r");
        assert_eq!(terminal.state.cursors[0], 2);
        replies(&mut terminal, b"\x08");
        assert_eq!(terminal.state.cursors[0], 2);
        assert_eq!(replies(&mut terminal, b"x\x1b4"), b"\x1c\x78\x20\x0d");
    }
}

#[test]
fn bench_7_protected_page_bars_writing() {
    let mut terminal = Terminal::new();
    assert_eq!(answers(&mut terminal, b"\x1b,\x1b&A"), [0, 0, 0, 0, 4]);
    assert_eq!(terminal.state.cursors[0], 0);
}

#[test]
fn bench_8_keys() {
    let mut terminal = Terminal::new();
    replies(&mut terminal, b"\x1bz\x40hi\x7f");
    assert_eq!(pressed(&terminal, 0x40), b"hi");
    assert_eq!(pressed(&terminal, 0x41), b"\x01\x41\x0d");
}

#[test]
fn full_keys_are_programmed_again() {
    let mut terminal = Terminal::new();
    for text in [b"abcdefgh", b"hgfedcba"] {
        for value in (0x40..=0x4F).chain(0x60..=0x6F) {
            let bytes = [b"\x1bz", &[value][..], text, b"\x7f"].concat();
            assert_eq!(answers(&mut terminal, &bytes), [0; 12]);
            assert_eq!(pressed(&terminal, value), text);
        }
    }
}

#[test]
fn bench_9_high_byte_within_a_sequence() {
    let mut terminal = Terminal::new();
    assert_eq!(
        answers(&mut terminal, b"AB\x1b\xe9=\x20\x20"),
        [0, 0, 0, 1, 0, 0, 0]
    );
    assert_eq!(terminal.state.cursors[0], 0);
}

#[test]
fn bench_10_segment_1() {
    let mut terminal = Terminal::new();
    assert_eq!(
        replies(&mut terminal, b"\x1bx1\x2c\x1b}\x1b/"),
        b"\x31\x20\x20\x0d"
    );
    assert_eq!(answers(&mut terminal, b"\x1b=\x2c\x20"), [0, 0, 0, 3]);
}

#[test]
fn bench_11_two_rows_sent() {
    let expected = [b"A", &[b' '; 79][..], b"\x1fB \x0d"].concat();
    assert_eq!(expected.len(), 84);
    assert_eq!(replies(&mut Terminal::new(), b"A\x1fB\x1b7"), expected);
}

#[test]
fn bench_12_longest_reply() {
    let mut terminal = Terminal::new();
    replies(&mut terminal, b"\x1b=\x37\x6f");
    let mut room = [0xEE; 1944];
    let report = terminal.run(b"\x1b7A", &mut room[..1943]);
    assert_eq!(
        (report.answer, report.taken, report.replied, report.rest),
        (0, 2, 1943, &b"A"[..])
    );
    assert_eq!(room[1942..], [b' ', 0xEE]);
    let report = terminal.run(b"", &mut room);
    assert_eq!((report.answer, report.replied, room[0]), (0, 1, 0x0D));
    assert_eq!(terminal.run(b"\x1b7", &mut room).replied, 1944);
}

#[test]
fn run_is_the_step_repeated() {
    for seed in 0..20 {
        let mut bytes = Vec::new();
        for line in generate::script(seed, 100) {
            if let transcript::Line::Run { bytes: more, .. } = line {
                bytes.extend(more);
            }
        }
        let (mut stepped, mut ran) = match seed % 2 {
            0 => (Terminal::new(), Terminal::new()),
            _ => (widths::wide(), widths::wide()),
        };
        let (mut stepped_room, mut room) = (vec![0; 100_000], vec![0; 100_000]);
        let report = ran.run(&bytes, &mut room);
        let (mut replied, mut refused) = (0, 0);
        for &byte in &bytes {
            match stepped.step(byte, &mut stepped_room[replied..]).outcome {
                Ok(count) => replied += count,
                Err(_) => refused += 1,
            }
        }
        assert_eq!((report.replied, report.refused), (replied, refused));
        assert_eq!(room, stepped_room);
        assert!(stepped.state == ran.state && stepped.page == ran.page);
    }
}

#[test]
fn possible_states_stay_possible() {
    for seed in 0..20 {
        for mut terminal in [Terminal::new(), widths::wide()] {
            for line in generate::script(seed, 500) {
                if let transcript::Line::Run { bytes, .. } = line {
                    terminal.run(&bytes, &mut [0; 2000]);
                    assert!(terminal.is_possible());
                }
            }
        }
    }
}

fn trace_of(script: &[u8]) -> (String, Result<(), usize>) {
    let mut trace = Vec::new();
    let outcome = transcript::replay(script, &mut trace).expect("no device fails");
    (
        String::from_utf8(trace).expect("a trace is plain text"),
        outcome,
    )
}

#[test]
fn transcript_example() {
    let (trace, outcome) = trace_of(b"on\nrun 1b2941 0\nstep 1b 0\n");
    assert_eq!(outcome, Ok(()));
    let lines: Vec<&str> = trace.lines().collect();
    assert!(lines[0].starts_with("1 on answer=0 active=0 cursors=0,0 split=0 modes=000100 "));
    assert!(lines[0].contains(" keys=- bells=0 pending=- message=- labels=- shifted=0 "));
    assert!(lines[0].contains(" modes=000100 tabs=000000000000000000000000000000000 "));
    assert!(lines[0].contains(" shifted=0 personality=50 remembered=0 sending=- wide=0 "));
    assert!(lines[0].ends_with(" wish=0 page=ad1806b01441cf25"));
    assert!(lines[1].starts_with(
        "2 run answer=0 taken=3 replied=0 refused=0 rest=- reply=- beyond=1 active=0 cursors=1,0 "
    ));
    assert!(lines[1].contains(" modes=010100 "));
    assert!(lines[1].ends_with(" page=2247f1d9654793e4"));
    assert!(lines[2].starts_with("3 step answer=0 reply=- beyond=1 own=1 active=0 "));
    assert!(lines[2].contains(" pending=1b message=- labels=- shifted=0 personality=50 "));
    assert!(lines[2].ends_with(" sending=- wide=0 wish=0 page=2247f1d9654793e4"));
}

#[test]
fn bad_lines_are_named() {
    for (script, line) in [
        ("on\nof\n", 2),
        ("# comment\n\nstep 1B 0\n", 3),
        ("step 41  0\n", 1),
        ("cell 1920 0\n", 1),
        ("pending 1b3d2020\n", 1),
        ("pending 1b613552\n", 1),
        ("run  0\n", 1),
        ("on \n", 1),
        ("label 16 -\n", 1),
        ("shifted 2\n", 1),
        ("row 47 65535\nrow 48 0\n", 2),
        ("rows 0\nrow 0 0\n", 2),
        ("on 60\non 50\non 55\n", 3),
        ("remembered 31\nremembered 32\n", 2),
        ("personality 60\npersonality 0\n", 2),
        ("sending -\nsending 1b34:cr\nsending 1b34\n", 3),
        ("sending 1b35:u160\nsending 1b35:u161\n", 2),
        ("sending 1b35:65535\nsending 1b35:65536\n", 2),
        ("sending 1b62:255\nsending 1b62:cr\n", 2),
        ("sending 1b4d:0\n", 1),
        ("byte 8713 255\nbyte 8714 0\n", 2),
        ("save\nrestore 65535\nrestore 65536\n", 3),
        ("tab 131 1\ntab 132 1\n", 2),
        ("wide 1\nsending 1b37:u132\nsending 1b37:u80\n", 3),
        ("spans -\nspans 1:2:3,0:0:65535\nspans 1:2\n", 3),
        ("bytes 60 -\nbytes 1b\n", 2),
        ("display\npropose 50 0 0\npropose 50 0\n", 3),
        ("length 9\nnoise 1 127 64\nconvert\n", 3),
        ("mend 50 0\nmend 55 0\n", 2),
        ("sending 1b3F:1\n", 1),
        ("rebuild\nliststep 1b\n", 2),
        ("next 41 0\nlistnext - 0\nnext 41\n", 3),
        ("fieldtext 0 1 0\nfieldtext 0 2 0\n", 2),
        ("rowtext 0 0 0\nrowtext 0 0\n", 2),
        ("position 0\nplace 0 0\nplace 0\n", 3),
        ("pending 1b4600\n", 1),
        ("pending 1b4641+\n", 1),
        ("pending 1b7a7f\n", 1),
        ("message 41\npending 1b46+\npending 1b7a57+\nstep\n", 4),
    ] {
        assert_eq!(trace_of(script.as_bytes()).1, Err(line), "{script}");
    }
}

#[test]
fn what_is_past_its_limit_is_bad() {
    for (start, limit, end) in [
        ("length ", LONGEST_PAGE, ""),
        ("convert ", LONGEST_PAGE, ""),
        ("rows ", LONGEST_ROW_LIST, ""),
        ("mend 50 ", MOST_ENTRIES, ""),
        ("propose 50 ", MOST_SPANS, " 0"),
        ("propose 50 0 ", MOST_PAINT_BYTES, ""),
        ("store ", LONGEST_STORE, ""),
        ("step 41 ", WIDEST_ROOM, ""),
        ("run 41 ", WIDEST_ROOM, ""),
        ("press 41 ", WIDEST_ROOM, ""),
        ("listnext 41 ", WIDEST_ROOM, ""),
        ("fieldtext 0 0 ", WIDEST_ROOM, ""),
        ("rowtext 0 1 ", WIDEST_ROOM, ""),
        ("field ", FARTHEST, ""),
        ("fieldtext ", FARTHEST, " 0 0"),
        ("rowtext ", FARTHEST, " 0 0"),
        ("position ", FARTHEST, ""),
        ("place ", FARTHEST, " 0"),
        ("place 0 ", FARTHEST, ""),
    ] {
        let past = limit + 1;
        let script = format!("{start}{limit}{end}\n{start}{past}{end}\n");
        assert_eq!(trace_of(script.as_bytes()).1, Err(2), "{script}");
    }
}

#[test]
fn scripts_read_as_they_were_written() {
    for seed in 0..10 {
        let script = generate::script(seed, 300);
        let text = transcript::write_script(&script);
        let read: Option<Vec<_>> = String::from_utf8(text.clone())
            .expect("a script is plain text")
            .lines()
            .map(transcript::Line::parse)
            .collect();
        assert_eq!(read, Some(script.clone()));
        assert_eq!(
            transcript::trace(&script),
            Some(trace_of(&text).0.into_bytes())
        );
    }
}

#[test]
fn every_second_byte_of_an_escape_is_tried() {
    let script = conformance::script();
    assert_eq!(trace_of(&script).1, Ok(()));
    let text = String::from_utf8(script).expect("a script is plain text");
    for code in 0x00..=0x7F_u8 {
        assert!(text.contains(&format!("step {ESC:02x} 2000\nstep {code:02x} 2000\n")));
    }
}
