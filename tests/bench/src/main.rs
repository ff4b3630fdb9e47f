//! Times the proved terminal and the proved counter beside their peers, prints the tables, and writes them to the file that is named. It
//! fails if the proved terminal and the independent implementation differ, or the counter, the mending or the proposal and its plain loop, if a row
//! list makes a difference, or if a distant display shows another page.

mod peers;
mod sessions;
#[allow(dead_code)]
#[path = "../../independent/src/state.rs"]
mod state;
#[allow(dead_code)]
#[path = "../../independent/src/terminal.rs"]
mod terminal;
mod workloads;

use peers::{
    after, feed, floor_mended, floor_parts, floor_proposed, play, proved_mend, proved_parts, proved_propose, summed, Counter, Independent,
    Independent60, Libvterm, Listed, Mender, Page, Painter, Painting, Peer, Proved, Proved60, SendFloor, Sender, ShiftFloor, NARROW_REPLY,
    READ,
};
use sessions::{Traffic, SESSIONS};
use std::{
    fmt::Write,
    hint::black_box,
    process::{Command, ExitCode},
    time::Instant,
};
use workloads::{Change, Saved, Shifts, Stream, Workload, ALERTS, CHANGES, LISTED, SAVED, SENDS, SHIFTS, WORKLOADS};
use wy50::{judge_bytes, judge_spans, Answer, Mended, Personality, State, Store, Terminal, CELLS, LONGEST_REPLY};

const ROUNDS: usize = 5;
const SIZE: usize = 20_000_000;
const GROWTH: [usize; 3] = [1_000_000, 10_000_000, 100_000_000];
const COUNTED: [usize; 2] = [100_000, 300_000];
const CALLS: usize = 100_000;
const CALL_ROUNDS: usize = 50; // each is short
const SHIFT_COUNT: usize = 10_000;
const SHIFT_ROUNDS: usize = 50; // each is short
const SEND_TURNS: usize = 2_000;
const SEND_ROUNDS: usize = 50; // each is short
const ALERT_BYTES: usize = 1_000_000;
const ALERT_ROUNDS: usize = 50; // each is short
const LIST_SIZE: usize = 100_000;
const LIST_ROUNDS: usize = 50; // each is short
const STORE_CALLS: usize = 1_000;
const MEND_CALLS: usize = 200;
const MEND_ROUNDS: usize = 50; // each is short
const PAINT_CALLS: usize = 20;
const PAINT_ROUNDS: usize = 1000; // each is short

/// How many times as fast as the independent implementation a workload is to be, where that is more than once, and how many times what plain C
/// takes it may take, where that is more than 1.5. All targets are ratios of one run: another machine, or a busy one, shifts both sides.
const AHEAD: [(&str, f64); 2] = [("form", 3.0), ("edits", 2.5)];
const WITHIN: [(&str, f64); 1] = [("moves", 2.0)];
const STEP_WITHIN: f64 = 1.4;
const PRESS_WITHIN: f64 = 0.8;

/// Nanoseconds a byte, a row shift or a reply byte, where a peer has the workload.
struct Row {
    name: &'static str,
    proved: f64,
    independent: f64,
    libvterm: Option<f64>,
    floor: Option<f64>,
}

/// Nanoseconds a byte of an alert.
struct Counted {
    proved: f64,
    floor: f64,
}

/// Nanoseconds a cell of a page that is mended.
struct MendRow {
    name: &'static str,
    proved: f64,
    floor: f64,
}

/// Nanoseconds a cell of two pages: the proposal, the plain loop and the two judges; and how many spans and bytes are proposed.
struct PaintRow {
    name: &'static str,
    proved: f64,
    floor: f64,
    spans_judged: f64,
    bytes_judged: f64,
    counts: (usize, usize),
}

/// Nanoseconds a byte with a row list and without one.
struct ListRow {
    name: &'static str,
    with: f64,
    without: f64,
    independent: f64,
}

/// Nanoseconds a call, with the keys unprogrammed and with all of them full, and how many times the C sum over a state it may take.
struct Single {
    name: &'static str,
    within: Option<f64>,
    empty: f64,
    full: f64,
}

fn main() -> ExitCode {
    let Some(path) = std::env::args().nth(1) else {
        eprintln!(
            "bench FILE: the tables go to FILE\nbench --streams, --scrolls, --sends, --counts, --lists, --mends, \
             --repaints, --singles: these alone, printed"
        );
        return ExitCode::from(2);
    };
    if path == "--feed" {
        return fed_alone();
    }
    let (made, alone) = match path.as_str() {
        "--streams" => (streams_report(), true),
        "--scrolls" => (scrolls_report(), true),
        "--sends" => (sends_report(), true),
        "--counts" => (counts_report(), true),
        "--lists" => (lists_report(), true),
        "--mends" => (mends_report(), true),
        "--repaints" => (repaints_report(), true),
        "--singles" => (Ok(singles_report()), true),
        _ => (report(), false),
    };
    match made {
        Ok(text) => {
            print!("{text}");
            if !alone {
                std::fs::write(path, text).expect("the file can be written");
            }
            ExitCode::SUCCESS
        }
        Err(difference) => {
            eprintln!("bench: {difference}");
            ExitCode::FAILURE
        }
    }
}

fn report() -> Result<String, String> {
    let rows = WORKLOADS.iter().map(row).collect::<Result<Vec<_>, _>>()?;
    let shifts = SHIFTS.iter().map(shift_row).collect::<Result<Vec<_>, _>>()?;
    let sends = send_row()?;
    let counted = counts()?;
    let lists = LISTED.iter().map(list_row).collect::<Result<Vec<_>, _>>()?;
    let mends = SAVED.iter().map(mend_row).collect::<Result<Vec<_>, _>>()?;
    let paints = CHANGES.iter().map(paint_row).collect::<Result<Vec<_>, _>>()?;
    let traffic = SESSIONS.iter().map(|session| session.traffic()).collect::<Result<Vec<_>, _>>()?;
    let growth = WORKLOADS.each_ref().map(grown);
    let counts_of = WORKLOADS.each_ref().map(instructions);
    let singles = singles();
    let mut out = String::new();
    introduction(&mut out);
    peers_table(&mut out, &rows);
    shifts_table(&mut out, &shifts);
    sends_table(&mut out, &sends);
    counts_table(&mut out, &counted);
    lists_table(&mut out, &lists);
    mends_table(&mut out, &mends);
    repaints_table(&mut out, &paints, &traffic);
    growth_table(&mut out, &growth, &counts_of);
    singles_table(&mut out, &singles);
    targets(&mut out, &rows, &shifts, &[sends], &singles, &[counted], &lists, &paints);
    Ok(out)
}

fn singles() -> [Single; 6] {
    [
        sum(),
        single("step", Some(STEP_WITHIN), Terminal::new(), step),
        single("step with a row list", None, Terminal::new().with_row_list(), step),
        single("press", Some(PRESS_WITHIN), Terminal::new(), press),
        kept("save, with eight such set-ups kept", |store, terminal| assert!(store.save(terminal).is_ok())),
        kept("restore, with eight such set-ups kept", |store, terminal| {
            assert_eq!(store.restore(terminal, *store.numbers().start()), Ok(()))
        }),
    ]
}

fn streams_report() -> Result<String, String> {
    let rows = WORKLOADS.iter().map(row).collect::<Result<Vec<_>, _>>()?;
    let mut out = String::new();
    peers_table(&mut out, &rows);
    targets(&mut out, &rows, &[], &[], &[], &[], &[], &[]);
    Ok(out)
}

fn singles_report() -> String {
    let singles = singles();
    let mut out = String::new();
    singles_table(&mut out, &singles);
    targets(&mut out, &[], &[], &[], &singles, &[], &[], &[]);
    out
}

fn scrolls_report() -> Result<String, String> {
    let shifts = SHIFTS.iter().map(shift_row).collect::<Result<Vec<_>, _>>()?;
    let mut out = String::new();
    shifts_table(&mut out, &shifts);
    targets(&mut out, &[], &shifts, &[], &[], &[], &[], &[]);
    Ok(out)
}

fn sends_report() -> Result<String, String> {
    let sends = send_row()?;
    let mut out = String::new();
    sends_table(&mut out, &sends);
    targets(&mut out, &[], &[], &[sends], &[], &[], &[], &[]);
    Ok(out)
}

fn counts_report() -> Result<String, String> {
    let counted = counts()?;
    let mut out = String::new();
    counts_table(&mut out, &counted);
    targets(&mut out, &[], &[], &[], &[], &[counted], &[], &[]);
    Ok(out)
}

fn lists_report() -> Result<String, String> {
    let lists = LISTED.iter().map(list_row).collect::<Result<Vec<_>, _>>()?;
    let mut out = String::new();
    lists_table(&mut out, &lists);
    targets(&mut out, &[], &[], &[], &[], &[], &lists, &[]);
    Ok(out)
}

fn mends_report() -> Result<String, String> {
    let mends = SAVED.iter().map(mend_row).collect::<Result<Vec<_>, _>>()?;
    let mut out = String::new();
    mends_table(&mut out, &mends);
    Ok(out)
}

fn repaints_report() -> Result<String, String> {
    let paints = CHANGES.iter().map(paint_row).collect::<Result<Vec<_>, _>>()?;
    let traffic = SESSIONS.iter().map(|session| session.traffic()).collect::<Result<Vec<_>, _>>()?;
    let mut out = String::new();
    repaints_table(&mut out, &paints, &traffic);
    targets(&mut out, &[], &[], &[], &[], &[], &[], &paints);
    Ok(out)
}

/// The proved terminal and the independent implementation, of the workload's personality.
fn players(workload: &Workload) -> (fn(&[u8]) -> Page, fn(&[u8]) -> Page) {
    if workload.wy60 {
        (play::<Proved60>, play::<Independent60>)
    } else {
        (play::<Proved>, play::<Independent>)
    }
}

/// One workload on every terminal that has it, the terminals taking turns.
fn row(workload: &Workload) -> Result<Row, String> {
    let stream = workload.stream(SIZE);
    let name = workload.name;
    if let Some(difference) = peers::difference(&stream.wy50, workload.wy60) {
        return Err(format!("{name}: {difference}"));
    }
    let (ours, theirs) = players(workload);
    let page = theirs(&stream.wy50);
    if workload.floor.is_some_and(|floor| floor(&stream.wy50) != page) {
        return Err(format!("{name}: the floor's page differs"));
    }
    if workload.translated && shown(&play::<Libvterm>(&stream.ansi)) != shown(&page) {
        return Err(format!("{name}: libvterm's page differs"));
    }
    let (mut proved, mut independent, mut libvterm, mut floor) = (f64::MAX, f64::MAX, f64::MAX, f64::MAX);
    for _ in 0..ROUNDS {
        best(&mut proved, &stream.wy50, ours, &page)?;
        best(&mut independent, &stream.wy50, theirs, &page)?;
        if workload.translated {
            libvterm = libvterm.min(timed(&stream.ansi, play::<Libvterm>).0);
        }
        if let Some(plain) = workload.floor {
            floor = floor.min(timed(&stream.wy50, plain).0);
        }
    }
    Ok(Row { name, proved, independent, libvterm: workload.translated.then_some(libvterm), floor: workload.floor.map(|_| floor) })
}

/// Row shifts on every terminal, the terminals taking turns.
fn shift_row(shifts: &Shifts) -> Result<Row, String> {
    let (drawn, stream) = (shifts.drawn(), shifts.shifts(SHIFT_COUNT));
    let name = shifts.name;
    let whole = [&drawn.wy50[..], &stream.wy50].concat();
    if let Some(difference) = peers::difference(&whole, false) {
        return Err(format!("{name}: {difference}"));
    }
    let start = play::<Independent>(&drawn.wy50);
    let page = play::<Independent>(&whole);
    let (mut proved, mut independent, mut libvterm, mut floor) = (f64::MAX, f64::MAX, f64::MAX, f64::MAX);
    for _ in 0..SHIFT_ROUNDS {
        let differs = |peer: &str| format!("{name}: the page of {peer} differs");
        if best_shifts(&mut proved, after::<Proved>(&drawn.wy50), &stream.wy50) != page {
            return Err(differs("the proved terminal"));
        }
        if best_shifts(&mut independent, after::<Independent>(&drawn.wy50), &stream.wy50) != page {
            return Err(differs("the independent implementation"));
        }
        if shown(&best_shifts(&mut libvterm, after::<Libvterm>(&drawn.ansi), &stream.ansi)) != shown(&page) {
            return Err(differs("libvterm"));
        }
        if best_shifts(&mut floor, ShiftFloor::new(start, shifts.rows.clone(), shifts.row), &stream.wy50) != page {
            return Err(differs("the floor"));
        }
    }
    Ok(Row { name, proved, independent, libvterm: Some(libvterm), floor: Some(floor) })
}

fn best_shifts(least: &mut f64, mut peer: impl Peer, stream: &[u8]) -> Page {
    let start = Instant::now();
    feed(&mut peer, black_box(stream));
    *least = least.min(start.elapsed().as_nanos() as f64 / SHIFT_COUNT as f64);
    peer.page()
}

/// Sends on every terminal that has them, the terminals taking turns.
fn send_row() -> Result<Row, String> {
    let drawn = SENDS.drawn();
    if let Some(difference) = peers::difference(&[&drawn[..], &SENDS.asked.repeat(SEND_TURNS)].concat(), false) {
        return Err(format!("{}: {difference}", SENDS.name));
    }
    let (mut ours, mut theirs) = (after::<Proved>(&drawn), after::<Independent>(&drawn));
    let mut plain = SendFloor::new(theirs.page());
    let expected = theirs.reply_to(SENDS.asked).to_vec();
    same_reply("the proved terminal", &mut ours, &expected)?;
    same_reply("the floor", &mut plain, &expected)?;
    let (mut proved, mut independent, mut floor) = (f64::MAX, f64::MAX, f64::MAX);
    for _ in 0..SEND_ROUNDS {
        proved = proved.min(timed_sends(&mut ours));
        independent = independent.min(timed_sends(&mut theirs));
        floor = floor.min(timed_sends(&mut plain));
    }
    same_reply("the proved terminal", &mut ours, &expected)?;
    same_reply("the independent implementation", &mut theirs, &expected)?;
    same_reply("the floor", &mut plain, &expected)?;
    Ok(Row { name: SENDS.name, proved, independent, libvterm: None, floor: Some(floor) })
}

fn same_reply(who: &str, sender: &mut impl Sender, expected: &[u8]) -> Result<(), String> {
    let reply = sender.reply_to(SENDS.asked);
    if reply == expected {
        return Ok(());
    }
    let same = reply.iter().zip(expected).take_while(|(a, b)| a == b).count();
    Err(format!("{}: the reply of {who} differs from byte {same} on", SENDS.name))
}

fn timed_sends(sender: &mut impl Sender) -> f64 {
    let start = Instant::now();
    let replied: usize = (0..SEND_TURNS).map(|_| black_box(sender.reply_to(black_box(SENDS.asked))).len()).sum();
    start.elapsed().as_nanos() as f64 / replied as f64
}

/// Counts of alerts, the counters taking turns.
fn counts() -> Result<Counted, String> {
    let texts = ALERTS.texts(ALERT_BYTES);
    if let Some(place) = texts.iter().position(|text| proved_parts(text) != floor_parts(text)) {
        return Err(format!("{}: the parts of text {place} differ", ALERTS.name));
    }
    let (mut proved, mut floor) = (f64::MAX, f64::MAX);
    for _ in 0..ALERT_ROUNDS {
        proved = proved.min(timed_counts(&texts, proved_parts));
        floor = floor.min(timed_counts(&texts, floor_parts));
    }
    Ok(Counted { proved, floor })
}

fn timed_counts(texts: &[Vec<u8>], parts: Counter) -> f64 {
    let start = Instant::now();
    for text in texts {
        black_box(parts(black_box(text)));
    }
    start.elapsed().as_nanos() as f64 / texts.iter().map(Vec::len).sum::<usize>() as f64
}

/// One workload with a row list and without one, by turns.
fn list_row(workload: &Workload) -> Result<ListRow, String> {
    let stream = workload.stream(LIST_SIZE).wy50;
    let name = workload.name;
    if let Some(difference) = peers::difference(&stream, false).or_else(|| peers::list_difference(&stream)) {
        return Err(format!("{name}: {difference}"));
    }
    let page = play::<Independent>(&stream);
    let (mut with, mut without, mut independent) = (f64::MAX, f64::MAX, f64::MAX);
    for _ in 0..LIST_ROUNDS {
        best(&mut with, &stream, play::<Listed>, &page)?;
        best(&mut without, &stream, play::<Proved>, &page)?;
        best(&mut independent, &stream, play::<Independent>, &page)?;
    }
    Ok(ListRow { name, with, without, independent })
}

/// Mendings of one page, the menders taking turns.
fn mend_row(saved: &Saved) -> Result<MendRow, String> {
    let page = saved.page();
    let name = saved.name;
    let [ours, plain] = [proved_mend, floor_mended].map(|mend: Mender| {
        let (mut page, mut list) = (page, [Mended::default(); CELLS]);
        let count = mend(&mut page, &mut list);
        (count, page, list)
    });
    if ours != plain {
        return Err(format!("{name}: the mended pages or their lists differ"));
    }
    let (mut proved, mut floor) = (f64::MAX, f64::MAX);
    for _ in 0..MEND_ROUNDS {
        proved = proved.min(timed_mends(&page, proved_mend));
        floor = floor.min(timed_mends(&page, floor_mended));
    }
    Ok(MendRow { name, proved, floor })
}

fn timed_mends(page: &Page, mend: Mender) -> f64 {
    let mut list = [Mended::default(); CELLS];
    let start = Instant::now();
    for _ in 0..MEND_CALLS {
        let mut page = *black_box(page);
        mend(&mut page, &mut list);
        black_box((&page, &list));
    }
    start.elapsed().as_nanos() as f64 / (MEND_CALLS * CELLS) as f64
}

/// Paintings from one page to another, the peers taking turns; and both judges over what is proposed.
fn paint_row(change: &Change) -> Result<PaintRow, String> {
    let pages = change.pages();
    let name = change.name;
    let [ours, plain] = [proved_propose, floor_proposed].map(|paint: Painter| {
        let mut painting = Painting::default();
        paint(&pages, &mut painting);
        painting
    });
    if ours.counts != plain.counts || ours.spans != plain.spans || ours.bytes != plain.bytes {
        return Err(format!("{name}: the spans or the bytes differ"));
    }
    let [before, after] = &pages;
    let (spans, bytes) = (&ours.spans[..ours.counts.0], &ours.bytes[..ours.counts.1]);
    let (mut proved, mut floor, mut spans_judged, mut bytes_judged) = (f64::MAX, f64::MAX, f64::MAX, f64::MAX);
    let mut painting = Painting::default();
    for _ in 0..PAINT_ROUNDS {
        proved = proved.min(timed_cells(|| proved_propose(black_box(&pages), black_box(&mut painting))));
        floor = floor.min(timed_cells(|| floor_proposed(black_box(&pages), black_box(&mut painting))));
        spans_judged = spans_judged.min(timed_cells(|| assert!(judge_spans(black_box(before), after, black_box(spans)).is_ok())));
        bytes_judged =
            bytes_judged.min(timed_cells(|| assert!(judge_bytes(black_box(before), after, Personality::Wy60, black_box(bytes)).is_ok())));
    }
    Ok(PaintRow { name, proved, floor, spans_judged, bytes_judged, counts: ours.counts })
}

fn timed_cells(mut call: impl FnMut()) -> f64 {
    let start = Instant::now();
    (0..PAINT_CALLS).for_each(|_| call());
    start.elapsed().as_nanos() as f64 / (PAINT_CALLS * CELLS) as f64
}

fn timed(stream: &[u8], play: fn(&[u8]) -> Page) -> (f64, Page) {
    let start = Instant::now();
    let page = play(black_box(stream));
    (start.elapsed().as_nanos() as f64 / stream.len() as f64, page)
}

fn best(least: &mut f64, stream: &[u8], play: fn(&[u8]) -> Page, expected: &Page) -> Result<(), String> {
    let (time, page) = timed(stream, play);
    if page != *expected {
        return Err("a page differs from the independent implementation's".to_string());
    }
    *least = least.min(time);
    Ok(())
}

/// The proved terminal alone, on a workload of each size.
fn grown(workload: &Workload) -> [f64; 3] {
    let stream = workload.stream(GROWTH[2]).wy50;
    let (ours, _) = players(workload);
    GROWTH.map(|size| {
        let turns = ROUNDS * (GROWTH[1] / size).max(1); // a short one is easily disturbed
        (0..turns).fold(f64::MAX, |least, _| least.min(timed(&stream[..size], ours).0))
    })
}

/// Instructions a byte of the proved terminal, by valgrind, where there is one: the difference between a short and a long part of one stream.
fn instructions(workload: &Workload) -> Option<f64> {
    let [few, many] = COUNTED.map(|size| collected(workload.name, size));
    Some((many? - few?) / (COUNTED[1] - COUNTED[0]) as f64)
}

/// What this program takes to feed the proved terminal alone.
fn collected(name: &str, size: usize) -> Option<f64> {
    let program = std::env::current_exe().ok()?;
    let mut valgrind = Command::new("valgrind");
    valgrind.args(["--tool=callgrind", "--callgrind-out-file=/dev/null"]).arg(program).args(["--feed", name, &size.to_string()]);
    let said = valgrind.output().ok()?.stderr;
    String::from_utf8_lossy(&said).lines().find_map(|line| line.split_once("Collected : "))?.1.trim().parse().ok()
}

/// bench --feed NAME SIZE: so many bytes of a workload to the proved terminal, and nothing else.
fn fed_alone() -> ExitCode {
    let words: Vec<String> = std::env::args().skip(2).collect();
    let [name, size] = &words[..] else { return ExitCode::from(2) };
    let (Some(workload), Ok(size)) = (WORKLOADS.iter().find(|workload| workload.name == name), size.parse::<usize>()) else {
        return ExitCode::from(2);
    };
    let stream = workload.stream(COUNTED[1]).wy50;
    black_box(players(workload).0(&stream[..size.min(COUNTED[1])]));
    ExitCode::SUCCESS
}

/// The page as it looks: a cell without text is a space.
fn shown(page: &Page) -> Page {
    page.map(|cell| cell.max(u16::from(b' ')))
}

fn single(name: &'static str, within: Option<f64>, terminal: Terminal, calls: fn(&mut Terminal, &[u8])) -> Single {
    let Stream { wy50: text, .. } = WORKLOADS[0].stream(CALLS);
    let [empty, full] = [false, true].map(|full| {
        let mut terminal = terminal.clone();
        if full {
            fill_keys(&mut terminal);
        }
        (0..CALL_ROUNDS).fold(f64::MAX, |least, _| {
            let start = Instant::now();
            calls(&mut terminal, black_box(&text));
            least.min(start.elapsed().as_nanos() as f64 / text.len() as f64)
        })
    });
    Single { name, within, empty, full }
}

/// The sum over a state in plain C, as many times as there are single calls.
fn sum() -> Single {
    let [empty, full] = [0, 0x6573].map(|number| {
        let state = [number; std::mem::size_of::<State>() / 2];
        (0..CALL_ROUNDS).fold(f64::MAX, |least, _| {
            let start = Instant::now();
            for _ in 0..CALLS {
                black_box(summed(black_box(&state)));
            }
            least.min(start.elapsed().as_nanos() as f64 / CALLS as f64)
        })
    });
    Single { name: "C sum over a state", within: None, empty, full }
}

fn fill_keys(terminal: &mut Terminal) {
    for key in (0x40..0x50).chain(0x60..0x70) {
        let program = [0x1b, b'z', key, b'e', b's', b'p', b'r', b'e', b's', b's', b'o', 0x7f];
        let fed = terminal.feed(&program, &mut []);
        assert_eq!((fed.answer, fed.refused), (Answer::Done, 0));
    }
}

fn kept(name: &'static str, call: fn(&mut Store, &mut Terminal)) -> Single {
    let [empty, full] = [false, true].map(|full| {
        let mut terminal = Terminal::new();
        if full {
            fill_keys(&mut terminal);
        }
        let mut store = Store::new();
        for _ in 0..8 {
            assert!(store.save(&terminal).is_ok());
        }
        (0..ROUNDS).fold(f64::MAX, |least, _| {
            let start = Instant::now();
            for _ in 0..STORE_CALLS {
                call(black_box(&mut store), &mut terminal);
            }
            least.min(start.elapsed().as_nanos() as f64 / STORE_CALLS as f64)
        })
    });
    Single { name, within: None, empty, full }
}

fn step(terminal: &mut Terminal, bytes: &[u8]) {
    let mut reply = [0; LONGEST_REPLY];
    for &byte in bytes {
        assert_eq!(terminal.step(byte, &mut reply).answer, Answer::Done);
    }
}

/// As many presses as there are bytes.
fn press(terminal: &mut Terminal, bytes: &[u8]) {
    let mut reply = [0; LONGEST_REPLY];
    for &byte in bytes {
        assert_eq!(terminal.press(0x40 | (byte & 0x2f), &mut reply).answer, Answer::Done);
    }
}

macro_rules! line {
    ($out:expr) => { $out.push('\n') };
    ($out:expr, $($words:tt)*) => { writeln!($out, $($words)*).expect("a string takes it") };
}

/// A paragraph and an empty line.
macro_rules! paragraph {
    ($out:expr, $($words:tt)*) => { filled($out, "", &format!($($words)*)); line!($out) };
}

/// The items of a list, each a name and what it is, and an empty line.
fn items(out: &mut String, items: impl Iterator<Item = (&'static str, &'static str)>) {
    items.for_each(|(name, what)| filled(out, "- ", &format!("{name}: {what}")));
    line!(out);
}

/// Words in lines of at most 120 columns, below one another after what leads them.
fn filled(out: &mut String, lead: &str, words: &str) {
    let mut column = 120;
    for (place, word) in words.split(' ').enumerate() {
        if column + 1 + word.len() > 120 {
            let _ = match place {
                0 => write!(out, "{lead}"),
                _ => write!(out, "\n{:1$}", "", lead.len()),
            };
            column = lead.len();
        } else {
            out.push(' ');
            column += 1;
        }
        out.push_str(word);
        column += word.len();
    }
    line!(out);
}

fn introduction(out: &mut String) {
    line!(out, "# Benchmarks");
    line!(out);
    paragraph!(
        out,
        "Written by `make bench` (`tests/README.md`): one run on one machine, the terminals taking turns, the best of {ROUNDS}. The bars are \
         drawn from the tables."
    );
    let rows = [
        ("date", said("date", &["+%Y-%m-%d"])),
        ("machine", machine()),
        ("proved", "`rt lib` in `crates/wy50`: LLVM at -O3 for x86-64, called through `rust/wy50`".to_string()),
        ("independent", format!("`tests/independent`, {}, opt-level 3", said("rustc", &["--version"]))),
        (
            "libvterm",
            format!("{}, with its screen layer, damage merged by scrolls", said("dpkg-query", &["-W", "-f", "${Version}", "libvterm-dev"])),
        ),
        ("C floor", format!("`tests/bench/floor.c`, {}, -O3", said("cc", &["--version"]))),
        ("fed", format!("reads of {READ} bytes, a reply room of {READ}")),
        ("memory", format!("a page of {} bytes and a state of {} bytes, nothing allocated", 2 * CELLS, std::mem::size_of::<State>())),
    ];
    line!(out, "| | |");
    line!(out, "|---|---|");
    for (name, what) in rows {
        line!(out, "| {name} | {what} |");
    }
    line!(out);
}

fn peers_table(out: &mut String, rows: &[Row]) {
    line!(out, "## Beside its peers");
    line!(out);
    paragraph!(out, "Nanoseconds a host byte, and in brackets how many times the proved terminal's that is. {} MB each:", SIZE / 1_000_000);
    items(out, WORKLOADS.iter().map(|workload| (workload.name, workload.what)));
    line!(out, "| workload | proved | independent | libvterm | C floor |");
    line!(out, "|---|---|---|---|---|");
    for row in rows {
        peers_row(out, row, 2);
    }
    line!(out);
    line!(out, "![Nanoseconds a host byte, as bars](pictures/peers.svg)");
    line!(out);
    paragraph!(
        out,
        "libvterm has the first two in its own sequences, and a byte is one of those; it has no protected fields and no split page. The C \
         floor is a plain loop over the bytes of that one workload. At the end all pages of a workload are the same."
    );
}

fn shifts_table(out: &mut String, rows: &[Row]) {
    line!(out, "## Scrolls");
    line!(out);
    paragraph!(
        out,
        "Nanoseconds a row shift, and in brackets how many times the proved terminal's that is. {SHIFT_COUNT} each, the best of \
         {SHIFT_ROUNDS}:"
    );
    items(out, SHIFTS.iter().map(|shifts| (shifts.name, shifts.what)));
    line!(out, "| row shift | proved | independent | libvterm | C with `memmove` |");
    line!(out, "|---|---|---|---|---|");
    for row in rows {
        peers_row(out, row, 0);
    }
    line!(out);
    paragraph!(
        out,
        "libvterm has them by its own sequences, in a scrolling region where the page is split. At the end all pages are the same."
    );
}

fn sends_table(out: &mut String, row: &Row) {
    line!(out, "## Sends");
    line!(out);
    paragraph!(
        out,
        "Nanoseconds a reply byte, and in brackets how many times the proved terminal's that is. {} sends, the best of {SEND_ROUNDS}:",
        2 * SEND_TURNS
    );
    items(out, std::iter::once((SENDS.name, SENDS.what)));
    line!(out, "| workload | proved | independent | libvterm | C loop over the cells |");
    line!(out, "|---|---|---|---|---|");
    peers_row(out, row, 2);
    line!(out);
    paragraph!(
        out,
        "A read asks for one of each, and their replies are taken before the next; ESC 7 replies {NARROW_REPLY} bytes, the most there are. \
         libvterm does not send its page. All replies are the same, byte by byte."
    );
}

fn counts_table(out: &mut String, counted: &Counted) {
    line!(out, "## Counts");
    line!(out);
    paragraph!(
        out,
        "Nanoseconds a byte of an alert, and in brackets how many times the proved counter's that is. {} MB, the best of {ALERT_ROUNDS}:",
        ALERT_BYTES / 1_000_000
    );
    items(out, std::iter::once((ALERTS.name, ALERTS.what)));
    line!(out, "| workload | proved | C loop over the bytes |");
    line!(out, "|---|---|---|");
    line!(out, "| {} | {:.2} | {:.2} ({:.2}) |", ALERTS.name, counted.proved, counted.floor, counted.floor / counted.proved);
    line!(out);
    paragraph!(out, "All parts are the same, text by text.");
}

fn lists_table(out: &mut String, rows: &[ListRow]) {
    line!(out, "## Row lists");
    line!(out);
    paragraph!(
        out,
        "Nanoseconds a host byte of the proved terminal with a row list and without one, and in brackets how many times the first that is. \
         {} KB each, the best of {LIST_ROUNDS}:",
        LIST_SIZE / 1_000
    );
    items(out, LISTED.iter().map(|workload| (workload.name, workload.what)));
    line!(out, "| workload | with | without | independent |");
    line!(out, "|---|---|---|---|");
    for row in rows {
        let beside = |time: f64| format!("{time:.2} ({:.2})", time / row.with);
        line!(out, "| {} | {:.2} | {} | {} |", row.name, row.with, beside(row.without), beside(row.independent));
    }
    line!(out);
    paragraph!(
        out,
        "Counts, replies, pages and states are the same with a list and without one, and the list is the page's after every read."
    );
}

fn mends_table(out: &mut String, rows: &[MendRow]) {
    line!(out, "## Mending");
    line!(out);
    paragraph!(
        out,
        "Nanoseconds a cell of a saved page of {CELLS}, and in brackets how many times the proved call's that is. {MEND_CALLS} each, the best \
         of {MEND_ROUNDS}:"
    );
    items(out, SAVED.iter().map(|saved| (saved.name, saved.what)));
    line!(out, "| page | proved | C loop over the cells |");
    line!(out, "|---|---|---|");
    for row in rows {
        line!(out, "| {} | {:.2} | {:.2} ({:.2}) |", row.name, row.proved, row.floor, row.floor / row.proved);
    }
    line!(out);
    paragraph!(
        out,
        "Pages and lists are the same, number by number. The C loop reads the page once, since its list is long enough; the call counts first."
    );
}

fn repaints_table(out: &mut String, rows: &[PaintRow], traffic: &[Traffic]) {
    line!(out, "## Repainting");
    line!(out);
    paragraph!(
        out,
        "Nanoseconds a cell of two narrow pages of a WY-60, and in brackets how many times the proposal's that is. {PAINT_CALLS} each, the \
         best of {PAINT_ROUNDS}:"
    );
    items(out, CHANGES.iter().map(|change| (change.name, change.what)));
    line!(out, "| pages | spans | bytes | proposal | C loop over the cells | judge of spans | judge of bytes |");
    line!(out, "|---|---|---|---|---|---|---|");
    for row in rows {
        let beside = |time: f64| format!("{time:.2} ({:.2})", time / row.proved);
        line!(
            out,
            "| {} | {} | {} | {:.2} | {} | {} | {} |",
            row.name,
            row.counts.0,
            row.counts.1,
            row.proved,
            beside(row.floor),
            beside(row.spans_judged),
            beside(row.bytes_judged)
        );
    }
    line!(out);
    paragraph!(
        out,
        "Spans and bytes are the same, number by number. The C loop writes into its rooms at once, since they are long enough; the call makes \
         spans and bytes beside the rooms first. The judge of bytes feeds them to a terminal."
    );
    paragraph!(out, "Instructions a cell, which a busy machine does not change, counted by valgrind (`tests/bench/instructions`):");
    line!(out, "| pages | proposal | C loop over the cells | judge of spans | judge of bytes |");
    line!(out, "|---|---|---|---|---|");
    out.push_str(&counted_instructions());
    line!(out);
    paragraph!(
        out,
        "What a distant display is sent to follow a session, in bytes, painted where the host went quiet; its page is compared each time:"
    );
    items(out, SESSIONS.iter().map(|session| (session.name, session.what)));
    line!(out, "| session | host | pages | served | as proposed | whole | the shorter of both |");
    line!(out, "|---|---|---|---|---|---|---|");
    for (session, t) in SESSIONS.iter().zip(traffic) {
        line!(out, "| {} | {} | {} | {} | {} | {} | {} |", session.name, t.host, t.pages, t.served, t.proposed, t.whole, t.shorter);
    }
    line!(out);
    paragraph!(
        out,
        "Whole: the page cleared, and each cell written that is not blank then. A page that is not served counts as whole under as proposed. \
         Before each painting a WY-60 is told ESC G 30h, which is counted. `examples/repaint.c` sends the shorter of both."
    );
}

/// A row of the first three tables, its times with so many digits after the point.
fn peers_row(out: &mut String, row: &Row, digits: usize) {
    let beside = |time: Option<f64>| time.map_or("-".to_string(), |time| format!("{time:.digits$} ({:.2})", time / row.proved));
    line!(
        out,
        "| {} | {:.digits$} | {} | {} | {} |",
        row.name,
        row.proved,
        beside(Some(row.independent)),
        beside(row.libvterm),
        beside(row.floor)
    );
}

fn growth_table(out: &mut String, growth: &[[f64; 3]], counts: &[Option<f64>]) {
    line!(out, "## As the input grows");
    line!(out);
    paragraph!(out, "Nanoseconds a host byte of the proved terminal, and instructions a byte, counted by valgrind.");
    line!(out, "| workload | {} | instructions |", GROWTH.map(|size| format!("{} MB", size / 1_000_000)).join(" | "));
    line!(out, "|---|---|---|---|---|");
    for ((workload, times), count) in WORKLOADS.iter().zip(growth).zip(counts) {
        let count = count.map_or("-".to_string(), |count| format!("{count:.1}"));
        line!(out, "| {} | {} | {count} |", workload.name, times.map(|time| format!("{time:.2}")).join(" | "));
    }
    line!(out);
    line!(out, "![Nanoseconds a host byte as the input grows, as bars](pictures/growth.svg)");
    line!(out);
}

fn singles_table(out: &mut String, singles: &[Single]) {
    line!(out, "## Single calls");
    line!(out);
    paragraph!(
        out,
        "Nanoseconds a call, the best of {CALL_ROUNDS}, of saves and restores the best of {ROUNDS}. Each checks the whole state, the 32 keys too, \
         and its row list if it has one; the C sum is a plain loop over the numbers of a state. A save or a restore runs all eight set-ups \
         through a terminal."
    );
    line!(out, "| call | no key programmed | every key full |");
    line!(out, "|---|---|---|");
    for single in singles {
        line!(out, "| {} | {:.0} | {:.0} |", single.name, single.empty, single.full);
    }
    line!(out);
}

#[allow(clippy::too_many_arguments)]
fn targets(
    out: &mut String,
    rows: &[Row],
    shifts: &[Row],
    sends: &[Row],
    singles: &[Single],
    counts: &[Counted],
    lists: &[ListRow],
    paints: &[PaintRow],
) {
    line!(out, "## Targets");
    line!(out);
    paragraph!(out, "Each is a ratio of times of this run, so that it says the same on another machine.");
    line!(out, "| target | measured | |");
    line!(out, "|---|---|---|");
    let mut target =
        |what: &str, measured: String, met: bool| line!(out, "| {what} | {measured} | {} |", if met { "met" } else { "missed" });
    let most = |row: &Row| WITHIN.iter().find(|(name, _)| *name == row.name).map_or(1.5, |(_, most)| *most);
    let bytes = rows.iter().map(|row| (row, most(row), "the C floor"));
    let shifts = shifts.iter().map(|row| (row, 2.0, "C with memmove"));
    let sends = sends.iter().map(|row| (row, 2.0, "the C loop"));
    for (row, most, floor) in bytes.chain(shifts).chain(sends) {
        if let Some(time) = row.libvterm {
            let ratio = time / row.proved;
            target(&format!("{}: at least 3 times as fast as libvterm", row.name), format!("{ratio:.1}"), ratio >= 3.0);
        }
        if let Some(time) = row.floor {
            let ratio = row.proved / time;
            target(&format!("{}: within {most} times {floor}", row.name), format!("{ratio:.2}"), ratio <= most);
        }
        let ratio = row.independent / row.proved;
        match AHEAD.iter().find(|(name, _)| *name == row.name) {
            Some((name, least)) => target(
                &format!("{name}: at least {least} times as fast as the independent implementation"),
                format!("{ratio:.2}"),
                ratio >= *least,
            ),
            None => target(&format!("{}: no slower than the independent implementation", row.name), format!("{ratio:.2}"), ratio >= 1.0),
        }
    }
    for counted in counts {
        let ratio = counted.proved / counted.floor;
        target(&format!("{}: within 2 times the C loop", ALERTS.name), format!("{ratio:.2}"), ratio <= 2.0);
    }
    for row in lists {
        let ratio = row.without / row.with;
        target(&format!("{}: faster with a row list than without", row.name), format!("{ratio:.2}"), ratio > 1.0);
    }
    for row in paints {
        let ratio = row.proved / row.floor;
        target(&format!("{}: a proposal within 2 times the C loop", row.name), format!("{ratio:.2}"), ratio <= 2.0);
    }
    for single in singles {
        if let Some(most) = single.within {
            let ratio = single.full / singles[0].full;
            target(&format!("{}: within {most} times the C sum over a state", single.name), format!("{ratio:.2}"), ratio <= most);
        }
    }
}

fn machine() -> String {
    let cpus = std::fs::read_to_string("/proc/cpuinfo").unwrap_or_default();
    let model = cpus.lines().find_map(|line| line.strip_prefix("model name")).map_or("", |rest| rest.trim_start_matches([' ', '\t', ':']));
    format!("{model}, {} processors, {}", cpus.lines().filter(|line| line.starts_with("processor")).count(), said("uname", &["-sm"]))
}

/// The rows of tests/bench/instructions; one that says that they are not counted where it cannot.
fn counted_instructions() -> String {
    let output = Command::new("tests/bench/instructions").output().ok().filter(|output| output.status.success());
    output.map_or("| not counted | | | | |\n".to_string(), |output| String::from_utf8_lossy(&output.stdout).into_owned())
}

/// The first line that a command says.
fn said(command: &str, words: &[&str]) -> String {
    let output = Command::new(command).args(words).output().map(|output| output.stdout).unwrap_or_default();
    String::from_utf8_lossy(&output).lines().next().unwrap_or("unknown").to_string()
}
