//! The host streams that are timed. Each is made of rounds, from a seed that does not change.

use crate::peers::{play, Floor, Page, Proved60};
use std::ops::Range;
use wy50::{COLUMNS, ROWS};

/// The same rounds for the WY-50 and, where libvterm has them, in its own sequences.
#[derive(Default)]
pub struct Stream {
    pub wy50: Vec<u8>,
    pub ansi: Vec<u8>,
}

pub struct Workload {
    pub name: &'static str,
    pub what: &'static str,
    /// libvterm has it.
    pub translated: bool,
    /// Plain C, where there is a floor of it.
    pub floor: Option<fn(&[u8]) -> Page>,
    /// It is for a WY-60.
    pub wy60: bool,
    start: fn(&mut Writer),
    round: fn(&mut Writer),
}

pub const WORKLOADS: [Workload; 7] = [
    Workload {
        name: "text",
        what: "lines of 20 to 79 characters, which scroll",
        translated: true,
        floor: Some(play::<Floor<0>>),
        wy60: false,
        start: nothing,
        round: line,
    },
    Workload { name: "addressed", what: "ESC = and 4 to 40 characters", translated: true, floor: None, wy60: false, start: nothing, round: addressed },
    Workload {
        name: "form",
        what: "a protected form with 16 fields of 24 cells: each filled with 4 to 22 characters and left by 09h, all asked with ESC 5",
        translated: false,
        floor: None,
        wy60: false,
        start: draw_form,
        round: fill_form,
    },
    Workload {
        name: "edits",
        what: "ESC =, then an edit (ESC Q W E R), a clear (ESC T Y t y ; :), a split (ESC x) or the other segment (ESC J), and 4 to 20 characters",
        translated: false,
        floor: None,
        wy60: false,
        start: nothing,
        round: edit,
    },
    Workload {
        name: "attributes",
        what: "on a WY-60: lines of four words of 3 to 18 characters, which scroll, ESC G and an attribute before each word",
        translated: false,
        floor: None,
        wy60: true,
        start: nothing,
        round: attributed,
    },
    Workload {
        name: "insert",
        what: "in insert mode: lines of 20 to 79 characters, which scroll",
        translated: false,
        floor: Some(play::<Floor<1>>),
        wy60: false,
        start: insert_on,
        round: line,
    },
    Workload {
        name: "moves",
        what: "any of 08h, 0Ah, 0Bh, 0Ch, 0Dh, 1Eh and 1Fh, and nothing else",
        translated: false,
        floor: Some(play::<Floor<2>>),
        wy60: false,
        start: nothing,
        round: moves,
    },
];

/// Workloads that are fed with a row list and without one.
pub const LISTED: [Workload; 2] = [
    Workload {
        name: "home",
        what: "1Eh on a protected page that is open only in its last cell",
        translated: false,
        floor: None,
        wy60: false,
        start: draw_closed,
        round: home,
    },
    Workload {
        name: "busy form",
        what: "a protected form of nine tenths labels, with a field of 24 cells in every third row: all filled to their ends, one after the other",
        translated: false,
        floor: None,
        wy60: false,
        start: draw_busy_form,
        round: fill_busy_form,
    },
];

impl Workload {
    /// Rounds of at least `size` bytes for the WY-50.
    pub fn stream(&self, size: usize) -> Stream {
        let mut writer = Writer::new();
        (self.start)(&mut writer);
        while writer.stream.wy50.len() < size {
            (self.round)(&mut writer);
        }
        writer.stream
    }
}

/// Row shifts on a page that is drawn first: rounds of ten shifts and one or two letters, so that pages that differ are seen.
pub struct Shifts {
    pub name: &'static str,
    pub what: &'static str,
    /// The rows of the segment, and the cursor's row.
    pub rows: Range<usize>,
    pub row: usize,
    round: fn(&mut Writer),
}

const SHIFTS_IN_A_ROUND: usize = 10;
const MIDDLE: usize = ROWS / 2;

pub const SHIFTS: [Shifts; 3] = [
    Shifts { name: "scrolls up", what: "0Ah on the last row", rows: 0..ROWS, row: ROWS - 1, round: scroll_up },
    Shifts { name: "scrolls down", what: "ESC j on the first row", rows: 0..ROWS, row: 0, round: scroll_down },
    Shifts {
        name: "row edits",
        what: "ESC E and ESC R, five of each by turns, on row 7 of a page that is split after row 12",
        rows: 0..MIDDLE,
        row: MIDDLE / 2,
        round: edit_rows,
    },
];

impl Shifts {
    /// A page full of text, split where the segment is not all of it, with the cursor at the start of its row.
    pub fn drawn(&self) -> Stream {
        let mut writer = Writer::new();
        for row in 0..ROWS {
            writer.address(row, 0);
            writer.text(COLUMNS - 1, COLUMNS - 1);
        }
        if self.rows.end < ROWS {
            writer.apart(&[0x1b, b'x', b'1', 0x20 + self.rows.end as u8], format!("\x1b[1;{}r", self.rows.end).as_bytes());
        }
        writer.address(self.row, 0);
        writer.stream
    }

    pub fn shifts(&self, count: usize) -> Stream {
        let mut writer = Writer::new();
        for _ in 0..count / SHIFTS_IN_A_ROUND {
            (self.round)(&mut writer);
        }
        writer.stream
    }
}

fn scroll_up(w: &mut Writer) {
    w.letter();
    w.both(&[b'\n'; SHIFTS_IN_A_ROUND]);
}

fn scroll_down(w: &mut Writer) {
    w.letter();
    for _ in 0..SHIFTS_IN_A_ROUND {
        w.apart(b"\x1bj", b"\x1bM");
    }
}

fn edit_rows(w: &mut Writer) {
    w.letter();
    for _ in 0..SHIFTS_IN_A_ROUND / 2 {
        w.apart(b"\x1bE", b"\x1b[L");
    }
    w.letter();
    for _ in 0..SHIFTS_IN_A_ROUND / 2 {
        w.apart(b"\x1bR", b"\x1b[M");
    }
}

/// Sends of a form that is drawn first.
pub struct Sends {
    pub name: &'static str,
    pub what: &'static str,
    /// A turn: what a read asks for.
    pub asked: &'static [u8],
}

pub const SENDS: Sends = Sends {
    name: "sends",
    what: "ESC 5 and ESC 7 by turns over a protected form: in each row two labels of 16 cells, each before a field with an attribute and 4 to \
           22 characters, and a label in the last cell of each row but the last, where the cursor stands",
    asked: b"\x1b5\x1b7",
};

impl Sends {
    /// The form, with protect mode on and the cursor in the last cell.
    pub fn drawn(&self) -> Vec<u8> {
        let mut writer = Writer::new();
        for row in 0..ROWS {
            for column in [0, COLUMNS / 2] {
                writer.address(row, column);
                writer.label(COLUMNS / 2 - FIELD_CELLS);
                writer.only(b"\x1bG8");
                writer.text(4, FIELD_CELLS - 2);
            }
            if row + 1 < ROWS {
                writer.address(row, COLUMNS - 1);
                writer.label(1);
            }
        }
        writer.only(b"\x1b&");
        writer.address(ROWS - 1, COLUMNS - 1);
        writer.stream.wy50
    }
}

/// Alerts that are counted.
pub struct Alerts {
    pub name: &'static str,
    pub what: &'static str,
}

pub const ALERTS: Alerts =
    Alerts { name: "counts", what: "texts of 20 to 600 characters, one in 32 of them of two units, and up to 40 trailing spaces" };

impl Alerts {
    /// Texts of at least `size` bytes in all.
    pub fn texts(&self, size: usize) -> Vec<Vec<u8>> {
        const TWO_UNITS: &[u8] = b"^{}\\[~]|";
        let mut writer = Writer::new();
        let (mut texts, mut total) = (Vec::new(), 0);
        while total < size {
            writer.text(20, 600);
            let mut text = std::mem::take(&mut writer.stream.wy50);
            for _ in 0..text.len() / 32 {
                let place = writer.random.below(text.len());
                text[place] = TWO_UNITS[writer.random.below(TWO_UNITS.len())];
            }
            text.resize(text.len() + writer.random.below(41), b' ');
            total += text.len();
            texts.push(text);
        }
        texts
    }
}

/// A page that is mended, of a WY-60.
pub struct Saved {
    pub name: &'static str,
    pub what: &'static str,
    noise: bool,
}

pub const SAVED: [Saved; 2] = [
    Saved { name: "clean", what: "lines of words with attributes, as a WY-60 leaves them: no cell to mend", noise: false },
    Saved { name: "noise", what: "any number in each cell: nine in ten to mend", noise: true },
];

impl Saved {
    pub fn page(&self) -> Page {
        let mut writer = Writer::new();
        if self.noise {
            return std::array::from_fn(|_| writer.random.below(65_536) as u16);
        }
        for _ in 0..ROWS {
            attributed(&mut writer);
        }
        play::<Proved60>(&writer.stream.wy50)
    }
}

/// Two pages that a display is brought from and to, of a WY-60.
pub struct Change {
    pub name: &'static str,
    pub what: &'static str,
    /// One cell of so many changes; none where it is 0.
    one_in: usize,
}

pub const CHANGES: [Change; 3] = [
    Change { name: "equal", what: "both of one text, any letter and attribute in each cell", one_in: 0 },
    Change { name: "scattered", what: "that text, and it with one cell in 48 changed", one_in: 48 },
    Change { name: "noise", what: "two such texts: nearly every cell differs, and its attribute from the one before", one_in: 1 },
];

impl Change {
    /// Their last cells are equal, as they must be.
    pub fn pages(&self) -> [Page; 2] {
        let mut random = Writer::new().random;
        let mut letter = || (random.from_to(0x20, 0x7e) + 1024 * random.below(31)) as u16;
        let before: Page = std::array::from_fn(|_| letter());
        let mut after = before;
        for cell in after.iter_mut().rev().skip(1).filter(|_| self.one_in > 0).step_by(self.one_in.max(1)) {
            *cell = letter();
        }
        [before, after]
    }
}

const FIRST_FIELD_ROW: usize = 4;
const FIELDS: usize = 16;
const FIELD_COLUMN: usize = 20;
const FIELD_CELLS: usize = 24;

fn nothing(_: &mut Writer) {}

fn line(w: &mut Writer) {
    w.text(20, 79);
    w.both(b"\r\n");
}

fn insert_on(w: &mut Writer) {
    w.only(b"\x1bq");
}

fn moves(w: &mut Writer) {
    const MOVES: &[u8] = b"\x08\x0a\x0b\x0c\x0d\x1e\x1f";
    for _ in 0..64 {
        let one = w.random.below(MOVES.len());
        w.only(&[MOVES[one]]);
    }
}

fn attributed(w: &mut Writer) {
    for _ in 0..4 {
        let flags = w.random.from_to(0, 30) as u8;
        w.only(&[0x1b, b'G', if flags < 16 { 0x30 + flags } else { 0x60 + flags }]);
        w.text(3, 18);
    }
    w.only(b"\r\n");
}

fn addressed(w: &mut Writer) {
    let length = w.random.from_to(4, 40);
    let (row, column) = (w.random.from_to(0, ROWS - 1), w.random.from_to(0, COLUMNS - 1 - length));
    w.address(row, column);
    w.text(length, length);
}

fn draw_form(w: &mut Writer) {
    draw_fields(w, FIRST_FIELD_ROW..FIRST_FIELD_ROW + FIELDS);
}

/// Labels, with a field in each of these rows, and protect mode on.
fn draw_fields(w: &mut Writer, rows: impl Iterator<Item = usize>) {
    w.only(b"\x1b)");
    for row in 0..ROWS {
        w.address(row, 0);
        w.text(COLUMNS - 1, COLUMNS - 1);
    }
    w.only(b"\x1b(");
    for row in rows {
        w.address(row, FIELD_COLUMN);
        w.only(&[b' '; FIELD_CELLS]);
    }
    w.only(b"\x1b&");
}

fn fill_form(w: &mut Writer) {
    w.only(b"\x1e");
    w.text(4, FIELD_CELLS - 2);
    for _ in 1..FIELDS {
        w.only(b"\t");
        w.text(4, FIELD_CELLS - 2);
    }
    w.only(b"\x1b5");
}

/// The whole page protected, but for its last cell.
fn draw_closed(w: &mut Writer) {
    w.only(b"\x1b,");
    w.address(ROWS - 1, COLUMNS - 1);
    w.only(b"\x1bT\x1b&");
}

fn home(w: &mut Writer) {
    w.only(b"\x1e");
}

fn busy_rows() -> impl Iterator<Item = usize> {
    (1..ROWS).step_by(3)
}

fn draw_busy_form(w: &mut Writer) {
    w.only(b"\x1b,");
    draw_fields(w, busy_rows());
}

fn fill_busy_form(w: &mut Writer) {
    w.only(b"\x1e");
    for _ in busy_rows() {
        w.text(FIELD_CELLS, FIELD_CELLS);
    }
}

fn edit(w: &mut Writer) {
    const SIMPLE: &[u8] = b"QWERQWERTYty;:J";
    let (row, column) = (w.random.from_to(0, ROWS - 1), w.random.from_to(0, COLUMNS - 1));
    w.address(row, column);
    match SIMPLE.get(w.random.below(SIMPLE.len() + 2)) {
        Some(&code) => w.only(&[0x1b, code]),
        None => {
            let row = w.random.from_to(0x21, 0x37) as u8;
            let splits: [&[u8]; 2] = [b"\x1bx0", &[0x1b, b'x', b'1', row]];
            let one = w.random.below(2);
            w.only(splits[one]);
        }
    }
    w.text(4, 20);
}

struct Writer {
    stream: Stream,
    random: Random,
}

impl Writer {
    fn new() -> Self {
        Writer { stream: Stream::default(), random: Random(0x2545_F491_4F6C_DD1D) }
    }

    fn both(&mut self, bytes: &[u8]) {
        self.stream.wy50.extend_from_slice(bytes);
        self.stream.ansi.extend_from_slice(bytes);
    }

    /// For the WY-50 alone.
    fn only(&mut self, bytes: &[u8]) {
        self.stream.wy50.extend_from_slice(bytes);
    }

    fn apart(&mut self, wy50: &[u8], ansi: &[u8]) {
        self.stream.wy50.extend_from_slice(wy50);
        self.stream.ansi.extend_from_slice(ansi);
    }

    /// A letter at the start of the row, and back.
    fn letter(&mut self) {
        self.text(1, 1);
        self.both(b"\r");
    }

    fn text(&mut self, shortest: usize, longest: usize) {
        for _ in 0..self.random.from_to(shortest, longest) {
            let letter = if self.random.below(6) == 0 { b' ' } else { b'a' + self.random.below(26) as u8 };
            self.both(&[letter]);
        }
    }

    /// Protected text.
    fn label(&mut self, cells: usize) {
        self.only(b"\x1b)");
        self.text(cells, cells);
        self.only(b"\x1b(");
    }

    /// Row and column count from 0.
    fn address(&mut self, row: usize, column: usize) {
        let wy50 = [0x1b, b'=', 0x20 + row as u8, 0x20 + column as u8];
        self.apart(&wy50, format!("\x1b[{};{}H", row + 1, column + 1).as_bytes());
    }
}

/// Marsaglia's xorshift.
struct Random(u64);

impl Random {
    fn below(&mut self, n: usize) -> usize {
        self.0 ^= self.0 << 13;
        self.0 ^= self.0 >> 7;
        self.0 ^= self.0 << 17;
        (self.0 >> 32) as usize % n
    }

    fn from_to(&mut self, least: usize, most: usize) -> usize {
        least + self.below(most - least + 1)
    }
}
