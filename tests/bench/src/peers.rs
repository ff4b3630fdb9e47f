//! The terminals that are timed, each fed as a gateway feeds it: by the read, with room for replies.

use crate::{state, terminal};
use std::{
    ffi::{c_char, c_int, c_void},
    ops::Range,
};
use wy50::{mend, propose, Mended, Personality, Span, Terminal, CELLS, COLUMNS, MOST_PAINT_BYTES, MOST_SPANS, ROWS};

/// Bytes of a read, and of the reply room.
pub const READ: usize = 4096;
/// No reply of a narrow page is longer.
pub const NARROW_REPLY: usize = 1944;

pub type Page = [u16; CELLS];

pub trait Peer {
    /// Takes the bytes of a read.
    fn read(&mut self, bytes: &[u8]);
    fn page(&self) -> Page;
}

pub fn feed(peer: &mut impl Peer, stream: &[u8]) {
    for bytes in stream.chunks(READ) {
        peer.read(bytes);
    }
}

/// A peer that has taken the stream from power-on.
pub fn after<P: Peer + Default>(stream: &[u8]) -> P {
    let mut peer = P::default();
    feed(&mut peer, stream);
    peer
}

/// Its page.
pub fn play<P: Peer + Default>(stream: &[u8]) -> Page {
    after::<P>(stream).page()
}

/// A peer that sends its page.
pub trait Sender {
    /// The reply to a read; the reply room takes all of it.
    fn reply_to(&mut self, bytes: &[u8]) -> &[u8];
}

/// The proved terminal.
pub struct Proved {
    terminal: Terminal,
    reply: [u8; READ],
}

impl Default for Proved {
    fn default() -> Self {
        Proved { terminal: Terminal::new(), reply: [0; READ] }
    }
}

impl Peer for Proved {
    fn read(&mut self, mut bytes: &[u8]) {
        while !bytes.is_empty() || self.terminal.sending().is_some() {
            bytes = self.terminal.feed(bytes, &mut self.reply).rest;
        }
    }

    fn page(&self) -> Page {
        self.terminal.page().try_into().expect("80 columns")
    }
}

/// The proved terminal as a WY-60.
pub struct Proved60(Proved);

impl Default for Proved60 {
    fn default() -> Self {
        Proved60(Proved { terminal: Terminal::with_personality(Personality::Wy60), ..Proved::default() })
    }
}

impl Peer for Proved60 {
    fn read(&mut self, bytes: &[u8]) {
        self.0.read(bytes);
    }

    fn page(&self) -> Page {
        self.0.page()
    }
}

/// The proved terminal with a row list.
pub struct Listed(Proved);

impl Default for Listed {
    fn default() -> Self {
        Listed(Proved { terminal: Terminal::new().with_row_list(), ..Proved::default() })
    }
}

impl Peer for Listed {
    fn read(&mut self, bytes: &[u8]) {
        self.0.read(bytes);
    }

    fn page(&self) -> Page {
        self.0.page()
    }
}

impl Sender for Proved {
    fn reply_to(&mut self, bytes: &[u8]) -> &[u8] {
        let fed = self.terminal.feed(bytes, &mut self.reply);
        assert!(fed.rest.is_empty());
        &self.reply[..fed.replied]
    }
}

/// The independent implementation.
pub struct Independent {
    terminal: terminal::Terminal,
    reply: [u8; READ],
}

impl Default for Independent {
    fn default() -> Self {
        Independent { terminal: terminal::Terminal::new(), reply: [0; READ] }
    }
}

impl Peer for Independent {
    fn read(&mut self, mut bytes: &[u8]) {
        while !bytes.is_empty() || self.terminal.state.sending.is_some() {
            bytes = self.terminal.run(bytes, &mut self.reply).rest;
        }
    }

    fn page(&self) -> Page {
        std::array::from_fn(|k| self.terminal.page[k].0)
    }
}

/// The independent implementation as a WY-60.
pub struct Independent60(Independent);

impl Default for Independent60 {
    fn default() -> Self {
        Independent60(Independent { terminal: independent(true), ..Independent::default() })
    }
}

impl Peer for Independent60 {
    fn read(&mut self, bytes: &[u8]) {
        self.0.read(bytes);
    }

    fn page(&self) -> Page {
        self.0.page()
    }
}

fn independent(wy60: bool) -> terminal::Terminal {
    let mut terminal = terminal::Terminal::new();
    if wy60 {
        terminal.power_on(state::Personality::Wy60).expect("its page has its length");
    }
    terminal
}

impl Sender for Independent {
    fn reply_to(&mut self, bytes: &[u8]) -> &[u8] {
        let run = self.terminal.run(bytes, &mut self.reply);
        assert!(run.rest.is_empty());
        &self.reply[..run.replied]
    }
}

/// Both side by side: every count and reply, and the page after each read. What differs first, if anything does.
pub fn difference(stream: &[u8], wy60: bool) -> Option<String> {
    let mut ours = Terminal::with_personality(if wy60 { Personality::Wy60 } else { Personality::Wy50 });
    let mut theirs = independent(wy60);
    let (mut our_reply, mut their_reply) = ([0; READ], [0; READ]);
    let mut at = 0;
    for mut read in stream.chunks(READ) {
        while !read.is_empty() || ours.sending().is_some() {
            let a = ours.feed(read, &mut our_reply);
            let b = theirs.run(read, &mut their_reply);
            let counts = [(a.taken, a.replied, a.refused), (b.taken, b.replied, b.refused)];
            if counts[0] != counts[1] {
                return Some(format!("from byte {at}: bytes taken, replied and refused are {:?} and {:?}", counts[0], counts[1]));
            }
            if our_reply[..a.replied] != their_reply[..b.replied] {
                return Some(format!("from byte {at}: the replies differ"));
            }
            at += a.taken;
            read = a.rest;
        }
        if let Some(cell) = (0..CELLS).find(|&k| ours.page()[k] != theirs.page[k].0) {
            return Some(format!("before byte {at}: cell {cell} differs"));
        }
    }
    (ours.cursor() != theirs.state.cursors[theirs.state.active as usize] as usize).then(|| "the cursors differ".to_string())
}

/// The proved terminal without a row list and with one: after each call counts, rest, room, page and state, and the list. What differs first, if
/// anything does.
pub fn list_difference(stream: &[u8]) -> Option<String> {
    let (mut plain, mut listed) = (Terminal::new(), Terminal::new().with_row_list());
    let (mut plain_reply, mut listed_reply) = ([0; READ], [0; READ]);
    let mut at = 0;
    for mut read in stream.chunks(READ) {
        while !read.is_empty() || plain.sending().is_some() {
            let fed = plain.feed(read, &mut plain_reply);
            if listed.feed(read, &mut listed_reply) != fed || listed_reply != plain_reply || listed != plain {
                return Some(format!("from byte {at}: the row list changes the result"));
            }
            if listed.row_list() != plain.clone().with_row_list().row_list() {
                return Some(format!("from byte {at}: the row list is not the page's"));
            }
            at += fed.taken;
            read = fed.rest;
        }
    }
    None
}

extern "C" {
    fn floor_run(page: *mut u16, at: usize, bytes: *const u8, count: usize) -> usize;
    fn floor_insert(page: *mut u16, at: usize, bytes: *const u8, count: usize) -> usize;
    fn floor_move(page: *mut u16, at: usize, bytes: *const u8, count: usize) -> usize;
    fn floor_sum(state: *const u16, count: usize) -> u32;
    fn floor_shift(page: *mut u16, cursor: *mut Cursor, bytes: *const u8, count: usize);
    fn floor_send(page: *const u16, bytes: *const u8, count: usize, reply: *mut u8) -> usize;
    fn floor_count(text: *const u8, count: usize) -> u64;
    fn floor_mend(page: *mut u16, list: *mut Mended) -> usize;
    fn floor_propose(before: *const u16, after: *const u16, spans: *mut Span, bytes: *mut u8, count: *mut usize) -> usize;
}

/// A text's parts, by one of the peers.
pub type Counter = fn(&[u8]) -> u64;

pub fn proved_parts(text: &[u8]) -> u64 {
    wy50_counter::count_text(text).map_or(u64::MAX, |count| count.parts)
}

pub fn floor_parts(text: &[u8]) -> u64 {
    // SAFETY: the pointer and the count are those of one slice.
    unsafe { floor_count(text.as_ptr(), text.len()) }
}

/// A page mended as a WY-60's by one of the peers, the cells changed at the list's front; how many they are.
pub type Mender = fn(&mut Page, &mut [Mended; CELLS]) -> usize;

pub fn proved_mend(page: &mut Page, list: &mut [Mended; CELLS]) -> usize {
    mend(page, Personality::Wy60, list).map_or(usize::MAX, <[Mended]>::len)
}

pub fn floor_mended(page: &mut Page, list: &mut [Mended; CELLS]) -> usize {
    // SAFETY: the page has 1,920 cells, and the list an entry of four numbers for each.
    unsafe { floor_mend(page.as_mut_ptr(), list.as_mut_ptr()) }
}

/// Rooms that are always enough, and what is proposed at their front for a WY-60.
pub struct Painting {
    pub spans: [Span; MOST_SPANS],
    pub bytes: [u8; MOST_PAINT_BYTES],
    pub counts: (usize, usize),
}

impl Default for Painting {
    fn default() -> Self {
        Painting { spans: [Span::default(); MOST_SPANS], bytes: [0; MOST_PAINT_BYTES], counts: (0, 0) }
    }
}

/// A painting from the first page to the second, by one of the peers.
pub type Painter = fn(&[Page; 2], &mut Painting);

pub fn proved_propose([before, after]: &[Page; 2], painting: &mut Painting) {
    let proposed = propose(before, after, Personality::Wy60, &mut painting.spans, &mut painting.bytes);
    painting.counts = proposed.map_or((usize::MAX, usize::MAX), |proposal| (proposal.spans.len(), proposal.bytes.len()));
}

pub fn floor_proposed([before, after]: &[Page; 2], painting: &mut Painting) {
    let counts = &mut painting.counts;
    // SAFETY: the pages have 1,920 cells, and the rooms are those that are always enough.
    counts.0 =
        unsafe { floor_propose(before.as_ptr(), after.as_ptr(), painting.spans.as_mut_ptr(), painting.bytes.as_mut_ptr(), &mut counts.1) };
}

/// A sum over the numbers of a state, in plain C.
pub fn summed(state: &[u16]) -> u32 {
    // SAFETY: the pointer and the count are those of one slice.
    unsafe { floor_sum(state.as_ptr(), state.len()) }
}

/// A loop in plain C over a page and host bytes, from the cursor, which it gives back.
type Loop = unsafe extern "C" fn(*mut u16, usize, *const u8, usize) -> usize;

/// A floor, plain C: of text (0), of inserted text (1), of moves (2).
pub struct Floor<const OF: usize> {
    page: Page,
    at: usize,
}

impl<const OF: usize> Default for Floor<OF> {
    fn default() -> Self {
        Floor { page: [0; CELLS], at: 0 }
    }
}

impl<const OF: usize> Peer for Floor<OF> {
    fn read(&mut self, bytes: &[u8]) {
        let floor = const { [floor_run as Loop, floor_insert, floor_move][OF] };
        // SAFETY: the page has 1,920 cells, the cursor is one of them, and the pointer and the count are those of one slice.
        self.at = unsafe { floor(self.page.as_mut_ptr(), self.at, bytes.as_ptr(), bytes.len()) };
    }

    fn page(&self) -> Page {
        self.page
    }
}

/// Where the floor of row shifts stands: at a cell of a segment, from its first cell up to its end, and perhaps after ESC.
#[derive(Clone, Copy)]
#[repr(C)]
pub struct Cursor {
    at: usize,
    first: usize,
    end: usize,
    escaped: bool,
}

/// The floor of row shifts, plain C with memmove.
pub struct ShiftFloor {
    page: Page,
    cursor: Cursor,
}

impl ShiftFloor {
    /// On a page, in a segment of whole rows and at the start of one of its rows.
    pub fn new(page: Page, rows: Range<usize>, row: usize) -> Self {
        assert!(rows.end <= ROWS && rows.contains(&row));
        let cursor = Cursor { at: row * COLUMNS, first: rows.start * COLUMNS, end: rows.end * COLUMNS, escaped: false };
        ShiftFloor { page, cursor }
    }
}

impl Peer for ShiftFloor {
    fn read(&mut self, bytes: &[u8]) {
        // SAFETY: the page has 1,920 cells, the segment lies in it, the cursor in the segment, and the pointer and the count are those of one
        // slice.
        unsafe { floor_shift(self.page.as_mut_ptr(), &mut self.cursor, bytes.as_ptr(), bytes.len()) };
    }

    fn page(&self) -> Page {
        self.page
    }
}

/// The floor of sends, a plain C loop over the cells, with the cursor in the last cell.
pub struct SendFloor {
    page: Page,
    reply: [u8; READ],
}

impl SendFloor {
    pub fn new(page: Page) -> Self {
        SendFloor { page, reply: [0; READ] }
    }
}

impl Sender for SendFloor {
    fn reply_to(&mut self, bytes: &[u8]) -> &[u8] {
        assert!(bytes.len() / 2 * NARROW_REPLY <= READ);
        // SAFETY: the page has 1,920 cells, the pointer and the count are those of one slice, and there is room for a longest reply to every
        // two bytes, which is all that they can ask for.
        let count = unsafe { floor_send(self.page.as_ptr(), bytes.as_ptr(), bytes.len(), self.reply.as_mut_ptr()) };
        &self.reply[..count]
    }
}

#[repr(C)]
struct Rect {
    start_row: c_int,
    end_row: c_int,
    start_col: c_int,
    end_col: c_int,
}

extern "C" {
    fn vterm_new(rows: c_int, cols: c_int) -> *mut c_void;
    fn vterm_free(vt: *mut c_void);
    fn vterm_obtain_screen(vt: *mut c_void) -> *mut c_void;
    fn vterm_screen_reset(screen: *mut c_void, hard: c_int);
    fn vterm_screen_set_damage_merge(screen: *mut c_void, size: c_int);
    fn vterm_screen_flush_damage(screen: *mut c_void);
    fn vterm_input_write(vt: *mut c_void, bytes: *const c_char, len: usize) -> usize;
    fn vterm_screen_get_text(screen: *const c_void, str: *mut c_char, len: usize, rect: Rect) -> usize;
}

/// Damage is gathered, not told cell by cell: the fastest setting.
const DAMAGE_SCROLL: c_int = 3;

/// libvterm with its screen layer, which reads its own sequences. The page has its text, 0 where it has none.
pub struct Libvterm {
    vt: *mut c_void,
    screen: *mut c_void,
}

impl Default for Libvterm {
    fn default() -> Self {
        // SAFETY: the terminal and its screen live until vterm_free.
        unsafe {
            let vt = vterm_new(ROWS as c_int, COLUMNS as c_int);
            let screen = vterm_obtain_screen(vt);
            vterm_screen_set_damage_merge(screen, DAMAGE_SCROLL);
            vterm_screen_reset(screen, 1);
            Libvterm { vt, screen }
        }
    }
}

impl Drop for Libvterm {
    fn drop(&mut self) {
        // SAFETY: made by vterm_new, and used no more.
        unsafe { vterm_free(self.vt) };
    }
}

impl Peer for Libvterm {
    fn read(&mut self, bytes: &[u8]) {
        // SAFETY: the terminal is alive, and the pointer goes with the count of its slice.
        unsafe { vterm_input_write(self.vt, bytes.as_ptr().cast(), bytes.len()) };
    }

    fn page(&self) -> Page {
        let mut page = [0; CELLS];
        // SAFETY: the screen is alive.
        unsafe { vterm_screen_flush_damage(self.screen) };
        for row in 0..ROWS {
            let mut text = [0u8; COLUMNS];
            let rect = Rect { start_row: row as c_int, end_row: row as c_int + 1, start_col: 0, end_col: COLUMNS as c_int };
            // SAFETY: the screen is alive, and the pointer goes with the count of its array.
            let count = unsafe { vterm_screen_get_text(self.screen, text.as_mut_ptr().cast(), text.len(), rect) };
            for (cell, &code) in page[row * COLUMNS..].iter_mut().zip(&text[..count]) {
                *cell = u16::from(code);
            }
        }
        page
    }
}
