//! A WY-50 terminal, or a WY-60. Feed it the host's bytes, send its replies back, read its page.
//!
//! ```
//! use wy50::{Answer, Terminal, LONGEST_REPLY};
//!
//! let mut terminal = Terminal::new();
//! let mut reply = [0; LONGEST_REPLY];
//! let fed = terminal.feed(b"Hello\x1b?", &mut reply);
//! assert_eq!((fed.answer, fed.rest.len()), (Answer::Done, 0));
//! assert_eq!(&reply[..fed.replied], b"\x20\x25\r"); // row 1, column 6
//! assert_eq!(terminal.rows().next().unwrap().to_string().trim_end(), "Hello");
//! ```
//!
//! A reply that does not fit begins, and goes on at the next call: the joined replies do not depend on the rooms. With any room but 0 each call takes
//! a byte or sends one, so this loop ends:
//!
//! ```
//! use wy50::{Answer, Terminal};
//!
//! let mut terminal = Terminal::new();
//! let mut line: Vec<u8> = Vec::new();
//! let mut bytes: &[u8] = b"\x1b=\x23 dark\x1b7!";
//! let mut reply = [0; 64]; // what the line lends at a time
//! loop {
//!     let fed = terminal.feed(bytes, &mut reply);
//!     line.extend(&reply[..fed.replied]);
//!     bytes = fed.rest;
//!     if fed.answer == Answer::BadCall || bytes.is_empty() && terminal.sending().is_none() {
//!         break;
//!     }
//! }
//! assert_eq!(line.len(), 3 * 80 + 5 + 3 + 1); // three rows and a part of one, US between them, CR
//! ```
//!
//! [`Terminal::feed`] joins replies and counts refusals; [`Terminal::next`] stops at each and tells which byte it answers.
//!
//! [`Terminal::with_row_list`] takes long feeds faster over forms that are mostly labels, and changes nothing else.
//!
//! A terminal starts with 80 columns. A host may wish for 132, and who follows it converts:
//!
//! ```
//! use wy50::Terminal;
//!
//! let mut terminal = Terminal::new();
//! let fed = terminal.feed(b"\x1b`;", &mut []);
//! assert_eq!((fed.refused, terminal.wishes_wide(), terminal.columns()), (0, true, 80));
//! if terminal.wishes_wide() != terminal.is_wide() {
//!     terminal.convert()?;
//! }
//! assert_eq!(terminal.columns(), 132);
//! # Ok::<(), wy50::Unconverted>(())
//! ```
//!
//! A [`Store`] keeps the last eight set-ups. A saved page that may be damaged is mended by [`mend`] before it is used. [`propose`] gives the bytes that
//! bring a distant display from one page to another; [`judge_spans`] and [`judge_bytes`] judge those of others.
//!
//! It links the proved library libwy50.a (see `build.rs`), which keeps nothing between calls and allocates nothing; neither does this crate.
#![no_std]
#[cfg(feature = "std")]
extern crate std;

mod answer;
mod cell;
mod event;
mod features;
mod field;
mod mend;
mod page;
mod personality;
mod repaint;
mod sending;
mod sequence;
mod store;
mod sys;

pub use answer::Answer;
pub use cell::{Attributes, Cell, Kind, Row};
use core::fmt;
pub use event::{Command, Event, Next};
pub use features::{CursorStyle, Features, ProtectedLook, Scrolling};
pub use field::{Field, Fields, Position, ProtectOff, Text};
pub use mend::{mend, Mended, Unmended};
use page::Page;
pub use page::Unconverted;
pub use personality::Personality;
pub use repaint::{judge_bytes, judge_spans, propose, Proposal, Span, Unaccepted, Unproposed, MOST_PAINT_BYTES, MOST_SPANS};
pub use sending::{Place, Sending};
pub use sequence::SequenceKind;
pub use store::{Refusal, Store, STORE_BYTES};
pub use sys::{Key, Message, Modes, RawSending, Screen, Sequence, State};

pub const ROWS: usize = 24;
pub const COLUMNS: usize = 80;
/// A narrow page, in reading order.
pub const CELLS: usize = ROWS * COLUMNS;
pub const WIDE_COLUMNS: usize = 132;
/// A wide page.
pub const WIDE_CELLS: usize = ROWS * WIDE_COLUMNS;
/// A row list: two numbers for each row.
pub const ROW_NUMBERS: usize = 2 * ROWS;
/// No reply is longer: a byte that has this room begins no send that goes on at the next call. On a narrow page none is longer than 1,944.
pub const LONGEST_REPLY: usize = 3192;
/// No text of a field or a row is longer.
pub const LONGEST_TEXT: usize = 132;
/// The function keys, and the longest text of one.
pub const KEYS: usize = 32;
pub const KEY_BYTES: usize = 8;
/// The key labels, and the longest.
pub const LABELS: usize = 16;
pub const LABEL_BYTES: usize = 8;
/// The longest host message.
pub const MESSAGE_BYTES: usize = 46;

/// The version of this crate: that of the library that it is made for.
pub const VERSION: &str = env!("CARGO_PKG_VERSION");

/// The version of the library that is linked, as [`VERSION`] has it: major, minor, patch. With another library no call may be made.
pub fn library_version() -> [u32; 3] {
    let number = sys::version();
    [number / 1_000_000, number / 1_000 % 1_000, number % 1_000]
}

/// What the bytes of a [`Terminal::feed`] came to.
#[must_use]
#[derive(Clone, Copy, Debug, PartialEq, Eq)]
pub struct Fed<'a> {
    /// [`Answer::Done`], [`Answer::NoRoom`] if it stopped with no room left while a reply is due, or [`Answer::BadCall`]. Where the room ended inside
    /// a send it is [`Answer::Done`]: ask [`Terminal::sending`].
    pub answer: Answer,
    /// How many bytes were taken.
    pub taken: usize,
    /// How many bytes were put at the front of the reply.
    pub replied: usize,
    /// How many of the bytes taken were refused, with an answer from 1 to 4.
    pub refused: usize,
    /// The bytes not taken: feed them next, once the reply is sent.
    pub rest: &'a [u8],
}

/// What one byte came to.
#[must_use]
#[derive(Clone, Copy, Debug, PartialEq, Eq)]
pub struct Stepped {
    pub answer: Answer,
    /// The byte was taken. Else it is to come again: a send was under way, there was no room, or the state is not possible.
    pub taken: bool,
    /// How many bytes were put at the front of the reply.
    pub replied: usize,
}

/// What one key came to.
#[must_use]
#[derive(Clone, Copy, Debug, PartialEq, Eq)]
pub struct Replied {
    pub answer: Answer,
    /// How many bytes were put at the front of the reply.
    pub replied: usize,
}

/// A terminal: its page, with room for either width, and its state. Two are equal if these are: a row list follows from them.
#[derive(Clone)]
pub struct Terminal {
    page: Page,
    state: State,
    row_list: Option<[u16; ROW_NUMBERS]>,
}

impl Terminal {
    /// A WY-50 just powered on.
    pub fn new() -> Self {
        Terminal::with_personality(Personality::Wy50)
    }

    /// A terminal of this personality just powered on.
    pub fn with_personality(personality: Personality) -> Self {
        let mut page = Page::new(false);
        let state = sys::power_on(&mut page, personality.number()).state;
        Terminal { page, state, row_list: None }
    }

    /// A terminal with this page and state, as [`page`](Self::page) and [`state`](Self::state) gave them; none with a page of a length that neither
    /// width has. A state that is not possible, or not of the page's width, does no harm: every call answers [`Answer::BadCall`] and changes nothing.
    pub fn from_parts(page: &[u16], state: State) -> Option<Self> {
        Page::of(page).map(|page| Terminal { page, state, row_list: None })
    }

    /// The same terminal with a row list, which it keeps from now on: where the cursor settles, rows without an open cell are skipped. Every
    /// answer, count, reply, page and state is the same with it as without.
    ///
    /// Each call checks the whole list, so it pays in long [`feed`](Self::feed)s over forms with rows of labels alone, and seldom in a
    /// [`step`](Self::step). For a state that is not possible there is no list.
    ///
    /// ```
    /// use wy50::{Terminal, CELLS};
    ///
    /// let mut terminal = Terminal::new().with_row_list();
    /// let fed = terminal.feed(b"\x1b,\x1b=\x37\x6f\x1bT\x1b&\x1e", &mut []); // only the last cell is open, and the cursor goes home
    /// assert_eq!((fed.refused, terminal.cursor()), (0, CELLS - 1));
    /// assert_eq!(terminal.row_list().unwrap()[44..], [0, 0, 1, 80]); // rows 23 and 24
    /// ```
    pub fn with_row_list(mut self) -> Self {
        self.row_list = self.rebuilt();
        self
    }

    fn rebuilt(&self) -> Option<[u16; ROW_NUMBERS]> {
        let mut list = [0; ROW_NUMBERS];
        let answer = Answer::of(sys::rebuild_rows(&self.page, &mut list, self.state));
        (answer == Answer::Done).then_some(list)
    }

    /// Bytes from the host. What they reply is put at the front of `reply`; what lies beyond it is not touched. A send under way goes on first, and
    /// over no bytes nothing else is done.
    pub fn feed<'a>(&mut self, bytes: &'a [u8], reply: &mut [u8]) -> Fed<'a> {
        let ran = match &mut self.row_list {
            Some(list) => sys::run_rows(&mut self.page, list, self.state, bytes, reply),
            None => sys::run(&mut self.page, self.state, bytes, reply),
        };
        self.state = ran.state;
        Fed { answer: Answer::of(ran.answer), taken: ran.taken, replied: ran.replied, refused: ran.refused, rest: &bytes[ran.taken..] }
    }

    /// Bytes from the host up to and including the first that replies or is refused, and which it is. While a send is under way it goes on and no byte
    /// is taken, not even where it is then over. A loop of it, through rooms of any sizes, comes to what one [`feed`](Self::feed) with room enough
    /// gives. With any room but 0 each call takes a byte or sends one, so this loop ends:
    ///
    /// ```
    /// use wy50::{Answer, Command, Event, Terminal};
    ///
    /// let mut terminal = Terminal::new();
    /// let mut room = [0; 4]; // what the line lends at a time
    /// let mut bytes: &[u8] = b"\x1b)Roast: \x1b(dark, caf\xe9\x1b5";
    /// let mut alert: Vec<u8> = Vec::new();
    /// let mut refused = Vec::new();
    /// while !bytes.is_empty() || terminal.sending().is_some() {
    ///     let next = terminal.next(bytes, &mut room);
    ///     match next.event {
    ///         Some(Event::Reply { command: Command::OpenSegment, bytes, .. }) => alert.extend(bytes),
    ///         Some(Event::Refused { byte, answer, .. }) => refused.push((byte, answer)),
    ///         Some(Event::BadCall | Event::NoRoom) => unreachable!("from power-on, with a room"),
    ///         Some(Event::Reply { .. }) | None => {}
    ///     }
    ///     bytes = next.rest;
    /// }
    /// assert_eq!(alert, b"\x1cdark, caf \r");
    /// assert_eq!(refused, [(0xe9, Answer::HighByte)]);
    /// ```
    pub fn next<'a, 'r>(&mut self, bytes: &'a [u8], reply: &'r mut [u8]) -> Next<'a, 'r> {
        let rows = self.row_list.as_mut().map_or(&mut [][..], |list| &mut list[..]);
        let next = sys::next(&mut self.page, rows, self.state, bytes, reply);
        self.state = next.state;
        Next::of(&next, bytes, reply)
    }

    /// One byte from the host, with its own answer. During a send it sends what fits, and the byte waits.
    pub fn step(&mut self, byte: u8, reply: &mut [u8]) -> Stepped {
        let stepped = match &mut self.row_list {
            Some(list) => sys::step_rows(&mut self.page, list, self.state, byte, reply),
            None => sys::step(&mut self.page, self.state, byte, reply),
        };
        self.state = stepped.state;
        Stepped { answer: Answer::of(stepped.answer), taken: stepped.taken != 0, replied: stepped.replied }
    }

    /// A function key is pressed: 40h to 4Fh or 60h to 6Fh. Neither page nor state changes. Its bytes fit, or the answer is [`Answer::NoRoom`], as it
    /// is during a send.
    pub fn press(&self, key: u8, reply: &mut [u8]) -> Replied {
        let pressed = sys::press(&self.page, self.state, key, reply);
        Replied { answer: Answer::of(pressed.answer), replied: pressed.replied }
    }

    /// Page and state at the other width: 132 columns from 80, 80 from 132. The wish is not looked at, and stays.
    ///
    /// A cell keeps its row and column. Widening puts unprotected nulls at each row's end; narrowing is refused with [`Unconverted::WouldLose`] if
    /// some cell beyond column 80 is not 0, and either with [`Unconverted::Sending`] during a send. The page is then one segment, and the cursor
    /// settles from its first cell; tab stops beyond the width are cleared. A row list is rebuilt. Nothing else changes.
    ///
    /// ```
    /// use wy50::{Terminal, Unconverted};
    ///
    /// let mut terminal = Terminal::new();
    /// assert_eq!(terminal.convert(), Ok(()));
    /// let fed = terminal.feed(b"\x1ba1R132C!", &mut []);
    /// assert_eq!((fed.refused, terminal.convert()), (0, Err(Unconverted::WouldLose)));
    /// let fed = terminal.feed(b"\x1b*", &mut []); // all cells to nulls
    /// assert_eq!((fed.refused, terminal.convert(), terminal.columns()), (0, Ok(()), 80));
    /// ```
    pub fn convert(&mut self) -> Result<(), Unconverted> {
        let mut target = Page::new(!self.is_wide());
        let converted = sys::convert(&self.page, self.state, &mut target);
        if let Some(why) = Unconverted::refused(converted.answer) {
            return Err(why);
        }
        (self.page, self.state) = (target, converted.state);
        if self.row_list.is_some() {
            self.row_list = self.rebuilt();
        }
        Ok(())
    }

    /// The page has 132 columns.
    pub fn is_wide(&self) -> bool {
        self.page.is_wide()
    }

    /// The host wishes for 132 columns: of ESC ` 3Bh and 3Ah the first came last.
    pub fn wishes_wide(&self) -> bool {
        self.state.wish != 0
    }

    /// 80 or 132.
    pub fn columns(&self) -> usize {
        self.page.columns()
    }

    /// The cells in reading order: [`ROWS`] times [`columns`](Self::columns).
    pub fn page(&self) -> &[u16] {
        &self.page
    }

    pub fn state(&self) -> &State {
        &self.state
    }

    /// The personality that it was powered on with. A state that is filled in may have none.
    pub fn personality(&self) -> Option<Personality> {
        Personality::from_number(self.state.personality)
    }

    /// The attribute that ESC G set last in a WY-60: what is stored next has it.
    pub fn remembered(&self) -> Attributes {
        Attributes(self.state.remembered)
    }

    /// The send under way, if there is one. A state that is filled in may have one that is not possible.
    pub fn sending(&self) -> Option<Sending> {
        Sending::at(self.state.sending)
    }

    /// Which sequence is under way; its numbers are in the state. A state that is filled in may have none of a kind.
    pub fn sequence(&self) -> Option<SequenceKind> {
        SequenceKind::from_number(self.state.sequence.kind)
    }

    /// The features that ESC ` set. A state that is filled in may have codes of none.
    pub fn features(&self) -> Option<Features> {
        Features::from_codes(self.state.features)
    }

    /// The row list, if it is kept: for each row the number of its open cells, then the column of the first one, from 1, or 0.
    pub fn row_list(&self) -> Option<&[u16; ROW_NUMBERS]> {
        self.row_list.as_ref()
    }

    /// The active cursor as a cell of the page, from 0.
    pub fn cursor(&self) -> usize {
        let screen = self.state.screen;
        usize::from(if screen.active == 0 { screen.cursor0 } else { screen.cursor1 })
    }

    /// The active cursor's row and column, in the page; none for a state that is filled in and not possible.
    pub fn cursor_position(&self) -> Option<Position> {
        Position::at(sys::cursor(self.state))
    }

    /// Where a cell of the page lies; none is outside it.
    pub fn position_of(&self, cell: usize) -> Option<Position> {
        Position::at(sys::position_of(self.page.len(), cell))
    }

    /// The cell at a place of the page, if there is one.
    pub fn cell_at(&self, place: Position) -> Option<usize> {
        Some(sys::cell_at(self.page.len(), place.row, place.column)).filter(|&cell| cell < self.page.len())
    }

    /// Protect mode is on: protected cells are guarded.
    pub fn protects(&self) -> bool {
        self.state.modes.protect != 0
    }

    /// The host message of ESC F; empty where there is none.
    pub fn message(&self) -> &[u8] {
        let message = &self.state.message;
        front(&message.bytes, message.len)
    }

    /// The label of a field of ESC z, 30h to 37h or 50h to 57h; empty where it is not set. No other byte is a field.
    pub fn label(&self, field: u8) -> Option<&[u8]> {
        let place = match field {
            0x30..=0x37 => field - 0x30,
            0x50..=0x57 => field - 0x48,
            _ => return None,
        };
        let label = &self.state.labels[usize::from(place)];
        Some(front(&label.bytes, label.len))
    }

    /// The shifted line, the labels of 50h to 57h, is on.
    pub fn shifted_line(&self) -> bool {
        self.state.shifted != 0
    }

    /// The rows from the top.
    pub fn rows(&self) -> impl DoubleEndedIterator<Item = Row<'_>> + ExactSizeIterator + '_ {
        self.page.chunks_exact(self.columns()).map(Row::new)
    }

    /// The cells in reading order.
    pub fn cells(&self) -> impl DoubleEndedIterator<Item = Cell> + ExactSizeIterator + '_ {
        self.page.iter().copied().map(Cell)
    }

    /// The text of a row, from 0, labels too, without trailing spaces; there are [`ROWS`].
    pub fn row_text(&self, row: usize) -> Option<Text> {
        Text::read(|room| sys::row_text(&self.page, row, true, room))
    }

    /// The fields in reading order, as ESC 5 sends them: the longest stretches of cells within a row that are not marked protected. While protect mode
    /// is off that is said, since there may be no form, and the fields are still to be had.
    ///
    /// ```
    /// use wy50::Terminal;
    ///
    /// let mut terminal = Terminal::new();
    /// let fed = terminal.feed(b"\x1b)Roast: \x1b(\x1b&dark", &mut []);
    /// assert_eq!(fed.refused, 0);
    /// let roast = terminal.fields().unwrap().next().unwrap();
    /// assert_eq!((roast.row(), roast.column(), roast.text().as_str()), (0, 7, "dark"));
    ///
    /// let fed = terminal.feed(b"\x1b'", &mut []); // the host turns protect mode off
    /// assert_eq!(fed.refused, 0);
    /// let off = terminal.fields().unwrap_err();
    /// assert_eq!(off.fields().next().unwrap().text().as_str(), "dark");
    /// ```
    pub fn fields(&self) -> Result<Fields<'_>, ProtectOff<'_>> {
        let fields = Fields::new(&self.page);
        if self.protects() {
            Ok(fields)
        } else {
            Err(ProtectOff::new(fields))
        }
    }
}

/// The first bytes of a text; a state that is filled in may count more than there are.
fn front(bytes: &[u8], len: u8) -> &[u8] {
    &bytes[..bytes.len().min(usize::from(len))]
}

impl Default for Terminal {
    fn default() -> Self {
        Terminal::new()
    }
}

impl PartialEq for Terminal {
    fn eq(&self, other: &Self) -> bool {
        *self.page == *other.page && self.state == other.state
    }
}

impl Eq for Terminal {}

/// The page as text, a line for each row; a cell is shown as a send gives it.
impl fmt::Display for Terminal {
    fn fmt(&self, f: &mut fmt::Formatter<'_>) -> fmt::Result {
        self.rows().try_for_each(|row| writeln!(f, "{row}"))
    }
}

impl fmt::Debug for Terminal {
    fn fmt(&self, f: &mut fmt::Formatter<'_>) -> fmt::Result {
        f.debug_struct("Terminal").field("state", &self.state).finish_non_exhaustive()
    }
}
