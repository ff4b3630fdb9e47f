//! Recorded sessions, each followed by a distant display: how many bytes it is sent.

use crate::{peers::Page, workloads::WORKLOADS};
use wy50::{
    judge_bytes, propose, Attributes, Cell, Kind, Personality, Span, Terminal, CELLS, COLUMNS, LONGEST_REPLY, MOST_PAINT_BYTES, MOST_SPANS,
};

pub struct Session {
    pub name: &'static str,
    pub what: &'static str,
    host: fn() -> Vec<u8>,
    /// The display shows the text alone, unprotected.
    text: bool,
    /// Its bytes are parted where a 00h stands, and after so many.
    part: usize,
    personality: Personality,
}

const LISTING: usize = 100_000;

pub const SESSIONS: [Session; 4] = [
    Session {
        name: "editor",
        what: "a letter written in vim on a WY-60, mostly key by key (`examples/editor.host`)",
        host: || include_bytes!("../../../examples/editor.host").to_vec(),
        text: false,
        part: usize::MAX,
        personality: Personality::Wy60,
    },
    Session {
        name: "form",
        what: "a WY-60's form filled eight times, field by field, of which the display shows the text alone (`examples/orders.host`)",
        host: || include_bytes!("../../../examples/orders.host").to_vec(),
        text: true,
        part: usize::MAX,
        personality: Personality::Wy60,
    },
    Session {
        name: "pager",
        what: "a page of this repository read with less on a WY-60, mostly a screenful at a time (`examples/pager.host`)",
        host: || include_bytes!("../../../examples/pager.host").to_vec(),
        text: false,
        part: usize::MAX,
        personality: Personality::Wy60,
    },
    Session {
        name: "listing",
        what: "100 KB of the workload text on a WY-50, the display painted every 4096 bytes",
        host: || WORKLOADS[0].stream(LISTING).wy50,
        text: true,
        part: 4096,
        personality: Personality::Wy50,
    },
];

/// What a session came to: the host's bytes, the pages painted, how many of them are served, and the bytes sent by each way.
#[derive(Default)]
pub struct Traffic {
    pub host: usize,
    pub pages: usize,
    pub served: usize,
    /// Whole where a page is not served.
    pub proposed: usize,
    pub whole: usize,
    pub shorter: usize,
}

impl Session {
    pub fn traffic(&self) -> Result<Traffic, String> {
        let bytes = (self.host)();
        let [mut host, mut display] = [self.personality; 2].map(Terminal::with_personality);
        let (mut spans, mut room, mut reply) = ([Span::default(); MOST_SPANS], [0; MOST_PAINT_BYTES], [0; LONGEST_REPLY]);
        let normal: &[u8] = if self.personality == Personality::Wy60 { b"\x1bG0" } else { b"" };
        let mut traffic = Traffic { host: bytes.len(), ..Traffic::default() };
        for part in bytes.split_inclusive(|&byte| byte == 0).flat_map(|quiet| quiet.chunks(self.part)) {
            let mut rest = part;
            while !rest.is_empty() || host.sending().is_some() {
                rest = host.feed(rest, &mut reply).rest;
            }
            let wanted = self.wanted(host.page());
            if display.page() == wanted {
                continue;
            }
            let whole = whole(&wanted, normal);
            let proposal = propose(display.page(), &wanted, self.personality, &mut spans, &mut room).map(|p| [normal, p.bytes].concat());
            traffic.pages += 1;
            traffic.served += usize::from(proposal.is_ok());
            let proposed = proposal.unwrap_or_else(|_| whole.clone());
            let shorter = if proposed.len() <= whole.len() { &proposed } else { &whole };
            traffic.proposed += proposed.len();
            traffic.whole += whole.len();
            traffic.shorter += shorter.len();
            if [&proposed, &whole].iter().any(|bytes| judge_bytes(display.page(), &wanted, self.personality, bytes).is_err()) {
                return Err(format!("{}: a painting is not accepted", self.name));
            }
            if display.feed(shorter, &mut []).refused > 0 || display.page() != wanted {
                return Err(format!("{}: the display shows another page", self.name));
            }
        }
        Ok(traffic)
    }

    fn wanted(&self, page: &[u16]) -> Page {
        let text = |cell: Cell| u16::from(cell.sent()) + 1024 * u16::from(cell.attributes().0);
        std::array::from_fn(|k| if self.text { text(Cell(page[k])) } else { page[k] })
    }
}

/// A painting that clears the page and writes each cell that is not blank then, as `examples/repaint.c` has it.
fn whole(page: &Page, normal: &[u8]) -> Vec<u8> {
    const SPACE: u16 = 0x20;
    const GUARDED_SPACE: u16 = 0xa0;
    const NEAR: usize = 4;
    let count = |number| page.iter().filter(|&&cell| cell == number).count();
    let (blank, clear) = match (count(0), count(SPACE), count(GUARDED_SPACE)) {
        (0, spaces, guarded) if guarded > spaces => (GUARDED_SPACE, b','),
        (0, ..) => (SPACE, b'+'),
        _ => (0, b'*'),
    };
    let mut painter = Painter { bytes: [&[0x1b, clear, 0x1b, b'N'], normal].concat(), guards: false, looks: Attributes(0) };
    let mut next = CELLS;
    for at in (0..CELLS).filter(|&at| page[at] != blank) {
        if blank != 0 && next < at && at - next <= NEAR && next % COLUMNS != 0 {
            page[next..at].iter().for_each(|&cell| painter.cell(Cell(cell)));
        } else if next != at {
            painter.bytes.extend([0x1b, b'=', 0x20 + (at / COLUMNS) as u8, 0x20 + (at % COLUMNS) as u8]);
        }
        painter.cell(Cell(page[at]));
        next = at + 1;
    }
    if painter.guards {
        painter.bytes.extend(b"\x1b(");
    }
    painter.bytes.extend(b"\x1bO");
    painter.bytes
}

struct Painter {
    bytes: Vec<u8>,
    guards: bool,
    looks: Attributes,
}

impl Painter {
    fn cell(&mut self, cell: Cell) {
        if cell.is_protected() != self.guards {
            self.guards = !self.guards;
            self.bytes.extend([0x1b, if self.guards { b')' } else { b'(' }]);
        }
        if cell.kind() != Kind::Attribute && cell.attributes() != self.looks {
            self.looks = cell.attributes();
            self.bytes.extend([0x1b, b'G', if self.looks.dim() { 0x60 } else { 0x30 } + self.looks.0]);
        }
        match cell.kind() {
            Kind::Text => {}
            Kind::Attribute => self.bytes.extend(b"\x1bG"),
            Kind::Graphic => self.bytes.extend(b"\x1bH"),
        }
        self.bytes.push(cell.code());
    }
}
