//! Scripts of calls, and the traces they leave.

mod bench;
mod digest;
pub mod limits;
mod line;
mod replay;
mod set;
mod state;
mod tools;
mod words;
mod write;

pub use bench::Bench;
pub use line::{write_script, Line};
use replay::Replay;
pub use set::set;
use std::io::{self, BufRead, Write};
pub use write::push_number;

const ROOM_FILLER: u8 = 0xEE;

/// The trace of a whole script, or none if a line is bad.
pub fn trace(script: &[Line]) -> Option<Vec<u8>> {
    let mut replay = Replay::new();
    let mut out = Vec::new();
    script
        .iter()
        .all(|line| replay.obey(line, &mut out))
        .then_some(out)
}

/// Runs a script as text. A bad line ends it with the line's number.
pub fn replay(mut script: impl BufRead, mut trace: impl Write) -> io::Result<Result<(), usize>> {
    let mut replay = Replay::new();
    let (mut line, mut out) = (Vec::new(), Vec::new());
    for line_number in 1.. {
        line.clear();
        if script.read_until(b'\n', &mut line)? == 0 {
            break;
        }
        let text = line.strip_suffix(b"\n").unwrap_or(&line);
        if text.is_empty() || text[0] == b'#' {
            continue;
        }
        let parsed = std::str::from_utf8(text).ok().and_then(Line::parse);
        if !parsed.is_some_and(|line| replay.obey(&line, &mut out)) {
            return Ok(Err(line_number));
        }
        trace.write_all(&out)?;
        out.clear();
    }
    Ok(Ok(()))
}
