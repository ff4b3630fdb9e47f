//! Mends a saved page that may be damaged.
//!
//! ```text
//! mend [-6] IN OUT    the page in IN, mended, to a new file OUT; what was changed is listed. -6: a WY-60 wrote it, else a WY-50
//! ```
//!
//! A page is 3,840 bytes, or 6,336 with 132 columns: a number for each cell in reading order, its low byte first. IN is only read.
use std::{env, error::Error, ffi::OsString, fs, fs::File, io, io::Read, io::Write, path::Path, process::ExitCode};
use wy50::{mend, Attributes, Cell, Mended, Personality, CELLS, WIDE_CELLS};

fn main() -> ExitCode {
    let words: Vec<OsString> = env::args_os().skip(1).collect();
    let done = match &words[..] {
        [option, file, out] if option == "-6" => mended(Personality::Wy60, file.as_ref(), out.as_ref()),
        [file, out] if file != "-6" => mended(Personality::Wy50, file.as_ref(), out.as_ref()),
        _ => Err("mend [-6] IN OUT".into()),
    };
    match done {
        Ok(()) => ExitCode::SUCCESS,
        Err(e) => {
            eprintln!("mend: {e}");
            ExitCode::FAILURE
        }
    }
}

fn mended(personality: Personality, file: &Path, out: &Path) -> Result<(), Box<dyn Error>> {
    let mut page = read(file).map_err(|e| format!("{}: {e}", file.display()))?;
    let mut list = [Mended::default(); WIDE_CELLS];
    let changed = mend(&mut page, personality, &mut list)?;
    write(out, &page).map_err(|e| format!("{}: {e}", out.display()))?;
    let mut said = io::stdout().lock();
    for &Mended { row, column, old, new } in changed {
        writeln!(said, "row {row}, column {column}: {old:04X}h ({}), now {new:04X}h", fault(old, personality))?;
    }
    match changed.len() {
        0 => writeln!(said, "nothing to mend")?,
        1 => writeln!(said, "1 cell mended")?,
        n => writeln!(said, "{n} cells mended")?,
    }
    Ok(())
}

fn read(file: &Path) -> io::Result<Vec<u16>> {
    let mut bytes = Vec::new();
    File::open(file)?.take(2 * WIDE_CELLS as u64 + 1).read_to_end(&mut bytes)?;
    if bytes.len() != 2 * CELLS && bytes.len() != 2 * WIDE_CELLS {
        return Err(io::Error::new(io::ErrorKind::InvalidData, "not a saved page, which has 3,840 or 6,336 bytes"));
    }
    Ok(bytes.chunks_exact(2).map(|b| u16::from_le_bytes([b[0], b[1]])).collect())
}

// Only to a file that is not there yet. One that cannot be written to its end is taken away again.
fn write(out: &Path, page: &[u16]) -> io::Result<()> {
    let mut file = File::create_new(out).map_err(|e| match e.kind() {
        io::ErrorKind::AlreadyExists => io::Error::new(e.kind(), "is there already and is left as it is: name a new file"),
        _ => e,
    })?;
    let bytes: Vec<u8> = page.iter().flat_map(|cell| cell.to_le_bytes()).collect();
    file.write_all(&bytes).and_then(|()| file.sync_all()).inspect_err(|_| drop(fs::remove_file(out)))
}

// Why a terminal of this personality does not write the number: the first reason that there is.
fn fault(number: u16, personality: Personality) -> String {
    let cell = Cell(number);
    let (code, attributes, wy50) = (cell.code(), cell.attributes(), personality == Personality::Wy50);
    let all = Attributes(31);
    match number >> 8 & 3 {
        _ if number >= 0x8000 => "the highest bit is set".to_string(),
        3 => "no kind of cell".to_string(),
        _ if wy50 && !attributes.is_normal() => "flags, which a WY-50 does not set".to_string(),
        _ if attributes.has(all) => "all five flags".to_string(),
        0 if code == 0 && cell.is_protected() => "a protected null".to_string(),
        0 if code == 0 => "a null with flags".to_string(),
        0 => format!("no text has code {code:02X}h"),
        2 => format!("no graphic has code {code:02X}h"),
        _ if !matches!(code, 0x30..=0x3f | 0x70..=0x7e) => format!("no attribute has code {code:02X}h"),
        _ if cell.is_protected() => "a protected attribute cell, which a WY-60 does not write".to_string(),
        _ => "an attribute cell with flags".to_string(),
    }
}
