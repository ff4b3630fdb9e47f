//! Random scripts for a program and for our own terminal: the traces must agree.

use crate::generate;
use crate::program::Program;
use crate::shrink::shorten_script;
use crate::transcript::{self, Line};
use std::io;
use std::time::{Duration, Instant};

/// How long to go on.
#[derive(Clone, Copy)]
pub enum Amount {
    Calls(usize),
    Time(Duration),
}

impl Amount {
    /// How many calls the next script may have, 0 when it is enough.
    pub fn next_calls(self, done: usize, start: Instant, script_calls: usize) -> usize {
        match self {
            Amount::Calls(calls) => calls.saturating_sub(done).min(script_calls),
            Amount::Time(time) if start.elapsed() < time => script_calls,
            Amount::Time(_) => 0,
        }
    }
}

/// Whether all traces agreed.
pub fn compare(
    program: &Program,
    first_seed: u64,
    amount: Amount,
    script_calls: usize,
) -> io::Result<bool> {
    let start = Instant::now();
    let (mut scripts, mut calls, mut bytes) = (0, 0, 0);
    let mut agrees = true;
    while agrees {
        let next_calls = amount.next_calls(calls, start, script_calls);
        if next_calls == 0 {
            break;
        }
        let seed = first_seed.wrapping_add(scripts);
        let script = generate::script(seed, next_calls);
        scripts += 1;
        calls += next_calls;
        bytes += script.iter().map(Line::byte_count).sum::<usize>();
        if let Some(line) = differing_line(program, &script)? {
            agrees = false;
            report(program, seed, &script, line)?;
        }
    }
    let (mismatches, seconds) = (!agrees as u8, start.elapsed().as_secs_f64());
    println!(
        "compare: {scripts} scripts, {calls} calls, {bytes} bytes, \
         {mismatches} mismatches, {seconds:.1} seconds"
    );
    Ok(agrees)
}

/// The number of the first trace line that differs, from 0.
fn differing_line(program: &Program, script: &[Line]) -> io::Result<Option<usize>> {
    let Some(ours) = transcript::trace(script) else {
        return Ok(None);
    };
    let theirs = program.trace(&transcript::write_script(script))?;
    if ours == theirs {
        return Ok(None);
    }
    let (ours, theirs) = (lines(&ours), lines(&theirs));
    let same = ours.iter().zip(&theirs).take_while(|(a, b)| a == b).count();
    Ok(Some(same))
}

pub fn lines(trace: &[u8]) -> Vec<&[u8]> {
    trace.split_inclusive(|&byte| byte == b'\n').collect()
}

fn report(program: &Program, seed: u64, script: &[Line], line: usize) -> io::Result<()> {
    println!(
        "# seed {seed}: trace line {} differs, shortened to",
        line + 1
    );
    let start = through_output(script, line);
    let mut still_differs =
        |script: &[Line]| matches!(differing_line(program, script), Ok(Some(_)));
    let shortest = shorten_script(start, &mut still_differs);
    print_text(&transcript::write_script(&shortest));
    let ours = transcript::trace(&shortest).unwrap_or_default();
    let theirs = program.trace(&transcript::write_script(&shortest))?;
    let line = differing_line(program, &shortest)?.unwrap_or(0);
    println!("# ours");
    print_text(lines(&ours).get(line).unwrap_or(&&b"nothing\n"[..]));
    println!("# the program's");
    print_text(lines(&theirs).get(line).unwrap_or(&&b"nothing\n"[..]));
    Ok(())
}

/// The script up to the line that makes this trace line; all of it if none does.
fn through_output(script: &[Line], output: usize) -> &[Line] {
    let outputs = script
        .iter()
        .enumerate()
        .filter(|(_, line)| line.is_output());
    match outputs.map(|(place, _)| place).nth(output) {
        Some(place) => &script[..=place],
        None => script,
    }
}

pub fn print_text(text: &[u8]) {
    print!("{}", String::from_utf8_lossy(text));
}
