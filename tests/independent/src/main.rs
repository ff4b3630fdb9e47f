//! A WY-50 terminal of its own, to test another one against.

mod compare;
mod conformance;
mod counter;
mod generate;
mod mending;
mod pairs;
mod program;
mod random;
mod reading;
mod repainting;
mod setups;
mod shrink;
mod state;
mod terminal;
#[cfg(test)]
mod tests;
mod transcript;

use compare::Amount;
use program::Program;
use random::Random;
use std::io::{self, BufReader, BufWriter, Write};
use std::process::ExitCode;
use std::time::Duration;
use transcript::Line;

const USAGE: &str = "\
independent replay                                  script on standard input, trace on standard output
independent generate SEED CALLS                     a random script
independent conformance                             the conformance script
independent compare PROGRAM SEED CALLS [CALLS EACH] random scripts for PROGRAM and our own terminal
independent pairs PROGRAM SEED CALLS                pages that differ in protected cells alone
independent counter                                 counts on standard input, results on standard output
independent counter SEED LINES                      random counts
In the place of CALLS, compare and pairs take --seconds S. PROGRAM may have arguments, as \"PATH replay\".";

const BUFFER: usize = 1 << 16;
const SCRIPT_CALLS: usize = 2000;

fn main() -> ExitCode {
    let arguments: Vec<String> = std::env::args().skip(1).collect();
    let words: Vec<&str> = arguments.iter().map(String::as_str).collect();
    match obey(&words) {
        Ok(Some(true)) => ExitCode::SUCCESS,
        Ok(Some(false)) => ExitCode::FAILURE,
        Ok(None) => {
            eprintln!("{USAGE}");
            ExitCode::from(2)
        }
        Err(error) => {
            eprintln!("independent: {error}");
            ExitCode::from(2)
        }
    }
}

/// Whether the command went well; none if it is no command.
fn obey(words: &[&str]) -> io::Result<Option<bool>> {
    match words {
        ["replay"] => replay().map(Some),
        ["generate", seed, calls] => match (seed.parse(), calls.parse()) {
            (Ok(seed), Ok(calls)) => write_out(&random_script(seed, calls)).map(Some),
            _ => Ok(None),
        },
        ["conformance"] => write_out(&conformance::script()).map(Some),
        ["compare", program, seed, amount @ ..] => {
            let (Ok(seed), Some((amount, rest))) = (seed.parse(), parse_amount(amount)) else {
                return Ok(None);
            };
            let script_calls = match rest {
                [] => SCRIPT_CALLS,
                [calls] => calls.parse().unwrap_or(0),
                _ => 0,
            };
            if script_calls == 0 {
                return Ok(None);
            }
            compare::compare(&Program::new(program), seed, amount, script_calls).map(Some)
        }
        ["pairs", program, seed, amount @ ..] => match (seed.parse(), parse_amount(amount)) {
            (Ok(seed), Some((amount, []))) => {
                pairs::try_pairs(&Program::new(program), seed, amount).map(Some)
            }
            _ => Ok(None),
        },
        ["counter"] => answer_counts().map(Some),
        ["counter", seed, lines] => match (seed.parse(), lines.parse()) {
            (Ok(seed), Ok(lines)) => write_out(&random_counts(seed, lines)).map(Some),
            _ => Ok(None),
        },
        _ => Ok(None),
    }
}

/// CALLS or --seconds S, and what follows.
fn parse_amount<'a>(words: &'a [&'a str]) -> Option<(Amount, &'a [&'a str])> {
    match words {
        ["--seconds", seconds, rest @ ..] => Some((
            Amount::Time(Duration::from_secs(seconds.parse().ok()?)),
            rest,
        )),
        [calls, rest @ ..] => Some((Amount::Calls(calls.parse().ok()?), rest)),
        [] => None,
    }
}

fn replay() -> io::Result<bool> {
    let script = BufReader::with_capacity(BUFFER, io::stdin().lock());
    let mut trace = BufWriter::with_capacity(BUFFER, io::stdout().lock());
    let outcome = transcript::replay(script, &mut trace)?;
    trace.flush()?;
    Ok(all_lines_fitted(outcome))
}

fn answer_counts() -> io::Result<bool> {
    let lines = BufReader::with_capacity(BUFFER, io::stdin().lock());
    let mut results = BufWriter::with_capacity(BUFFER, io::stdout().lock());
    let outcome = counter::answer_lines(lines, &mut results)?;
    results.flush()?;
    Ok(all_lines_fitted(outcome))
}

fn all_lines_fitted(outcome: Result<(), usize>) -> bool {
    if let Err(line_number) = outcome {
        eprintln!("independent: line {line_number} fits none of the forms");
    }
    outcome.is_ok()
}

fn random_counts(seed: u64, lines: usize) -> Vec<u8> {
    let mut random = Random::new(seed);
    let script: Vec<Line> = (0..lines)
        .map(|_| generate::count_line(&mut random))
        .collect();
    transcript::write_script(&script)
}

fn random_script(seed: u64, calls: usize) -> Vec<u8> {
    transcript::write_script(&generate::script(seed, calls))
}

fn write_out(text: &[u8]) -> io::Result<bool> {
    io::stdout().write_all(text)?;
    Ok(true)
}
