//! Two terminals alike but for the contents of protected cells: what they give
//! back must agree, and no protected cell may change.

mod pair;

use crate::compare::{lines, print_text, Amount};
use crate::program::Program;
use crate::shrink::{shorten, shorten_script};
use crate::transcript;
use pair::Pair;
use std::io;
use std::time::Instant;

const PAIR_CALLS: usize = 200;

/// What differs between the two traces, if anything does.
fn difference(program: &Program, pair: &Pair) -> io::Result<Option<String>> {
    let traces = [
        program.trace(&transcript::write_script(&pair.script(0)))?,
        program.trace(&transcript::write_script(&pair.script(1)))?,
    ];
    let (first, second) = (lines(&traces[0]), lines(&traces[1]));
    let last = pair.calls.iter().filter(|call| call.is_output()).count();
    if first.len() != last + 1 || second.len() != first.len() {
        return Ok(Some(format!(
            "# {} and {} trace lines\n",
            first.len(),
            second.len()
        )));
    }
    for (a, b) in first[..last].iter().zip(&second[..last]) {
        if without_page(a) != without_page(b) {
            let (a, b) = (String::from_utf8_lossy(a), String::from_utf8_lossy(b));
            return Ok(Some(format!("# first\n{a}# second\n{b}")));
        }
    }
    Ok(page_difference(pair, [first[last], second[last]]))
}

fn without_page(line: &[u8]) -> &[u8] {
    let mark = b" page=";
    let place = line.windows(mark.len()).position(|window| window == mark);
    &line[..place.unwrap_or(line.len())]
}

/// What is wrong with the two pages shown at the end.
fn page_difference(pair: &Pair, shown: [&[u8]; 2]) -> Option<String> {
    let starts = [0, 1].map(|side| pair.start_bench(side).map(|bench| bench.terminal.page));
    let [Some(first_start), Some(second_start)] = starts else {
        return Some("# a line that cannot be set\n".to_string());
    };
    let starts = [first_start, second_start];
    let (Some((first, first_rest)), Some((second, second_rest))) =
        (shown_cells(shown[0]), shown_cells(shown[1]))
    else {
        return Some("# a page not shown\n".to_string());
    };
    if first_rest != second_rest {
        return Some(format!("# states\n# {first_rest}\n# {second_rest}\n"));
    }
    if first.len() != starts[0].len() || second.len() != starts[1].len() {
        return Some("# a page of another length\n".to_string());
    }
    (0..first.len()).find_map(|index| {
        let ends = [first[index], second[index]];
        let begins = [starts[0][index], starts[1][index]];
        let holds = if begins[0].is_protected() {
            ends == [begins[0].0, begins[1].0]
        } else {
            ends[0] == ends[1]
        };
        (!holds).then(|| {
            let [a, b] = begins.map(|cell| cell.0);
            format!(
                "# cell {index}: {a} and {b} became {} and {}\n",
                ends[0], ends[1]
            )
        })
    })
}

/// The cells of a shown page, and the state after them.
fn shown_cells(line: &[u8]) -> Option<(Vec<u16>, &str)> {
    let text = std::str::from_utf8(without_page(line)).ok()?;
    let (_, cells) = text.split_once(" cells=")?;
    let (cells, state) = cells.split_once(' ')?;
    if cells.is_empty() {
        return Some((Vec::new(), state));
    }
    let cells: Option<Vec<u16>> = cells.split(',').map(|cell| cell.parse().ok()).collect();
    Some((cells?, state))
}

/// Whether no pair differed.
pub fn try_pairs(program: &Program, first_seed: u64, amount: Amount) -> io::Result<bool> {
    let start = Instant::now();
    let (mut pairs, mut calls) = (0, 0);
    let mut agrees = true;
    while agrees {
        let next_calls = amount.next_calls(calls, start, PAIR_CALLS);
        if next_calls == 0 {
            break;
        }
        let seed = first_seed.wrapping_add(pairs);
        let pair = Pair::random(seed, next_calls);
        assert!(
            pair.must_agree(),
            "seed {seed} gives a pair outside the claim"
        );
        pairs += 1;
        calls += next_calls;
        if difference(program, &pair)?.is_some() {
            agrees = false;
            report(program, seed, pair)?;
        }
    }
    let (differences, seconds) = (!agrees as u8, start.elapsed().as_secs_f64());
    println!(
        "pairs: {pairs} pairs, {calls} calls, {differences} differences, {seconds:.1} seconds"
    );
    Ok(agrees)
}

fn report(program: &Program, seed: u64, mut pair: Pair) -> io::Result<()> {
    println!("# seed {seed}: the two traces differ, shortened to");
    let fails = |pair: &Pair| pair.must_agree() && matches!(difference(program, pair), Ok(Some(_)));
    pair.calls = shorten_script(&pair.calls, &mut |calls| {
        fails(&Pair {
            calls: calls.to_vec(),
            ..pair.clone()
        })
    });
    pair.cells = shorten(&pair.cells, &mut |cells| {
        fails(&Pair {
            cells: cells.to_vec(),
            ..pair.clone()
        })
    });
    pair.setting = shorten(&pair.setting, &mut |setting| {
        fails(&Pair {
            setting: setting.to_vec(),
            ..pair.clone()
        })
    });
    println!("# the first script");
    print_text(&transcript::write_script(&pair.script(0)));
    println!("# the second has these cells");
    for cell in &pair.cells {
        println!("cell {} {}", cell.index, cell.numbers[1]);
    }
    if let Some(text) = difference(program, &pair)? {
        print!("{text}");
    }
    Ok(())
}
