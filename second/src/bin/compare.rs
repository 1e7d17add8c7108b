//! `compare CASES_PROGRAM [--calls 3,4,11,12 | --calls present] [--seed N] [--count N] [--samples DIR]`: makes cases for
//! each listed call, lets the program answer them, and holds its lines against our own and against the cases that the
//! documents print.

use second::call::signature;
use second::comparison::{compare, knows};
use second::generate::samples::{self, Samples};
use second::generate::{cases, GENERATED};
use second::line::line_of;
use second::options::{options, Options};
use second::outcome::Outcome;
use second::table;
use second::worked;
use std::collections::BTreeSet;
use std::io::{stderr, IsTerminal, Write};
use std::path::Path;
use std::process::ExitCode;

/// The calls asked for, or those of all that the program knows.
fn calls(program: &Path, options: &Options, samples: &Samples) -> Result<Vec<u8>, String> {
    let Some(calls) = &options.calls else {
        let mut known = Vec::new();
        for byte in GENERATED {
            let first = cases(byte, options.seed, 0, samples).next().ok_or("no cases")?;
            if knows(program, &first)? {
                known.push(byte);
            } else {
                println!("call {byte} is not in the program");
            }
        }
        return Ok(known);
    };
    Ok(calls.clone())
}

/// All cases of one call, with progress where somebody looks on.
fn outcome(program: &Path, byte: u8, options: &Options, samples: &Samples) -> Result<Outcome, String> {
    let name = signature(byte).map_or("", |signature| signature.name);
    let is_watched = stderr().is_terminal();
    let told = |done: usize| {
        if is_watched {
            eprint!("\rcall {byte} ({name}): {done} of {} cases   ", options.count.max(done));
            drop(stderr().flush());
        }
    };
    let outcome = compare(program, cases(byte, options.seed, options.count, samples), told)?;
    if is_watched {
        eprint!("\r{:70}\r", "");
    }
    Ok(outcome)
}

/// Document 01's own rows, as far as their calls are asked for; gives how many are wrong.
fn worked_rows(program: &Path, calls: &[u8]) -> Result<usize, String> {
    let (asked, others): (Vec<_>, Vec<_>) =
        worked::rows().into_iter().partition(|row| calls.contains(&row.call.byte));
    let mut wrong = 0;
    for row in &asked {
        let outcome = compare(program, [row.case()].into_iter(), |_| {})?;
        let is_ours = line_of(&row.call) == row.line;
        if !is_ours || !outcome.differences.is_empty() {
            wrong += 1;
            println!("DIFFERENCE in document 01's row \"{}\": {}", row.words, row.line);
            outcome.tell_differences();
        }
    }
    println!(
        "the cases that the documents print: {} of {} have the answers given there",
        asked.len() - wrong,
        asked.len()
    );
    if !others.is_empty() {
        let bytes: BTreeSet<u8> = others.iter().map(|row| row.call.byte).collect();
        println!("  {} rows more are of calls that are not asked for: {bytes:?}", others.len());
    }
    Ok(wrong)
}

fn run() -> Result<usize, String> {
    let options = options(std::env::args().skip(1))?;
    let [program] = &options.words[..] else {
        return Err("name one program that speaks CASES.md".to_string());
    };
    let program = Path::new(program);
    let samples = samples::load(&options.samples)?;
    let calls = calls(program, &options, &samples)?;
    let mut wrong = 0;
    let mut outcomes = Vec::new();
    for byte in &calls {
        let outcome = outcome(program, *byte, &options, &samples)?;
        wrong += outcome.tell(*byte, false);
        outcomes.push((*byte, outcome));
    }
    println!("{}", table::numbers(&outcomes, false));
    println!("{}", table::coverage(&outcomes));
    wrong += worked_rows(program, &calls)?;
    let cases: usize = outcomes.iter().map(|(_, outcome)| outcome.cases).sum();
    println!("seed {}: {cases} cases", options.seed);
    if wrong == 0 {
        println!("compare: {} calls agree", calls.len());
    } else {
        println!("compare: {wrong} differences");
    }
    Ok(wrong)
}

fn main() -> ExitCode {
    match run() {
        Ok(0) => ExitCode::SUCCESS,
        Ok(_) => ExitCode::FAILURE,
        Err(error) => {
            eprintln!("compare: {error}");
            ExitCode::FAILURE
        }
    }
}
