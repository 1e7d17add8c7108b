//! `face [--seed N] [--count N] [--samples DIR]`: calls the static library's C functions directly, and the timing library's
//! set check, page and writing of nucleotides, with guard bytes around every lent range, on the cases of `compare` and on
//! ranges too large for its protocol; of decoding, only those.

mod chromosomes;
mod large;
mod lent;
mod library;
mod lines;
mod long;
mod nucleotides;
mod page;
mod sets;
mod timing;

use second::call::*;
use second::generate::{cases, large::asked, samples};
use second::line::line_of;
use second::options::{options, Options};
use second::outcome::Outcome;
use second::table;
use std::process::ExitCode;

/// The calls whose 22 is shown in one way.
fn calls(large: Large) -> impl Iterator<Item = u8> {
    SIGNATURES.iter().filter(move |signature| signature.large == large).map(|signature| signature.byte)
}

/// Whether a C function takes all cases of a call, and not only ranges that are too large.
fn takes_cases(byte: u8) -> bool {
    [SET_CHECK, PAGE, WRITE_NUCLEOTIDES].contains(&byte) || calls(Large::CFunction).any(|other| other == byte)
}

/// All cases of one call, and its large ranges.
fn outcome(byte: u8, options: &Options, samples: &samples::Samples, large: &[u8]) -> Result<Outcome, String> {
    let mut outcome = Outcome::default();
    for (shift, case) in cases(byte, options.seed, options.count, samples).enumerate() {
        outcome.count(&case, &line_of(&case.call), lines::library_line(&case.call, shift));
    }
    match byte {
        CONSOLE_PACK => large::pack(&mut outcome, large)?,
        CONSOLE_UNPACK => large::unpack(&mut outcome, large)?,
        CONSOLE_VOLUME_CHECK => large::check_volume(&mut outcome, large),
        SET_CHECK => sets::large(&mut outcome, large),
        PAGE => page::large(&mut outcome, large),
        WRITE_NUCLEOTIDES => long::large(&mut outcome, large)?,
        other => return Err(format!("no C function takes the cases of call {other}")),
    }
    Ok(outcome)
}

/// What the protocol of `compare` has no room for, of a call whose cases go through that alone.
fn timed(byte: u8, options: &Options, large: &[u8]) -> Result<Outcome, String> {
    let mut outcome = Outcome::default();
    match byte {
        DECODE => {
            timing::decode_large(&mut outcome, large);
            chromosomes::long(&mut outcome, options.seed);
        }
        other => return Err(format!("the timing library has no call {other}")),
    }
    Ok(outcome)
}

/// Tells what was shown of 22; gives how much is missing.
fn tell_22(byte: u8, outcome: &Outcome) -> usize {
    let signature = signature(byte).expect("a call");
    let missing: Vec<_> = asked(byte).into_iter().filter(|shows| !outcome.shown.contains(shows)).collect();
    for shows in &missing {
        println!("NOT SHOWN: call {byte} ({}), {shows}", signature.name);
    }
    let count = asked(byte).len();
    println!(
        "22 of call {byte} ({}), {}: {} of {count} shown: each input at the limit, past it, and past it with the number asked next",
        signature.name,
        signature.large.words(),
        count - missing.len(),
    );
    missing.len()
}

fn run() -> Result<usize, String> {
    let options = options(std::env::args().skip(1))?;
    let samples = samples::load(&options.samples)?;
    let large = large::too_large()?;
    let (whole, only_large): (Vec<u8>, Vec<u8>) =
        calls(Large::CFunction).chain(calls(Large::Timing)).partition(|byte| takes_cases(*byte));
    let mut wrong = 0;
    let mut outcomes = Vec::new();
    for byte in whole {
        let outcome = outcome(byte, &options, &samples, large)?;
        wrong += outcome.tell(byte, true);
        outcomes.push((byte, outcome));
    }
    println!("{}", table::numbers(&outcomes, true));
    for byte in only_large {
        let outcome = timed(byte, &options, large)?;
        outcome.tell_differences();
        wrong += outcome.differences.len();
        outcomes.push((byte, outcome));
    }
    for (byte, outcome) in &outcomes {
        wrong += tell_22(*byte, outcome);
    }
    if wrong == 0 {
        println!("face: {} calls agree", outcomes.len());
    } else {
        println!("face: {wrong} differences");
    }
    Ok(wrong)
}

fn main() -> ExitCode {
    match run() {
        Ok(0) => ExitCode::SUCCESS,
        Ok(_) => ExitCode::FAILURE,
        Err(error) => {
            eprintln!("face: {error}");
            ExitCode::FAILURE
        }
    }
}
