//! The comparison itself: it agrees with our own answers, and finds a wrong line, a missing line, a program that cannot
//! start, and what no case has shown.

mod common;

use second::answers::{NO_ROOM, WRONG_TYPE};
use second::call::{BASES_OF_CODE, PACK, PAGE, WRITE_NUCLEOTIDES};
use second::comparison::{compare, knows};
use second::generate::order::Shows;
use second::generate::{cases, Case};
use second::line::line_of;
use second::outcome::Outcome;
use std::path::{Path, PathBuf};
use std::process::Command;

fn own_cases() -> &'static str {
    env!("CARGO_BIN_EXE_own-cases")
}

/// A script that runs our own answers with an option.
fn script(name: &str, options: &str) -> PathBuf {
    let path = Path::new(env!("CARGO_TARGET_TMPDIR")).join(name);
    std::fs::write(&path, format!("#!/bin/sh\nexec '{}' {options}\n", own_cases())).unwrap();
    assert!(Command::new("chmod").arg("+x").arg(&path).status().unwrap().success());
    path
}

#[test]
fn it_agrees_with_our_own_answers() {
    for byte in [PACK, WRITE_NUCLEOTIDES, BASES_OF_CODE] {
        let mut told = 0;
        let cases: Vec<Case> = cases(byte, 1, 0, &common::samples()).collect();
        let outcome = compare(Path::new(own_cases()), cases.clone().into_iter(), |done| told = done).unwrap();
        assert_eq!((outcome.cases, outcome.differences.len(), told), (cases.len(), 0, cases.len()));
    }
}

#[test]
fn it_finds_one_wrong_line() {
    let cases = cases(PACK, 1, 0, &common::samples()).take(100);
    let outcome = compare(&script("wrong-line", "--wrong 7"), cases, |_| {}).unwrap();
    assert_eq!(outcome.differences.len(), 1);
    assert_eq!(outcome.differences[0].found, format!("{}0", outcome.differences[0].expected));
}

#[test]
fn it_says_when_the_program_ends_early() {
    let cases = cases(PACK, 1, 0, &common::samples()).take(100);
    let outcome = compare(&script("ends-early", "--stop 90"), cases, |_| {}).unwrap();
    assert_eq!(outcome.differences.len(), 10);
    assert!(outcome.differences[0].found.contains("ended early after 90 of 100 lines"));
    assert!(outcome.differences[0].found.contains("stopped before line 90"));
}

#[test]
fn it_says_when_the_program_ends_with_another_status() {
    let cases = cases(PACK, 1, 0, &common::samples()).take(100);
    let outcome = compare(&script("other-status", "--status 3"), cases, |_| {}).unwrap();
    assert_eq!(outcome.differences.len(), 1);
    assert_eq!(outcome.differences[0].expected, "an end with status 0");
}

#[test]
fn it_says_when_the_program_cannot_start() {
    let cases = cases(PACK, 1, 0, &common::samples()).take(1);
    let answer = compare(Path::new("no-such-program"), cases, |_| {});
    assert!(answer.is_err_and(|error| error.contains("cannot start")));
}

#[test]
fn it_says_which_number_limit_or_pair_is_missing() {
    let mut outcome = Outcome::default();
    for case in cases(PACK, 1, 0, &common::samples()) {
        let is_left_out = case.shows == Some(Shows::side("amino", "each code is valid", "28 as the last"))
            || matches!(case.shows, Some(Shows::Pair { later: "each code is valid", .. }))
            || case.aim.is_none_or(|aim| aim == WRONG_TYPE);
        let line = line_of(&case.call);
        if !is_left_out {
            outcome.count(&case, &line, line.clone());
        }
    }
    assert_eq!(outcome.missed(PACK, false), [WRONG_TYPE]);
    let missing = outcome.not_shown(PACK);
    assert!(missing.contains(&Shows::side("amino", "each code is valid", "28 as the last")));
    assert!(missing.contains(&Shows::pair("nucleic", "the alphabet is 1, 2 or 3", "each code is valid")));
    assert_eq!(outcome.tell(PACK, false), 1 + missing.len());
}

#[test]
fn it_says_when_a_case_misses_its_aim() {
    let mut outcome = Outcome::default();
    let mut case = cases(PACK, 1, 0, &common::samples()).next().unwrap();
    case.aim = Some(NO_ROOM);
    let line = line_of(&case.call);
    outcome.count(&case, &line, line.clone());
    assert_eq!((outcome.differences.len(), outcome.shown.len()), (1, 0));
}

#[test]
fn it_says_when_a_page_has_another_count_done() {
    let mut case = cases(PAGE, 1, 0, &common::samples()).find(|case| case.done == Some(2)).unwrap();
    let line = line_of(&case.call);
    for (done, wrong) in [(2, 0), (1, 1), (3, 1)] {
        case.done = Some(done);
        let mut outcome = Outcome::default();
        outcome.count(&case, &line, line.clone());
        assert_eq!(outcome.differences.len(), wrong, "{done}");
    }
}

#[test]
fn it_finds_out_which_calls_a_program_knows() {
    let mut case = cases(PACK, 1, 0, &common::samples()).next().unwrap();
    assert_eq!(knows(Path::new(own_cases()), &case), Ok(true));
    case.call.byte = 77;
    assert_eq!(knows(Path::new(own_cases()), &case), Ok(false));
}
