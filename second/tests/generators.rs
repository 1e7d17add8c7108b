//! The generators do what they say: every aimed case gives its number and has as many items done, every number is reached,
//! every case goes through the protocol, and our own answers agree through it.

mod common;

use second::call::{MOST_RANGE, PAGE, WRITE_NUCLEOTIDES};
use second::generate::{cases, GENERATED};
use second::line::{done_of, line_of};
use second::outcome::Outcome;
use second::serve::lines_of;
use second::stream::stream_of;

#[test]
fn every_aimed_case_gives_its_number() {
    let samples = common::samples();
    for byte in GENERATED {
        for case in cases(byte, 5, 3000, &samples) {
            let line = line_of(&case.call);
            assert!(case.is_hit_by(&line), "call {byte}, {}: {line}, {:?}", case.note, case);
        }
    }
}

#[test]
fn every_aimed_page_says_how_many_are_done() {
    let samples = common::samples();
    let aimed: Vec<_> = cases(PAGE, 5, 3000, &samples).filter(|case| case.aim.is_some()).collect();
    assert!(aimed.iter().all(|case| case.done.is_some()));
    // Each refusal of an item comes behind none, behind some, and with none left behind it.
    for number in [7, 8, 10, 11, 12, 13] {
        let refused = || aimed.iter().filter(|case| case.aim == Some(number));
        let done = |case: &second::generate::Case| done_of(&line_of(&case.call)).unwrap();
        assert!(refused().any(|case| done(case) == 0), "{number}");
        assert!(refused().any(|case| (1..case.call.numbers(2).len() - 1).contains(&done(case))), "{number}");
        assert!(refused().any(|case| done(case) > 0 && done(case) == case.call.numbers(2).len() - 1));
    }
}

#[test]
fn written_codes_have_every_stretch_around_whole_pieces() {
    let lists: Vec<Vec<u8>> = cases(WRITE_NUCLEOTIDES, 5, 0, &common::samples())
        .filter(|case| case.aim == Some(0))
        .map(|case| case.call.range(0).to_vec())
        .collect();
    let has = |wanted: &dyn Fn(&[&[u8]]) -> bool| {
        lists.iter().any(|codes| wanted(&codes.chunk_by(|one, next| one == next).collect::<Vec<_>>()))
    };
    for (code, length) in (4..=15).flat_map(|code| [15, 16, 17, 32, 33].map(|length| (code, length))) {
        let stretch: &[u8] = &vec![code; length];
        assert!(has(&|all| all == [stretch]), "{length} of {code} alone");
        assert!(has(&|all| all.len() > 1 && all[0] == stretch), "{length} of {code} at the start");
        assert!(has(&|all| all.len() > 2 && all[1..all.len() - 1].contains(&stretch)));
        assert!(has(&|all| all.len() > 1 && all[all.len() - 1] == stretch), "{length} of {code} at the end");
    }
    for length in (0..=9).chain([MOST_RANGE - 1, MOST_RANGE]) {
        assert!(lists.iter().any(|codes| codes.len() == length && codes.iter().all(|code| *code < 4)));
        assert!(length == 0 || lists.iter().any(|codes| codes.len() == length && codes[0] >= 4), "{length}");
    }
}

#[test]
fn every_number_limit_and_pair_is_reached() {
    let samples = common::samples();
    for byte in GENERATED {
        let mut outcome = Outcome::default();
        for case in cases(byte, 6, 0, &samples) {
            let line = line_of(&case.call);
            outcome.count(&case, &line, line.clone());
        }
        assert_eq!(outcome.missed(byte, false), [], "call {byte}");
        assert_eq!(outcome.not_shown(byte), [], "call {byte}");
    }
}

#[test]
fn every_case_goes_through_the_protocol() {
    let samples = common::samples();
    for byte in GENERATED {
        for batch in cases(byte, 7, 1500, &samples).collect::<Vec<_>>().chunks(100) {
            assert!(batch.iter().all(|case| case.call.fits_protocol()));
            let stream: Vec<u8> = batch.iter().flat_map(|case| stream_of(&case.call)).collect();
            let expected: Vec<String> = batch.iter().map(|case| line_of(&case.call)).collect();
            assert_eq!(lines_of(&stream), expected);
        }
    }
}

#[test]
fn the_same_seed_makes_the_same_cases() {
    let samples = common::samples();
    for byte in GENERATED {
        let calls = |seed| -> Vec<_> { cases(byte, seed, 1000, &samples).map(|case| case.call).collect() };
        assert_eq!(calls(3), calls(3));
        assert_ne!(calls(3), calls(4));
    }
}
