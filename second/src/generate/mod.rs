//! The cases that the library is compared on: valid inputs, damage aimed at every refusal, both sides of each
//! limit, two faults at once, real samples, and random changes. The same seed makes the same cases.

pub mod base_cases;
pub mod bodies;
pub mod byte_order_cases;
pub mod decode_cases;
pub mod decode_rules;
pub mod definitions;
pub mod dna;
pub mod identifier_cases;
pub mod identifier_rules;
pub mod index_rules;
pub mod kind_cases;
pub mod label_cases;
pub mod large;
pub mod lookup_cases;
pub mod metadata_rules;
pub mod nodes;
pub mod nucleotide_cases;
pub mod nucleotide_codes;
pub mod nucleotide_rules;
pub mod order;
pub mod pack_cases;
pub mod padded;
pub mod page_cases;
pub mod page_lists;
pub mod page_rules;
pub mod record_cases;
pub mod record_faults;
pub mod record_rules;
pub mod rng;
pub mod room_cases;
pub mod rules;
pub mod runs;
pub mod samples;
pub mod set_cases;
pub mod set_rules;
pub mod sets;
pub mod turned;
pub mod unpack_cases;
pub mod unpack_rules;
pub mod volume_cases;
pub mod volume_rules;
pub mod volumes;

use crate::call::*;
use crate::line::{done_of, number_of};
use order::{Order, Shows};
use rng::Rng;
use samples::Samples;

/// A call to compare. `aim` is the number that the generator means to reach, where it knows it, and `done` how many items
/// of a page; `shows` is what the case shows of the order of refusals.
#[derive(Clone, Debug)]
pub struct Case {
    pub call: Call,
    pub aim: Option<u32>,
    pub done: Option<usize>,
    pub note: String,
    pub shows: Option<Shows>,
}

impl Case {
    pub fn aimed(call: Call, aim: u32, note: impl Into<String>) -> Case {
        Case { call, aim: Some(aim), done: None, note: note.into(), shows: None }
    }

    pub fn free(call: Call, note: impl Into<String>) -> Case {
        Case { call, aim: None, done: None, note: note.into(), shows: None }
    }

    /// The same case, meant to have so many items done.
    pub fn with_done(mut self, done: usize) -> Case {
        self.done = Some(done);
        self
    }

    /// Whether a line has the number that the case aims at, and as many items done.
    pub fn is_hit_by(&self, line: &str) -> bool {
        let is_number = self.aim.is_none_or(|aim| number_of(line) == Some(aim));
        is_number && self.done.is_none_or(|done| done_of(line) == Some(done))
    }

    /// The same case, said to show a side of a rule or a pair of rules.
    pub fn showing(mut self, shows: Shows) -> Case {
        self.shows = Some(shows);
        self
    }
}

/// The calls that have a generator: all of them.
pub const GENERATED: [u8; 16] = [
    VOLUME_CHECK,
    DECODE,
    PACK,
    UNPACK,
    SET_CHECK,
    LOOKUP,
    IDENTIFIER,
    WALKER_STEP,
    LABEL,
    CONSOLE_VOLUME_CHECK,
    CONSOLE_PACK,
    CONSOLE_UNPACK,
    PAGE,
    WRITE_NUCLEOTIDES,
    BASES_OF_CODE,
    KIND_NAME,
];

/// The cases of a call: every planned one, then random ones until there are as many as asked.
pub fn cases(byte: u8, seed: u64, count: usize, samples: &Samples) -> impl Iterator<Item = Case> {
    let mut rng = Rng::new(seed.wrapping_mul(1_000_003).wrapping_add(byte as u64));
    let planned = planned(byte, &mut rng, samples);
    let more = count.saturating_sub(planned.len());
    planned.into_iter().chain((0..more).map(move |_| random(byte, &mut rng)))
}

/// Cases that are made in every comparison, whatever the count.
pub fn planned(byte: u8, rng: &mut Rng, samples: &Samples) -> Vec<Case> {
    match byte {
        VOLUME_CHECK | CONSOLE_VOLUME_CHECK => volume_cases::planned(byte, rng, samples),
        DECODE => decode_cases::planned(rng, samples),
        SET_CHECK => set_cases::planned(rng, samples),
        LOOKUP => lookup_cases::planned(rng, samples),
        IDENTIFIER | WALKER_STEP => record_cases::planned(byte, rng, samples),
        LABEL => label_cases::planned(rng, samples),
        PACK | CONSOLE_PACK => pack_cases::planned(byte, rng, samples),
        UNPACK | CONSOLE_UNPACK => unpack_cases::planned(byte, rng, samples),
        PAGE => page_cases::planned(rng, samples),
        WRITE_NUCLEOTIDES => nucleotide_cases::planned(rng, samples),
        BASES_OF_CODE => base_cases::planned(rng),
        KIND_NAME => kind_cases::planned(rng),
        other => panic!("no generator for call {other}"),
    }
}

/// The orders of refusals of a call, one for each kind of input that has rules of its own.
pub fn orders(byte: u8) -> Vec<Order> {
    match byte {
        VOLUME_CHECK | CONSOLE_VOLUME_CHECK => volume_cases::orders(byte),
        DECODE => decode_cases::orders(),
        SET_CHECK => set_cases::orders(),
        LOOKUP => lookup_cases::orders(),
        IDENTIFIER | WALKER_STEP => record_cases::orders(byte),
        LABEL => label_cases::orders(),
        PACK | CONSOLE_PACK => pack_cases::orders(byte),
        UNPACK | CONSOLE_UNPACK => unpack_cases::orders(byte),
        PAGE => page_cases::orders(),
        WRITE_NUCLEOTIDES => nucleotide_cases::orders(),
        BASES_OF_CODE => base_cases::orders(),
        KIND_NAME => kind_cases::orders(),
        other => panic!("no generator for call {other}"),
    }
}

/// One more case by chance.
pub fn random(byte: u8, rng: &mut Rng) -> Case {
    match byte {
        VOLUME_CHECK | CONSOLE_VOLUME_CHECK => volume_cases::random(byte, rng),
        DECODE => decode_cases::random(rng),
        SET_CHECK => set_cases::random(rng),
        LOOKUP => lookup_cases::random(rng),
        IDENTIFIER | WALKER_STEP => record_cases::random(byte, rng),
        LABEL => label_cases::random(rng),
        PACK | CONSOLE_PACK => pack_cases::random(byte, rng),
        UNPACK | CONSOLE_UNPACK => unpack_cases::random(byte, rng),
        PAGE => page_cases::random(rng),
        WRITE_NUCLEOTIDES => nucleotide_cases::random(rng),
        BASES_OF_CODE => base_cases::random(rng),
        KIND_NAME => kind_cases::random(rng),
        other => panic!("no generator for call {other}"),
    }
}

/// The call with one to three bytes changed in one of these ranges, or one byte less or more.
fn spoiled(mut call: Call, ranges: &[usize], rng: &mut Rng) -> Call {
    let at = *rng.pick(ranges);
    if let Argument::Range(bytes) = &mut call.arguments[at] {
        match rng.below(8) {
            0 => drop(bytes.pop()),
            1 => bytes.push(rng.byte()),
            _ if bytes.is_empty() => {}
            _ => {
                for _ in 0..rng.between(1, 3) {
                    let place = rng.below(bytes.len());
                    bytes[place] =
                        if rng.chance(50) { rng.byte() } else { bytes[place] ^ (1 << rng.below(8)) };
                }
            }
        }
    }
    call
}
