//! Cases for the volume check: the library's, and the console's.

use super::order::Order;
use super::rng::Rng;
use super::rules::{by_chance, order, sides_and_pairs, Damaged};
use super::samples::Samples;
use super::volume_rules::{rules, without_sequences};
use super::volumes::*;
use super::Case;
use crate::answers::*;
use crate::call::*;

/// A valid volume of n sequences whose residues, corrections and header records may be anything.
fn volume(kind: i128, n: usize, rng: &mut Rng) -> Plan {
    let stored = sequences(kind, n, true, rng);
    let records: Vec<Vec<u8>> = (0..n).map(|_| unread_record(rng)).collect();
    Plan::new(kind, &stored, &records, rng)
}

/// A volume in which every rule can be broken: a title, a timestamp, several sequences, some not empty. Its number
/// is the sequence that rules of offsets are broken at.
fn to_damage(kind: i128, rng: &mut Rng) -> Plan {
    loop {
        let n = rng.between(2, 6);
        let mut plan = volume(kind, n, rng);
        plan.number = rng.below(n) as u64;
        if !plan.title.is_empty() && !plan.timestamp.is_empty() && plan.header.len() > 1 && plan.count > 2 {
            return plan;
        }
    }
}

fn call(plan: &Plan, byte: u8, rng: &mut Rng) -> Call {
    let files = [plan.index(), plan.sequence.clone(), plan.header.clone()];
    let mut arguments: Vec<Argument> = files.into_iter().map(Argument::Range).collect();
    if byte == CONSOLE_VOLUME_CHECK {
        arguments.push(Argument::Output(plan.results, rng.byte()));
    }
    Call::new(byte, arguments)
}

pub fn planned(byte: u8, rng: &mut Rng, samples: &Samples) -> Vec<Case> {
    let mut cases = Vec::new();
    for (kind, title) in KINDS {
        let rules = rules(byte, kind);
        let call = |plan: &Plan, rng: &mut Rng| call(plan, byte, rng);
        cases.extend(sides_and_pairs(title, &rules, rng, |rng| to_damage(kind, rng), call));
    }
    for (kind, title) in WITHOUT_SEQUENCES {
        let rules = without_sequences(byte, kind);
        let call = |plan: &Plan, rng: &mut Rng| call(plan, byte, rng);
        cases.extend(sides_and_pairs(title, &rules, rng, |rng| volume(kind, 0, rng), call));
    }
    cases.extend(small_volumes(byte, rng));
    cases.extend(short_indexes(byte, rng));
    cases.extend(real(byte, rng, samples));
    if byte == CONSOLE_VOLUME_CHECK {
        cases.extend(result_sizes(byte, rng));
    }
    cases
}

pub fn orders(byte: u8) -> Vec<Order> {
    let some = KINDS.map(|(kind, title)| order(byte, title, &rules(byte, kind)));
    let none = WITHOUT_SEQUENCES.map(|(kind, title)| order(byte, title, &without_sequences(byte, kind)));
    [some, none].concat()
}

/// Volumes without sequences have rules of their own behind those of the index.
const WITHOUT_SEQUENCES: [(i128, &str); 2] = [(0, "DNA, no sequences"), (1, "protein, no sequences")];

/// No sequence, one, and the most that the protocol has room for.
fn small_volumes(byte: u8, rng: &mut Rng) -> Vec<Case> {
    let mut cases = Vec::new();
    for kind in [0, 1] {
        for n in [0, 0, 1, 1, 2, 3, 30] {
            let plan = volume(kind, n, rng);
            cases.push(Case::aimed(call(&plan, byte, rng), 0, format!("a volume of {n}")));
        }
        for n in [1000, 1300] {
            let stored: Vec<Stored> = (0..n).map(|_| stored(kind, n % 3, false, rng)).collect();
            let plan = Plan::new(kind, &stored, &vec![vec![]; n], rng);
            cases.push(Case::aimed(call(&plan, byte, rng), 0, format!("a volume of {n}")));
        }
    }
    cases
}

/// An index cut at each of its first bytes, whole at the end.
fn short_indexes(byte: u8, rng: &mut Rng) -> Vec<Case> {
    let mut cases = Vec::new();
    for kind in [0, 1] {
        let plan = volume(kind, 1, rng);
        let whole = plan.index().len();
        for length in 0..=whole {
            let mut call = call(&plan, byte, rng);
            call.arguments[0] = Argument::Range(plan.index()[..length].to_vec());
            let aim = if length == whole { 0 } else { ENDS_TOO_EARLY };
            cases.push(Case::aimed(call, aim, format!("an index of {length} of {whole} bytes")));
        }
    }
    cases
}

fn result_sizes(byte: u8, rng: &mut Rng) -> Vec<Case> {
    let mut cases = Vec::new();
    for results in (0..=72).step_by(4).chain([63, 65]) {
        let mut plan = volume(rng.below(2) as i128, 2, rng);
        plan.results = results;
        let aim = if results < 64 { NO_ROOM } else { 0 };
        cases.push(Case::aimed(call(&plan, byte, rng), aim, format!("results of {results} bytes")));
    }
    cases
}

fn real(byte: u8, rng: &mut Rng, samples: &Samples) -> Vec<Case> {
    let mut cases = Vec::new();
    for volume in &samples.volumes {
        let files = [&volume.index, &volume.sequence, &volume.header];
        let mut arguments: Vec<Argument> = files.into_iter().cloned().map(Argument::Range).collect();
        if byte == CONSOLE_VOLUME_CHECK {
            arguments.push(Argument::Output(64, rng.byte()));
        }
        cases.push(Case::free(Call::new(byte, arguments), format!("the volume {}", volume.name)));
    }
    cases
}

pub fn random(byte: u8, rng: &mut Rng) -> Case {
    let kind = rng.below(2) as i128;
    match rng.below(10) {
        0..=3 => {
            let n = rng.below(8);
            Case::aimed(call(&volume(kind, n, rng), byte, rng), 0, "valid")
        }
        4..=6 => {
            let plan = to_damage(kind, rng);
            let Damaged { plan, number, note } = by_chance(&rules(byte, kind), rng, plan);
            Case::aimed(call(&plan, byte, rng), number, note)
        }
        _ => {
            let n = rng.below(4);
            let plan = volume(kind, n, rng);
            let call = super::spoiled(call(&plan, byte, rng), &[0, 0, 0, 1, 2], rng);
            Case::free(call, "a byte changed")
        }
    }
}
