//! Cases for the set check, in both byte orders. What the orders themselves ask stands in `byte_order_cases`.

use super::byte_order_cases;
use super::order::Order;
use super::rng::Rng;
use super::rules::{by_chance, order, sides_and_pairs, Change, Damaged};
use super::runs;
use super::samples::Samples;
use super::set_rules::rules;
use super::sets::{tag, Plan, Record};
use super::turned::Files;
use super::Case;
use crate::answers::*;
use crate::call::*;
use crate::fields::ByteOrder;
use crate::residues::Alphabet;

/// The kinds of sets, and what their rules are called.
const KINDS: [(Alphabet, ByteOrder, &str); 4] = [
    (Alphabet::Nucleic, ByteOrder::Little, "nucleic, little-endian"),
    (Alphabet::Amino, ByteOrder::Little, "amino, little-endian"),
    (Alphabet::Nucleic, ByteOrder::Big, "nucleic, big-endian"),
    (Alphabet::Amino, ByteOrder::Big, "amino, big-endian"),
];

/// A set in which every rule can be broken: at least three sequences, each with a run of two packets.
pub fn to_damage(alphabet: Alphabet, byte_order: ByteOrder, rng: &mut Rng) -> Plan {
    let n = rng.between(3, 5);
    let number = if alphabet == Alphabet::Amino { 3 } else { rng.between(1, 2) };
    let all: Vec<Vec<u32>> = (0..n).map(|_| runs::numbers(&runs::run(alphabet, 2, rng))).collect();
    let records = (0..n).map(|_| Record::by_chance(rng)).collect();
    let mut plan = Plan::new(number as i128, &all, records, tag(rng), byte_order);
    plan.at = rng.below(n);
    plan
}

fn call(plan: &Plan) -> Call {
    call_on(plan.files())
}

pub fn call_on(files: Files) -> Call {
    Call::new(SET_CHECK, files.into_iter().map(Argument::Range).collect())
}

pub fn planned(rng: &mut Rng, samples: &Samples) -> Vec<Case> {
    let mut cases = Vec::new();
    for (alphabet, byte_order, title) in KINDS {
        let valid = |rng: &mut Rng| to_damage(alphabet, byte_order, rng);
        cases.extend(sides_and_pairs(title, &rules(alphabet), rng, valid, |plan, _| call(plan)));
    }
    for byte_order in ByteOrder::BOTH {
        cases.extend(small_sets(byte_order, rng));
        cases.extend(texts(byte_order, rng));
        cases.extend(taxonomy_ids(byte_order, rng));
        cases.extend(lengths(byte_order, rng));
        cases.extend(real(byte_order, samples));
        cases.extend((0..BY_CHANCE).map(|_| random_in(byte_order, rng)));
    }
    cases.extend(byte_order_cases::planned(rng));
    cases
}

/// How many cases of each byte order come by chance, whatever the count.
const BY_CHANCE: usize = 250;

pub fn orders() -> Vec<Order> {
    KINDS.map(|(alphabet, _, title)| order(SET_CHECK, title, &rules(alphabet))).to_vec()
}

/// No sequence, one, many; and bodies where there should be none.
fn small_sets(byte_order: ByteOrder, rng: &mut Rng) -> Vec<Case> {
    let mut cases = Vec::new();
    for n in [0, 0, 1, 1, 2, 100, 300] {
        let plan = Plan::by_chance(n, byte_order, rng);
        cases.push(Case::aimed(call(&plan), 0, format!("a set of {n}")));
    }
    let changes: [(u32, &str, Change<Plan>); 6] = [
        (BAD_OFFSETS, "metadata", |plan| plan.metadata.push(1)),
        (BAD_OFFSETS, "a packet", |plan| plan.packets.push(u32::MAX)),
        (ENDS_TOO_EARLY, "half a packet", |plan| plan.odd = vec![0; 2]),
        (LEFT_OVER, "an end", |plan| plan.behind = vec![255; 16]),
        (WRONG_TOTALS, "residues", |plan| plan.residues = 1),
        (WRONG_TOTALS, "a longest name", |plan| plan.longest[0] = 1),
    ];
    for (aim, note, change) in changes {
        let mut plan = Plan::by_chance(0, byte_order, rng);
        change(&mut plan);
        cases.push(Case::aimed(call(&plan), aim, format!("no sequences, but {note}")));
    }
    cases
}

/// A set of one sequence with this metadata.
fn with_record(record: Record, byte_order: ByteOrder, rng: &mut Rng) -> Call {
    let run = runs::numbers(&runs::run(Alphabet::Amino, 1, rng));
    call(&Plan::new(3, &[run], vec![record], tag(rng), byte_order))
}

/// Every byte in every text.
fn texts(byte_order: ByteOrder, rng: &mut Rng) -> Vec<Case> {
    let mut cases = Vec::new();
    for byte in (1..=40).chain([127, 128, 160, 255]) {
        let is_word = !(9..=13).contains(&byte) && byte != 32;
        for (place, is_good) in [(0, is_word), (1, is_word), (2, byte != 10)] {
            let mut record = Record::by_chance(rng);
            let text = [&mut record.name, &mut record.accession, &mut record.description];
            text.into_iter().nth(place).expect("three texts").push(byte);
            let aim = if is_good { 0 } else { BAD_METADATA };
            let call = with_record(record, byte_order, rng);
            cases.push(Case::aimed(call, aim, format!("byte {byte} in text {place}")));
        }
    }
    cases
}

/// Of some the turned number would be good and is not, or the other way round.
fn taxonomy_ids(byte_order: ByteOrder, rng: &mut Rng) -> Vec<Case> {
    let mut cases = Vec::new();
    let ids = [
        -2_147_483_648,
        -2_147_483_647,
        -256,
        -2,
        -1,
        0,
        1,
        2,
        127,
        128,
        255,
        256,
        9606,
        65_536,
        1 << 24,
        2_147_483_520,
        2_147_483_647,
    ];
    for id in ids {
        let mut record = Record::by_chance(rng);
        record.taxonomy_id = id;
        let aim = if id == -1 || id >= 1 { 0 } else { BAD_METADATA };
        let call = with_record(record, byte_order, rng);
        cases.push(Case::aimed(call, aim, format!("taxonomy id {id}")));
    }
    cases
}

/// Each file at every length around its least.
fn lengths(byte_order: ByteOrder, rng: &mut Rng) -> Vec<Case> {
    let mut cases = Vec::new();
    let whole = call(&Plan::by_chance(1, byte_order, rng));
    let empty = call(&Plan::by_chance(0, byte_order, rng));
    for (call, argument) in [&whole, &empty].into_iter().flat_map(|call| [(call, 0), (call, 1), (call, 2)]) {
        let bytes = call.range(argument).to_vec();
        for length in 0..bytes.len() {
            let mut call = call.clone();
            call.arguments[argument] = Argument::Range(bytes[..length].to_vec());
            cases.push(Case::free(call, format!("file {argument} of {length} bytes")));
        }
    }
    cases
}

/// Every real set.
fn real(byte_order: ByteOrder, samples: &Samples) -> Vec<Case> {
    let case = |call: Call, name: &str| Case::free(call, format!("the set {name}, {byte_order:?}"));
    samples.sets.iter().map(|set| case(call_on(set.files_in(byte_order)), &set.name)).collect()
}

pub fn random(rng: &mut Rng) -> Case {
    let byte_order = *rng.pick(&ByteOrder::BOTH);
    random_in(byte_order, rng)
}

fn random_in(byte_order: ByteOrder, rng: &mut Rng) -> Case {
    match rng.below(10) {
        0..=3 => {
            let n = rng.below(9);
            Case::aimed(call(&Plan::by_chance(n, byte_order, rng)), 0, "valid")
        }
        4..=6 => {
            let (alphabet, _) = *rng.pick(&runs::ALPHABETS);
            let plan = to_damage(alphabet, byte_order, rng);
            let Damaged { plan, number, note } = by_chance(&rules(alphabet), rng, plan);
            Case::aimed(call(&plan), number, note)
        }
        _ => {
            let n = rng.below(4);
            let call = call(&Plan::by_chance(n, byte_order, rng));
            Case::free(super::spoiled(call, &[0, 0, 1, 2], rng), "a byte changed")
        }
    }
}
