//! Cases for packing: on packets, and the console's.

use super::order::Order;
use super::rng::Rng;
use super::rules::{by_chance, order, rule, sides_and_pairs, Damaged, Rule};
use super::samples::Samples;
use super::{room_cases, runs, Case};
use crate::answers::*;
use crate::call::*;
use crate::packets::run_of;
use crate::residues::Alphabet;

/// What a packing call gets. `spare` and `results` are lengths in bytes that only the console's call has.
#[derive(Clone, Debug)]
pub struct Plan {
    pub alphabet: u64,
    pub codes: Vec<u8>,
    pub place: u64,
    pub room: usize,
    pub spare: usize,
    pub results: usize,
}

impl Plan {
    /// Codes packed at a place, into a buffer that has room behind the run as well.
    fn new(number: u64, alphabet: Alphabet, codes: Vec<u8>, rng: &mut Rng) -> Plan {
        let packets = run_of(alphabet, &codes).len();
        let place = *rng.pick(&[0, 0, 1, 2, 7]);
        let room = place + packets + *rng.pick(&[0, 0, 1, 5]);
        let results = 16 + *rng.pick(&[0, 0, 1, 8]);
        Plan { alphabet: number, codes, place: place as u64, room, spare: rng.below(4), results }
    }

    fn by_chance(rng: &mut Rng) -> Plan {
        let (number, alphabet) = runs::alphabet(rng);
        let length = runs::length(rng);
        Plan::new(number, alphabet, runs::codes(alphabet, length, rng), rng)
    }

    pub fn call(self, byte: u8, rng: &mut Rng) -> Call {
        let alphabet = Argument::Number(self.alphabet);
        let codes = Argument::Range(self.codes);
        let place = Argument::Number(self.place);
        if byte == PACK {
            let buffer = Argument::PacketOutput(self.room, rng.number() as u32);
            return Call::new(byte, vec![alphabet, codes, place, buffer]);
        }
        let buffer = Argument::Output(4 * self.room + self.spare, rng.byte());
        let results = Argument::Output(self.results, rng.byte());
        Call::new(byte, vec![alphabet, codes, buffer, place, results])
    }

    /// The place. A huge one is cut: no buffer has it either way.
    pub fn near_place(&self) -> usize {
        self.place.min(64) as usize
    }
}

/// The rules of packing in the order of its refusals.
fn rules(byte: u8, alphabet: Alphabet) -> Vec<Rule<Plan>> {
    let mut rules = vec![
        runs::alphabet_rule(alphabet, |plan: &mut Plan| &mut plan.alphabet),
        code_rule(alphabet),
        fits_rule(),
        room_cases::room_rule(alphabet),
        place_rule(),
    ];
    if byte == CONSOLE_PACK {
        rules.push(
            rule(NO_ROOM, "only whole packets of the buffer count")
                .passes("3 bytes behind the last that is needed", |plan: &mut Plan| {
                    (plan.room, plan.spare) = (run_end(plan), 3)
                })
                .breaks("3 bytes of the last that is needed", |plan| {
                    (plan.room, plan.spare) = (run_end(plan) - 1, 3)
                }),
        );
        rules.push(runs::results_rule(|plan: &mut Plan| &mut plan.results));
    }
    rules
}

fn code_rule(alphabet: Alphabet) -> Rule<Plan> {
    let first_bad = alphabet.letters().len() as u8;
    rule(BAD_CODE, "each code is valid")
        .passes(format!("{} as the first", first_bad - 1), move |plan: &mut Plan| {
            plan.codes[0] = first_bad - 1;
            plan.room = run_end(plan);
        })
        .passes(format!("{} as the last", first_bad - 1), move |plan| {
            *plan.codes.last_mut().expect("a code") = first_bad - 1;
            plan.room = run_end(plan);
        })
        .breaks(format!("{first_bad} as the first"), move |plan| plan.codes[0] = first_bad)
        .breaks(format!("{first_bad} as the last"), move |plan| {
            *plan.codes.last_mut().expect("a code") = first_bad
        })
        .farther(spoil_code)
}

fn fits_rule() -> Rule<Plan> {
    rule(NO_ROOM, "the run ends within the buffer")
        .passes("at its end", |plan: &mut Plan| (plan.room, plan.spare) = (run_end(plan), 0))
        .breaks("one packet behind", |plan| (plan.room, plan.spare) = (run_end(plan) - 1, 0))
}

fn place_rule() -> Rule<Plan> {
    rule(NO_ROOM, "the place lies within the buffer")
        .passes("the last packet, for a run of one", |plan: &mut Plan| {
            plan.codes.truncate(6);
            plan.place = plan.room as u64 - 1;
        })
        .breaks("the buffer's length", |plan| plan.place = plan.room as u64)
        .breaks("0 in no buffer", |plan| (plan.room, plan.spare, plan.place) = (0, 0, 0))
        .breaks("2^62, which times 4 is 0 in 64 bits", |plan| plan.place = 1 << 62)
        .breaks("2^64 - 1", |plan| plan.place = u64::MAX)
        .farther(|plan, rng| plan.place = huge_place(rng))
}

/// Where the run ends in the buffer, in packets.
fn run_end(plan: &Plan) -> usize {
    let alphabet = if plan.alphabet == 3 { Alphabet::Amino } else { Alphabet::Nucleic };
    plan.near_place() + run_of(alphabet, &plan.codes).len()
}

/// A place that no buffer has, also such as wrap when they are multiplied by four or added to.
fn huge_place(rng: &mut Rng) -> u64 {
    let near = rng.below(3) as u64;
    *rng.pick(&[4097, 1 << 30, 1 << 32, 1 << 61, 1 << 62, (1 << 62) + near, 1 << 63, u64::MAX - near])
}

fn spoil_code(plan: &mut Plan, rng: &mut Rng) {
    let first_bad = if plan.alphabet == 3 { 28 } else { 16 };
    let at = *rng.pick(&[0, plan.codes.len() - 1, rng.clone().below(plan.codes.len())]);
    plan.codes[at] = *rng.pick(&[first_bad, first_bad, 30, 31, 32, 128, 255]);
}

/// A plan in which every rule can be broken: it has a code.
fn to_damage(alphabet: Alphabet, rng: &mut Rng) -> Plan {
    let number = if alphabet == Alphabet::Amino { 3 } else { rng.between(1, 2) as u64 };
    let length = runs::length(rng).max(1);
    Plan::new(number, alphabet, runs::codes(alphabet, length, rng), rng)
}

pub fn planned(byte: u8, rng: &mut Rng, samples: &Samples) -> Vec<Case> {
    let mut cases = Vec::new();
    for (alphabet, title) in runs::ALPHABETS {
        let rules = rules(byte, alphabet);
        let call = |plan: &Plan, rng: &mut Rng| plan.clone().call(byte, rng);
        cases.extend(sides_and_pairs(title, &rules, rng, |rng| to_damage(alphabet, rng), call));
    }
    cases.extend(every_code(byte, rng));
    cases.extend(lengths(byte, rng));
    cases.extend(places(byte, rng));
    cases.extend(real(byte, rng, samples));
    if byte == CONSOLE_PACK {
        cases.extend(result_sizes(byte, rng));
    }
    cases.extend(room_cases::planned(byte, rng));
    // As many as the default count left room for before the room cases came.
    cases.extend((0..1400).map(|_| random(byte, rng)));
    cases
}

pub fn orders(byte: u8) -> Vec<Order> {
    runs::ALPHABETS.map(|(alphabet, title)| order(byte, title, &rules(byte, alphabet))).to_vec()
}

/// Every code around the last valid one, in each alphabet.
fn every_code(byte: u8, rng: &mut Rng) -> Vec<Case> {
    let mut cases = Vec::new();
    for number in 1..=3 {
        let alphabet = if number == 3 { Alphabet::Amino } else { Alphabet::Nucleic };
        for code in (0..=40).chain([127, 128, 255]) {
            let plan = Plan::new(number, alphabet, vec![code], rng);
            let aim = if alphabet.is_code(code) { 0 } else { BAD_CODE };
            cases.push(Case::aimed(plan.call(byte, rng), aim, format!("code {code}")));
        }
    }
    cases
}

/// Lengths around whole packets, and one degenerate base at each place of two packets' worth.
fn lengths(byte: u8, rng: &mut Rng) -> Vec<Case> {
    let mut lists: Vec<(u64, Alphabet, Vec<u8>)> = Vec::new();
    for length in 0..=47 {
        lists.push((2, Alphabet::Nucleic, vec![rng.below(4) as u8; length]));
    }
    for length in 0..=14 {
        lists.push((3, Alphabet::Amino, (0..length).map(|_| rng.below(28) as u8).collect()));
    }
    for at in 0..=32 {
        let mut codes = vec![3; 33];
        codes[at] = 4;
        lists.push((1, Alphabet::Nucleic, codes));
    }
    lists.push((2, Alphabet::Nucleic, (0..MOST_RANGE).map(|_| rng.below(4) as u8).collect()));
    lists.push((3, Alphabet::Amino, (0..MOST_RANGE).map(|_| rng.below(28) as u8).collect()));
    let mut cases = Vec::new();
    for (number, alphabet, codes) in lists {
        let note = format!("{} codes", codes.len());
        cases.push(Case::aimed(Plan::new(number, alphabet, codes, rng).call(byte, rng), 0, note));
    }
    cases
}

/// The last place that fits, the first that does not, and huge ones.
fn places(byte: u8, rng: &mut Rng) -> Vec<Case> {
    let mut cases = Vec::new();
    for _ in 0..12 {
        let mut plan = Plan::by_chance(rng);
        plan.place = 0;
        let packets = run_end(&plan);
        plan.room = packets + rng.below(6);
        plan.place = (plan.room - packets) as u64;
        cases.push(Case::aimed(plan.clone().call(byte, rng), 0, "the last place that fits"));
        plan.place += 1;
        cases.push(Case::aimed(plan.clone().call(byte, rng), NO_ROOM, "the first place that does not fit"));
        plan.place = huge_place(rng);
        cases.push(Case::aimed(plan.call(byte, rng), NO_ROOM, "a huge place"));
    }
    cases
}

fn result_sizes(byte: u8, rng: &mut Rng) -> Vec<Case> {
    let mut cases = Vec::new();
    for results in 0..=24 {
        let mut plan = Plan::by_chance(rng);
        plan.results = results;
        let aim = if results < 16 { NO_ROOM } else { 0 };
        cases.push(Case::aimed(plan.call(byte, rng), aim, format!("results of {results} bytes")));
    }
    cases
}

/// Real sequences.
fn real(byte: u8, rng: &mut Rng, samples: &Samples) -> Vec<Case> {
    let mut cases = Vec::new();
    for (alphabet, codes) in samples.sequences() {
        let number = if alphabet == Alphabet::Amino { 3 } else { rng.between(1, 2) as u64 };
        cases.push(Case::aimed(
            Plan::new(number, alphabet, codes, rng).call(byte, rng),
            0,
            "a real sequence",
        ));
    }
    cases
}

pub fn random(byte: u8, rng: &mut Rng) -> Case {
    if rng.chance(50) {
        return Case::aimed(Plan::by_chance(rng).call(byte, rng), 0, "valid");
    }
    let (alphabet, _) = *rng.pick(&runs::ALPHABETS);
    let plan = to_damage(alphabet, rng);
    let Damaged { plan, number, note } = by_chance(&rules(byte, alphabet), rng, plan);
    Case::aimed(plan.call(byte, rng), number, note)
}
