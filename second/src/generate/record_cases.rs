//! Cases for the walker's step and the identifier call.

use super::identifier_cases::{right_ones, wrong_ones, Placed};
use super::nodes::{self, Node};
use super::order::Order;
use super::padded;
use super::record_faults::*;
use super::record_rules::{self, Parts, ARRANGEMENTS};
use super::rng::Rng;
use super::rules::{by_chance, lifted, order, rule, sides_and_pairs, Damaged, Rule};
use super::samples::Samples;
use super::Case;
use crate::answers::*;
use crate::call::*;
use crate::index::read_index;

/// A header file with one record in it, and the number of a title or identifier. `moved` is a start and end that
/// are not the record's.
#[derive(Clone, Debug)]
struct Plan {
    before: Vec<u8>,
    record: Parts,
    after: Vec<u8>,
    moved: Option<(u64, u64)>,
    number: u64,
}

impl Plan {
    fn new(lines: Vec<Vec<Node>>, rng: &mut Rng) -> Plan {
        let around = [*rng.pick(&[0, 0, 1, 7]), *rng.pick(&[0, 0, 1, 7])];
        let record = Parts::new(lines);
        Plan { before: rng.bytes(around[0]), record, after: rng.bytes(around[1]), moved: None, number: 0 }
    }

    /// A record that has what the call asks for.
    fn by_chance(byte: u8, rng: &mut Rng) -> Plan {
        loop {
            let count = rng.between(1, 4);
            let mut plan = Plan::new((0..count).map(|_| nodes::fields(rng)).collect(), rng);
            let found = plan.count(byte);
            if found > 0 {
                plan.number = rng.below(found) as u64;
                return plan;
            }
        }
    }

    /// How many titles or identifiers there are.
    fn count(&self, byte: u8) -> usize {
        nodes::count_of(&self.record.lines, byte == WALKER_STEP)
    }

    fn call(&self, byte: u8) -> Call {
        call_on(&self.before, &self.record.bytes(), &self.after, self.moved, self.number, byte)
    }

    /// Where the record starts and ends, and the file's length.
    fn places(&self) -> (u64, u64, u64) {
        let (start, length) = (self.before.len() as u64, self.record.bytes().len() as u64);
        (start, start + length, start + length + self.after.len() as u64)
    }
}

fn call_on(
    before: &[u8],
    record: &[u8],
    after: &[u8],
    moved: Option<(u64, u64)>,
    number: u64,
    byte: u8,
) -> Call {
    let file = [before, record, after].concat();
    let own = (before.len() as u64, (before.len() + record.len()) as u64);
    let (start, end) = moved.unwrap_or(own);
    let numbers = [start, end, number].map(Argument::Number);
    Call::new(byte, [vec![Argument::Range(file)], numbers.to_vec()].concat())
}

/// Three def-lines to break rules in, to the left and to the right of each other, and one that has a title and an
/// identifier. The number is the first.
fn to_damage(rng: &mut Rng) -> Plan {
    let mut lines: Vec<Vec<Node>> = (0..3).map(|_| nodes::fields(rng)).collect();
    let identifiers = Node::List(vec![nodes::identifier(rng)]);
    lines.push(vec![nodes::choice(0xA0, nodes::text(rng)), nodes::choice(0xA1, identifiers)]);
    Plan::new(lines, rng)
}

/// In the order of the refusals: the place, the record, the number.
fn rules(byte: u8, arrangement: &'static str) -> Vec<Rule<Plan>> {
    let mut rules = place_rules();
    rules.extend(lifted(record_rules::rules(arrangement), |plan: &mut Plan| &mut plan.record));
    rules.push(
        rule(NO_SUCH_NUMBER, "the number is below how many there are")
            .passes("one less than there are", move |plan: &mut Plan| {
                plan.number = plan.count(byte) as u64 - 1
            })
            .breaks("as many as there are", move |plan| plan.number = plan.count(byte) as u64)
            .farther(|plan, rng| plan.number = *rng.pick(&[1000, 1 << 32, 1 << 63, u64::MAX])),
    );
    rules
}

fn place_rules() -> Vec<Rule<Plan>> {
    vec![
        rule(ENDS_TOO_EARLY, "the start is at most the end")
            .leads_to(BAD_RECORD, "the same", |plan: &mut Plan| {
                plan.moved = Some((plan.places().0, plan.places().0))
            })
            .breaks("one above", |plan| plan.moved = Some((plan.places().0 + 1, plan.places().0)))
            .farther(|plan, rng| {
                plan.moved = Some((*rng.pick(&[1 << 32, 1 << 63, u64::MAX]), plan.places().1));
            }),
        rule(ENDS_TOO_EARLY, "the end is at most the file's length")
            .passes("the length", |plan: &mut Plan| plan.after.clear())
            .breaks("one more", |plan| plan.moved = Some((plan.places().0, plan.places().2 + 1)))
            .breaks("one more, and the start too", |plan| {
                plan.moved = Some((plan.places().2 + 1, plan.places().2 + 1))
            })
            .breaks("2^64 - 1", |plan| plan.moved = Some((plan.places().0, u64::MAX)))
            .farther(|plan, rng| {
                let (start, _, length) = plan.places();
                plan.moved = Some((start, *rng.pick(&[(1 << 32) + length, 1 << 63])));
            }),
    ]
}

pub fn orders(byte: u8) -> Vec<Order> {
    ARRANGEMENTS.map(|title| order(byte, title, &rules(byte, title))).to_vec()
}

pub fn planned(byte: u8, rng: &mut Rng, samples: &Samples) -> Vec<Case> {
    let mut cases = Vec::new();
    for title in ARRANGEMENTS {
        let call = |plan: &Plan, _: &mut Rng| plan.call(byte);
        cases.extend(sides_and_pairs(title, &rules(byte, title), rng, to_damage, call));
    }
    cases.extend(numbers(byte, rng));
    cases.extend(depths(byte, rng));
    cases.extend(whole_records(byte, rng));
    cases.extend(every_fault(byte, rng));
    cases.extend(bodies(byte, rng));
    cases.extend(padded(byte, rng));
    cases.extend(cuts(byte, rng));
    cases.extend(real(byte, samples));
    cases
}

/// Every number of a record, and the first above.
fn numbers(byte: u8, rng: &mut Rng) -> Vec<Case> {
    let mut cases = Vec::new();
    for _ in 0..15 {
        let mut plan = Plan::by_chance(byte, rng);
        let count = plan.count(byte) as u64;
        for number in 0..count + 2 {
            plan.number = number;
            let aim = if number < count { 0 } else { NO_SUCH_NUMBER };
            cases.push(Case::aimed(plan.call(byte), aim, format!("number {number} of {count}")));
        }
    }
    cases
}

/// An identifier's body down to depth 16, and to 17, with each kind of element at the bottom. 001's own bodies end at
/// depth 11: deeper ones pass the nesting, so that an element at depth 17 behind them is met, and have a wrong shape.
fn depths(byte: u8, rng: &mut Rng) -> Vec<Case> {
    let mut cases = Vec::new();
    let bottoms =
        [Node::Integer(vec![5]), Node::Text(0, vec![65]), Node::List(vec![]), Node::Raw(vec![0xA9, 0x80])];
    for (depth, bottom) in (12..=18).flat_map(|depth| bottoms.clone().map(|bottom| (depth, bottom))) {
        // The body of an identifier stands at depth 6.
        let is_whole = !matches!(bottom, Node::Raw(_));
        let body = nodes::nested(depth - 6, bottom, rng);
        let mut fields = vec![nodes::choice(0xA0, nodes::text(rng))];
        fields.extend(in_list(nodes::choice(0xA4, body)));
        let aim = if depth >= 17 { TOO_DEEP } else { BAD_RECORD };
        let mut plan = Plan::new(vec![fields], rng);
        cases.push(Case::aimed(plan.call(byte), aim, format!("an element at depth {depth}")));
        if is_whole && depth < 17 {
            plan.record.lines.push(in_list(too_deep(5, rng)));
            let note = format!("an element at depth {depth}, and one at 17 behind it");
            cases.push(Case::aimed(plan.call(byte), TOO_DEEP, note));
        }
    }
    for (outermost, aim) in [(16, BAD_RECORD), (17, TOO_DEEP)] {
        let record = nodes::lists(outermost - 1, Node::Integer(vec![1])).bytes();
        cases.push(Case::aimed(
            call_on(&[], &record, &[], None, 0, byte),
            aim,
            format!("{outermost} levels"),
        ));
    }
    cases
}

/// Records by themselves: none, empty ones, wrong outermost shapes, bytes behind.
fn whole_records(byte: u8, rng: &mut Rng) -> Vec<Case> {
    let mut cases = Vec::new();
    let mut bad = wrong_records(rng);
    bad.extend([vec![], vec![0], vec![0, 0], vec![0x30], vec![0x30, 0x80], vec![0x30, 0x80, 0]]);
    let valid = Plan::by_chance(byte, rng).record.bytes();
    for behind in [vec![0], vec![0, 0], vec![0x02, 0x01, 0x05], valid.clone()] {
        bad.push([valid.clone(), behind].concat());
    }
    for record in bad {
        cases.push(Case::aimed(call_on(&[9], &record, &[9], None, 0, byte), BAD_RECORD, "a whole record"));
    }
    for record in [vec![0x30, 0x80, 0, 0], vec![0x30, 0x80, 0x30, 0x80, 0, 0, 0, 0]] {
        cases.push(Case::aimed(call_on(&[], &record, &[9], None, 0, byte), NO_SUCH_NUMBER, "nothing in it"));
    }
    cases
}

/// Every kind of malformed element and of wrong shape by itself, in a record that is good otherwise.
fn every_fault(byte: u8, rng: &mut Rng) -> Vec<Case> {
    let lines = [malformed_lines(rng), wrong_shapes(rng)].concat();
    let mut cases = Vec::new();
    for line in lines {
        let mut plan = Plan::by_chance(byte, rng);
        let note = format!("{line:02x?}");
        plan.record.lines.push(line);
        cases.push(Case::aimed(plan.call(byte), BAD_RECORD, note));
    }
    cases
}

/// Identifiers of every kind, right and wrong. A right one is asked for itself; a wrong one refuses the call whichever
/// number is asked for.
fn bodies(byte: u8, rng: &mut Rng) -> Vec<Case> {
    let mut cases = Vec::new();
    for Placed { words, lines, number } in right_ones(rng) {
        let mut plan = Plan::new(lines, rng);
        plan.number = if byte == IDENTIFIER { number } else { 0 };
        cases.push(Case::aimed(plan.call(byte), 0, words));
    }
    for (k, Placed { words, lines, number }) in wrong_ones(rng).into_iter().enumerate() {
        let mut plan = Plan::new(lines, rng);
        plan.number = [number, 0, 99][k % 3];
        cases.push(Case::aimed(plan.call(byte), BAD_RECORD, words));
    }
    cases
}

/// Padded integers in every place.
fn padded(byte: u8, rng: &mut Rng) -> Vec<Case> {
    let mut cases = Vec::new();
    for padded::Record { words, lines, aim } in padded::records(rng) {
        cases.push(Case::aimed(Plan::new(lines, rng).call(byte), aim, words));
    }
    cases
}

/// A record cut at every byte, and begun at every byte.
fn cuts(byte: u8, rng: &mut Rng) -> Vec<Case> {
    let mut cases = Vec::new();
    let fields = vec![
        nodes::choice(0xA0, Node::Text(1, vec![65; 3])),
        nodes::choice(0xA1, Node::List(vec![nodes::identifier(rng)])),
        nodes::choice(0xA2, Node::Integer(vec![1, 2])),
    ];
    let record = nodes::record(&[fields]);
    for place in 0..record.len().min(150) {
        let cut = call_on(&[], &record, &[], Some((0, place as u64)), 0, byte);
        cases.push(Case::aimed(cut, BAD_RECORD, format!("cut at {place}")));
        let begun = call_on(&[], &record, &[], Some((place as u64, record.len() as u64)), 0, byte);
        cases.push(Case::free(begun, format!("begun at {place}")));
    }
    cases
}

/// The records of real volumes.
fn real(byte: u8, samples: &Samples) -> Vec<Case> {
    let mut cases = Vec::new();
    for number in 0..5 {
        cases.push(Case::free(call_on(&[], &samples.record, &[], None, number, byte), "every field"));
    }
    for volume in &samples.volumes {
        let Ok(index) = read_index(&volume.index) else { continue };
        for (k, two) in index.header_offsets.windows(2).enumerate().take(30) {
            let (start, end) = (two[0] as u64, two[1] as u64);
            for number in 0..5 {
                let call = call_on(&[], &volume.header, &[], Some((start, end)), number, byte);
                cases.push(Case::free(call, format!("{} record {k}, number {number}", volume.name)));
            }
        }
    }
    cases
}

pub fn random(byte: u8, rng: &mut Rng) -> Case {
    match rng.below(10) {
        0..=3 => Case::aimed(Plan::by_chance(byte, rng).call(byte), 0, "valid"),
        4..=5 => {
            let plan = to_damage(rng);
            let rules = rules(byte, rng.pick::<&'static str>(&ARRANGEMENTS));
            let Damaged { plan, number, note } = by_chance(&rules, rng, plan);
            Case::aimed(plan.call(byte), number, note)
        }
        6..=7 => {
            let plan = Plan::by_chance(byte, rng);
            Case::free(super::spoiled(plan.call(byte), &[0], rng), "a byte changed")
        }
        _ => {
            let mut plan = Plan::by_chance(byte, rng);
            plan.before.clear();
            let mut record = plan.record.bytes();
            let place = rng.below(record.len());
            record[place] =
                *rng.pick(&[0x00, 0x01, 0x02, 0x1A, 0x30, 0x80, 0x81, 0x84, 0xA0, 0xA1, 0xAB, 0xB3, 0xB4]);
            Case::free(
                call_on(&[], &record, &plan.after, None, plan.number, byte),
                "a byte of structure changed",
            )
        }
    }
}
