//! Cases for the label call.

use super::identifier_cases::{self, Placed};
use super::nodes::{self, Node};
use super::order::Order;
use super::padded;
use super::record_faults::{malformed_lines, wrong_shapes};
use super::record_rules::{self, Parts, ARRANGEMENTS};
use super::rng::Rng;
use super::rules::{by_chance, lifted, order, rule, sides_and_pairs, Change, Damaged, Rule};
use super::samples::Samples;
use super::{index_rules, volumes, Case};
use crate::answers::*;
use crate::call::*;

/// A volume, its header records, and the number of the record that is asked for. `own` are header offsets of that
/// record that are not its own; `others` stand for all offsets of other records.
#[derive(Clone, Debug)]
struct Plan {
    volume: volumes::Plan,
    records: Vec<Parts>,
    chosen: usize,
    number: u64,
    own: Option<[i128; 2]>,
    others: Option<i128>,
    behind: Vec<u8>,
}

impl Plan {
    /// A volume of small sequences and good records, and one of its numbers.
    fn new(kind: i128, records: Vec<Parts>, rng: &mut Rng) -> Plan {
        let n = records.len();
        let sequences: Vec<_> = (0..n).map(|_| volumes::stored(kind, 2, false, rng)).collect();
        let volume = volumes::Plan::new(kind, &sequences, &vec![vec![]; n], rng);
        let chosen = rng.below(n.max(1));
        Plan { volume, records, chosen, number: chosen as u64, own: None, others: None, behind: vec![] }
    }

    fn by_chance(kind: i128, n: usize, rng: &mut Rng) -> Plan {
        let record = |rng: &mut Rng| {
            let count = rng.below(4);
            Parts::new((0..count).map(|_| nodes::fields(rng)).collect())
        };
        let records = (0..n).map(|_| record(rng)).collect();
        Plan::new(kind, records, rng)
    }

    fn header(&self) -> Vec<u8> {
        let mut header: Vec<u8> = self.records.iter().flat_map(Parts::bytes).collect();
        header.extend(&self.behind);
        header
    }

    /// Where the chosen record starts and ends.
    fn places(&self) -> [i128; 2] {
        let start: usize = self.records[..self.chosen].iter().map(|record| record.bytes().len()).sum();
        [start as i128, (start + self.records[self.chosen].bytes().len()) as i128]
    }

    fn header_offsets(&self) -> Vec<i128> {
        let mut offsets = vec![0];
        for record in &self.records {
            offsets.push(offsets[offsets.len() - 1] + record.bytes().len() as i128);
        }
        for (k, offset) in offsets.iter_mut().enumerate() {
            let is_own = k == self.chosen || k == self.chosen + 1;
            *offset = if is_own { *offset } else { self.others.unwrap_or(*offset) };
        }
        if let Some(own) = self.own {
            offsets[self.chosen..self.chosen + 2].copy_from_slice(&own);
        }
        offsets
    }

    fn call(&self) -> Call {
        let mut volume = self.volume.clone();
        volume.headers = self.header_offsets();
        let files = [volume.index(), self.header()];
        let mut arguments: Vec<Argument> = files.into_iter().map(Argument::Range).collect();
        arguments.push(Argument::Number(self.number));
        Call::new(LABEL, arguments)
    }
}

/// A plan in which every rule can be broken: a title, a timestamp, records of four def-lines.
fn to_damage(kind: i128, rng: &mut Rng) -> Plan {
    loop {
        let n = rng.between(1, 4);
        let record = |rng: &mut Rng| Parts::new((0..4).map(|_| nodes::fields(rng)).collect());
        let records = (0..n).map(|_| record(rng)).collect();
        let plan = Plan::new(kind, records, rng);
        if !plan.volume.title.is_empty() && !plan.volume.timestamp.is_empty() {
            return plan;
        }
    }
}

/// The two types, each with one arrangement of faults in a record.
const TITLES: [(i128, &str, &str); 2] =
    [(0, "DNA, 20 left of 21", ARRANGEMENTS[0]), (1, "protein, 21 left of 20", ARRANGEMENTS[1])];

/// All rules in the order of the refusals.
fn rules(kind: i128, arrangement: &'static str) -> Vec<Rule<Plan>> {
    let mut rules = lifted(index_rules::rules(kind), |plan: &mut Plan| &mut plan.volume);
    rules.push(
        rule(NO_SUCH_NUMBER, "the number is below N")
            .passes("N - 1", |plan: &mut Plan| choose(plan, plan.records.len() - 1))
            .breaks("N", |plan| plan.number = plan.records.len() as u64)
            .farther(|plan, rng| {
                let [n, own] = [plan.records.len() as u64, plan.number];
                plan.number = *rng.pick(&[n + 1, (1 << 32) + own, (1 << 63) + own, u64::MAX]);
            })
            .shuts("a sequence that is not there has no header offsets"),
    );
    rules.extend(offset_rules());
    rules.extend(lifted(record_rules::rules(arrangement), |plan: &mut Plan| &mut plan.records[plan.chosen]));
    rules
}

fn choose(plan: &mut Plan, chosen: usize) {
    (plan.chosen, plan.number) = (chosen, chosen as u64);
}

fn offset_rules() -> Vec<Rule<Plan>> {
    vec![
        rule(BAD_OFFSETS, "H[i] is at least 0")
            .passes("0", |plan: &mut Plan| choose(plan, 0))
            .breaks("-1", |plan| plan.own = Some([-1, plan.places()[1]]))
            .farther(|plan, _| plan.own = Some([-2_147_483_648, plan.places()[1]])),
        rule(BAD_OFFSETS, "H[i] is at most H[i+1]")
            .leads_to(BAD_RECORD, "the same", |plan: &mut Plan| plan.own = Some([plan.places()[0]; 2]))
            .breaks("one more", |plan| plan.own = Some([plan.places()[0] + 1, plan.places()[0]]))
            .farther(|plan, _| plan.own = Some([plan.places()[0], -2_147_483_648])),
        rule(BAD_OFFSETS, "H[i+1] is at most the file's length")
            .passes("the length", |plan: &mut Plan| choose(plan, plan.records.len() - 1))
            .breaks("one more", |plan| plan.own = Some([plan.places()[0], plan.header().len() as i128 + 1]))
            .breaks("one more, and H[i] too", |plan| plan.own = Some([plan.header().len() as i128 + 1; 2]))
            .farther(|plan, _| plan.own = Some([plan.places()[0], 2_147_483_647])),
    ]
}

pub fn orders() -> Vec<Order> {
    TITLES.map(|(kind, title, arrangement)| order(LABEL, title, &rules(kind, arrangement))).to_vec()
}

pub fn planned(rng: &mut Rng, samples: &Samples) -> Vec<Case> {
    let mut cases = Vec::new();
    for (kind, title, arrangement) in TITLES {
        let rules = rules(kind, arrangement);
        let valid = |rng: &mut Rng| to_damage(kind, rng);
        cases.extend(sides_and_pairs(title, &rules, rng, valid, |plan, _| plan.call()));
        cases.extend(elsewhere(kind, rng));
        cases.extend(numbers(kind, rng));
    }
    cases.extend(titles(rng));
    cases.extend(wrong_ones(rng));
    cases.extend(bodies(rng));
    cases.extend(real(samples));
    cases
}

/// Every kind of malformed element and of wrong shape by itself, and whole records that are wrong.
fn wrong_ones(rng: &mut Rng) -> Vec<Case> {
    let mut cases = Vec::new();
    for line in [malformed_lines(rng), wrong_shapes(rng)].concat() {
        let mut plan = to_damage(rng.below(2) as i128, rng);
        let note = format!("{line:02x?}");
        let chosen = plan.chosen;
        plan.records[chosen].lines.push(line);
        cases.push(Case::aimed(plan.call(), BAD_RECORD, note));
    }
    cases
}

/// Records with identifiers of every kind, right and wrong, and with padded integers in every place.
fn bodies(rng: &mut Rng) -> Vec<Case> {
    let right = identifier_cases::right_ones(rng).into_iter().map(|placed| (placed, 0));
    let wrong = identifier_cases::wrong_ones(rng).into_iter().map(|placed| (placed, BAD_RECORD));
    let placed = right.chain(wrong).map(|(Placed { words, lines, .. }, aim)| (words, lines, aim));
    let padded = padded::records(rng).into_iter().map(|record| (record.words, record.lines, record.aim));
    let mut cases = Vec::new();
    for (words, lines, aim) in placed.chain(padded) {
        let mut plan = Plan::by_chance(rng.below(2) as i128, 2, rng);
        let chosen = plan.chosen;
        plan.records[chosen] = Parts::new(lines);
        cases.push(Case::aimed(plan.call(), aim, words));
    }
    cases
}

/// A title, an empty one, none; in the first def-line or only in a later one.
fn titles(rng: &mut Rng) -> Vec<Case> {
    let title = |text: &[u8]| vec![nodes::choice(0xA0, Node::Text(0, text.to_vec()))];
    let untitled = vec![nodes::choice(0xA2, Node::Integer(vec![9]))];
    let lists: Vec<Vec<Vec<Node>>> = vec![
        vec![],
        vec![vec![]],
        vec![title(b"first")],
        vec![title(b"")],
        vec![title(b"first"), title(b"second")],
        vec![title(b""), title(b"second")],
        vec![untitled.clone(), title(b"second")],
        vec![vec![], title(b"second")],
        vec![untitled],
        vec![vec![nodes::choice(0xA0, Node::Text(2, vec![b't'; 300]))]],
    ];
    let mut cases = Vec::new();
    for (lines, volume_title) in lists.iter().flat_map(|lines| [(lines, 0), (lines, 8)]) {
        let mut plan = Plan::by_chance(0, 2, rng);
        plan.volume.set_texts(volume_title, 16 - volume_title);
        let chosen = plan.chosen;
        plan.records[chosen] = Parts::new(lines.clone());
        cases.push(Case::aimed(plan.call(), 0, format!("{} def-lines", lines.len())));
    }
    cases
}

/// Faults that this label does not meet.
fn elsewhere(kind: i128, rng: &mut Rng) -> Vec<Case> {
    let changes: [(&str, Change<Plan>); 5] = [
        ("wrong sequence offsets", |plan| plan.volume.s.fill(-1)),
        ("wrong ambiguity offsets", |plan| plan.volume.a.fill(-1)),
        ("wrong totals", |plan| (plan.volume.count, plan.volume.longest) = (77_777, 2_147_483_647)),
        ("bytes behind the header file", |plan| plan.behind = vec![1, 2, 3]),
        ("other header offsets wrong", |plan| plan.others = Some(-9)),
    ];
    let mut cases = Vec::new();
    for (note, change) in changes {
        for _ in 0..3 {
            let mut plan = Plan::by_chance(kind, 4, rng);
            change(&mut plan);
            cases.push(Case::aimed(plan.call(), 0, note));
        }
    }
    cases
}

/// Every number of a volume, the first beyond it, and a volume without sequences.
fn numbers(kind: i128, rng: &mut Rng) -> Vec<Case> {
    let mut cases = Vec::new();
    for n in 0..5 {
        let mut plan = Plan::by_chance(kind, n, rng);
        for number in [0, 1, 2, 3, n as u64, 1 << 32, u64::MAX] {
            plan.number = number;
            let aim = if number < n as u64 { 0 } else { NO_SUCH_NUMBER };
            cases.push(Case::aimed(plan.call(), aim, format!("number {number} of {n}")));
        }
    }
    cases
}

/// Every label of the real volumes.
fn real(samples: &Samples) -> Vec<Case> {
    let mut cases = Vec::new();
    for volume in &samples.volumes {
        for number in 0..volume.lines.len().min(40) + 1 {
            let files = [&volume.index, &volume.header];
            let mut arguments: Vec<Argument> = files.into_iter().cloned().map(Argument::Range).collect();
            arguments.push(Argument::Number(number as u64));
            cases.push(Case::free(Call::new(LABEL, arguments), format!("{} number {number}", volume.name)));
        }
    }
    cases
}

pub fn random(rng: &mut Rng) -> Case {
    let kind = rng.below(2) as i128;
    match rng.below(10) {
        0..=4 => {
            let n = rng.between(1, 5);
            Case::aimed(Plan::by_chance(kind, n, rng).call(), 0, "valid")
        }
        5..=7 => {
            let plan = to_damage(kind, rng);
            let rules = rules(kind, rng.pick::<&'static str>(&ARRANGEMENTS));
            let Damaged { plan, number, note } = by_chance(&rules, rng, plan);
            Case::aimed(plan.call(), number, note)
        }
        _ => {
            let n = rng.between(1, 3);
            let call = Plan::by_chance(kind, n, rng).call();
            Case::free(super::spoiled(call, &[0, 1, 1], rng), "a byte changed")
        }
    }
}
