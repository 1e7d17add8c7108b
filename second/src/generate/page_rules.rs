//! The rules of a page in the order of its refusals: that of the ends, then those of decoding, at some item of the list.

use super::decode_rules;
use super::rng::Rng;
use super::rules::{lifted, rule, Rule};
use super::volumes::{self, sequences, stored};
use crate::answers::NO_ROOM;
use crate::call::*;

/// A type, what its rules are called, and where in the list the item stands that they are broken at: how many items stand
/// before it, and how many behind.
pub const PLACES: [(i128, &str, usize, usize); 6] = [
    (0, "DNA, the first item", 0, 2),
    (0, "DNA, an item between", 2, 1),
    (0, "DNA, the last item", 3, 0),
    (1, "protein, the first item", 0, 2),
    (1, "protein, an item between", 2, 1),
    (1, "protein, the last item", 3, 0),
];

/// A page of a volume. The volume's number is the item that rules are broken at, and its room what is left for that item;
/// `ends` is the length of the list of ends.
#[derive(Clone, Debug)]
pub struct Plan {
    pub volume: volumes::Plan,
    pub before: Vec<u64>,
    pub behind: Vec<u64>,
    pub ends: usize,
}

impl Plan {
    fn items(&self) -> usize {
        self.before.len() + 1 + self.behind.len()
    }

    /// How many bytes the items before fill.
    fn filled(&self) -> usize {
        needed(&self.volume, &self.before)
    }

    pub fn call(&self, rng: &mut Rng) -> Call {
        let numbers = [&self.before[..], &[self.volume.number], &self.behind].concat();
        call(&self.volume, numbers, self.filled() + self.volume.room, self.ends, rng)
    }

    /// Whether every rule can be broken: there are a title, a timestamp, several residues, and room for a long item.
    fn is_to_damage(&self) -> bool {
        let volume = &self.volume;
        let has_texts = !volume.title.is_empty() && !volume.timestamp.is_empty();
        has_texts && volume.lengths[decode_rules::chosen(volume)] > 2 && self.filled() < 8000
    }
}

/// Fetches these numbers of a volume into an output of so many bytes, with so many ends.
pub fn call(volume: &volumes::Plan, numbers: Vec<u64>, room: usize, ends: usize, rng: &mut Rng) -> Call {
    let fill = if rng.chance(50) { rng.number() } else { *rng.pick(&[0, 1, u64::MAX]) };
    Call::new(
        PAGE,
        vec![
            Argument::Range(volume.index()),
            Argument::Range(volume.sequence.clone()),
            Argument::NumberList(numbers),
            Argument::Output(room, rng.byte()),
            Argument::NumberOutput(ends, fill),
        ],
    )
}

/// How many bytes a list of a volume's numbers needs.
pub fn needed(volume: &volumes::Plan, numbers: &[u64]) -> usize {
    numbers.iter().map(|number| volume.lengths[*number as usize]).sum()
}

/// A page with so many items before and behind one that can be damaged. Those before share no entry of the index with it,
/// and those behind are empty, so that they need no room.
pub fn to_damage(kind: i128, before: usize, behind: usize, rng: &mut Rng) -> Plan {
    loop {
        let n = rng.between(4, 7);
        let item = rng.below(n);
        let apart: Vec<usize> = (0..n).filter(|other| other.abs_diff(item) > 1).collect();
        let empty = *rng.pick(&apart);
        let mut content = sequences(kind, n, false, rng);
        content[empty] = stored(kind, 0, false, rng);
        let mut volume = volumes::Plan::new(kind, &content, &vec![vec![]; n], rng);
        volume.number = item as u64;
        volume.room = volume.lengths[item] + *rng.pick(&[0, 0, 1, 7]);
        let before: Vec<u64> = (0..before).map(|_| *rng.pick(&apart) as u64).collect();
        let ends = before.len() + 1 + behind + *rng.pick(&[0, 0, 1, 5]);
        let plan = Plan { volume, before, behind: vec![empty as u64; behind], ends };
        if plan.is_to_damage() {
            return plan;
        }
    }
}

/// All rules of a page for a type.
pub fn rules(kind: i128) -> Vec<Rule<Plan>> {
    let mut rules = vec![ends_rule()];
    rules.extend(lifted(decode_rules::rules(kind), |plan: &mut Plan| &mut plan.volume));
    rules
}

fn ends_rule() -> Rule<Plan> {
    rule(NO_ROOM, "the list of ends is not shorter than the numbers")
        .passes("as long", |plan: &mut Plan| plan.ends = plan.items())
        .passes("one longer", |plan| plan.ends = plan.items() + 1)
        .breaks("one shorter", |plan| plan.ends = plan.items() - 1)
        .breaks("none", |plan| plan.ends = 0)
        .farther(|plan, rng| plan.ends = rng.below(plan.items()))
}

/// How many items are done where this number comes at the item behind so many: all on success, none where the ends or the
/// index are refused.
pub fn done(call: &Call, before: usize, number: u32) -> usize {
    let (items, ends) = (call.numbers(2).len(), call.number_output(4).len());
    match number {
        0 => items,
        1..=6 => 0,
        _ if ends < items => 0,
        _ => before,
    }
}
