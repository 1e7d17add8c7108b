//! Cases for the name of a kind of identifier, and its rules.

use super::definitions::SEQ_ID;
use super::order::Order;
use super::rng::Rng;
use super::rules::{by_chance, order, rule, sides_and_pairs, Damaged, Rule};
use super::Case;
use crate::answers::{NO_ROOM, OUT_OF_RANGE};
use crate::call::*;

/// The rules are the same for every kind.
const TITLE: &str = "any";

/// A kind, and the length of the output.
#[derive(Clone, Debug)]
struct Plan {
    kind: u64,
    room: usize,
}

/// The tag of the first kind, and how many bytes a kind's name has.
const FIRST: u64 = 0xA0;

fn length_of(kind: u64) -> usize {
    SEQ_ID[(kind - FIRST) as usize].name.len()
}

fn is_kind(kind: u64) -> bool {
    (0xA0..=0xB3).contains(&kind)
}

impl Plan {
    fn call(&self, rng: &mut Rng) -> Call {
        Call::new(KIND_NAME, vec![Argument::Number(self.kind), Argument::Output(self.room, rng.byte())])
    }

    /// Another kind, with room for its name.
    fn put(&mut self, kind: u64) {
        (self.kind, self.room) = (kind, length_of(kind));
    }
}

fn rules() -> Vec<Rule<Plan>> {
    vec![
        rule(OUT_OF_RANGE, "the kind is 160 to 179")
            .passes("160", |plan: &mut Plan| plan.put(160))
            .passes("179", |plan| plan.put(179))
            .breaks("159", |plan| plan.kind = 159)
            .breaks("180", |plan| plan.kind = 180)
            .breaks("0", |plan| plan.kind = 0)
            .breaks("2^32 + 160", |plan| plan.kind = (1 << 32) + 160)
            .breaks("2^64 - 1", |plan| plan.kind = u64::MAX)
            .farther(|plan, rng| plan.kind = rng.number() >> rng.below(64) | 256),
        rule(NO_ROOM, "the output has room for the name")
            .passes("exactly", |plan: &mut Plan| plan.room = length_of(plan.kind))
            .passes("one more", |plan| plan.room = length_of(plan.kind) + 1)
            .breaks("none", |plan| plan.room = 0)
            .breaks("one less", |plan| plan.room = length_of(plan.kind) - 1)
            .farther(|plan, rng| plan.room = rng.below(length_of(plan.kind))),
    ]
}

fn valid(rng: &mut Rng) -> Plan {
    let kind = FIRST + rng.below(20) as u64;
    Plan { kind, room: length_of(kind) + *rng.pick(&[0, 0, 1, 7, 200]) }
}

pub fn planned(rng: &mut Rng) -> Vec<Case> {
    let mut cases = sides_and_pairs(TITLE, &rules(), rng, valid, Plan::call);
    // Every number of a byte, and numbers whose low byte alone is a kind.
    let large = (8..64).flat_map(|bit| [0xA0, 0xA4, 0xB3].map(|low| (1 << bit) + low));
    for kind in (0..256).chain(large) {
        for room in [0, 30] {
            let aim = match (is_kind(kind), room) {
                (false, _) => OUT_OF_RANGE,
                (true, 0) => NO_ROOM,
                (true, _) => 0,
            };
            cases.push(Case::aimed(Plan { kind, room }.call(rng), aim, format!("kind {kind}, room {room}")));
        }
    }
    for kind in 0xA0..=0xB3 {
        let length = length_of(kind);
        for room in (0..=length + 2).chain([255, 256, 257, MOST_RANGE]) {
            let aim = if room < length { NO_ROOM } else { 0 };
            cases.push(Case::aimed(Plan { kind, room }.call(rng), aim, format!("kind {kind}, room {room}")));
        }
    }
    cases
}

pub fn orders() -> Vec<Order> {
    vec![order(KIND_NAME, TITLE, &rules())]
}

pub fn random(rng: &mut Rng) -> Case {
    let plan = valid(rng);
    if rng.chance(40) {
        return Case::aimed(plan.call(rng), 0, "a kind by chance");
    }
    let Damaged { plan, number, note } = by_chance(&rules(), rng, plan);
    Case::aimed(plan.call(rng), number, note)
}
