//! Cases for how many bases a code stands for.

use super::nucleotide_rules::base_rules;
use super::order::Order;
use super::rng::Rng;
use super::rules::{by_chance, order, sides_and_pairs, Damaged};
use super::Case;
use crate::answers::BAD_CODE;
use crate::call::*;

/// The rule is the same for every code.
const TITLE: &str = "any";

fn call(code: &u64) -> Call {
    Call::new(BASES_OF_CODE, vec![Argument::Number(*code)])
}

pub fn planned(rng: &mut Rng) -> Vec<Case> {
    let mut cases = sides_and_pairs(TITLE, &base_rules(), rng, valid, |code, _| call(code));
    // Every code, all numbers that fit a byte, and numbers whose low byte alone is a code.
    for code in (0..256).chain((8..64).flat_map(|bit| [0, 15].map(|low| (1 << bit) + low))) {
        let aim = if code <= 15 { 0 } else { BAD_CODE };
        cases.push(Case::aimed(call(&code), aim, format!("code {code}")));
    }
    cases
}

fn valid(rng: &mut Rng) -> u64 {
    rng.below(16) as u64
}

pub fn orders() -> Vec<Order> {
    vec![order(BASES_OF_CODE, TITLE, &base_rules())]
}

pub fn random(rng: &mut Rng) -> Case {
    let code = valid(rng);
    if rng.chance(40) {
        return Case::aimed(call(&code), 0, "a code by chance");
    }
    let Damaged { plan, number, note } = by_chance(&base_rules(), rng, code);
    Case::aimed(call(&plan), number, note)
}
