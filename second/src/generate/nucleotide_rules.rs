//! The rules of writing nucleotides in the order of their refusals, and those of a code's bases. The second 22 stands
//! between 18 and 13; ranges here are too small for it, and `face` shows it.

use super::rng::Rng;
use super::rules::{rule, Rule};
use crate::answers::{BAD_CODE, NO_ROOM};
use crate::call::*;

/// What the rules of writing are called: of bases alone, or of codes that need a table too.
pub const CONTENTS: [(bool, &str); 2] = [(false, "bases alone"), (true, "with a table")];

/// Codes to write, and the length of the output.
#[derive(Clone, Debug)]
pub struct Plan {
    pub codes: Vec<u8>,
    pub room: usize,
}

impl Plan {
    /// Codes with room for them, exactly or with some more, as far as the protocol has it.
    pub fn new(codes: Vec<u8>, rng: &mut Rng) -> Plan {
        let room = (needed(&codes) + *rng.pick(&[0, 0, 1, 7])).min(MOST_RANGE);
        Plan { codes, room }
    }

    pub fn call(&self, rng: &mut Rng) -> Call {
        let codes = Argument::Range(self.codes.clone());
        Call::new(WRITE_NUCLEOTIDES, vec![codes, Argument::Output(self.room, rng.byte())])
    }

    /// Another code at a place, and exactly the room that is then needed.
    fn put(&mut self, place: usize, code: u8) {
        self.codes[place] = code;
        self.room = needed(&self.codes);
    }

    fn middle(&self) -> usize {
        self.codes.len() / 2
    }

    fn end(&self) -> usize {
        self.codes.len() - 1
    }
}

/// The bytes of the two-bit part.
pub fn two_bit_size(codes: &[u8]) -> usize {
    codes.len() / 4 + 1
}

/// The bytes of both parts, counted code by code. An entry begins where a code of 4 or more does not follow its like, or
/// follows sixteen of them. Only for lists that the protocol takes, which are too short for wide entries.
pub fn needed(codes: &[u8]) -> usize {
    let (mut entries, mut covered) = (0, 0);
    for (k, code) in codes.iter().enumerate() {
        let goes_on = k > 0 && codes[k - 1] == *code && covered < 16;
        covered = if goes_on { covered + 1 } else { 1 };
        if *code >= 4 && !goes_on {
            entries += 1;
        }
    }
    two_bit_size(codes) + if entries == 0 { 0 } else { 4 + 4 * entries }
}

/// All rules of writing.
pub fn rules(has_table: bool) -> Vec<Rule<Plan>> {
    vec![code_rule(), room_rule(has_table)]
}

fn code_rule() -> Rule<Plan> {
    rule(BAD_CODE, "each code is at most 15")
        .passes("15 as the first", |plan: &mut Plan| plan.put(0, 15))
        .passes("15 in the middle", |plan| plan.put(plan.middle(), 15))
        .passes("15 as the last", |plan| plan.put(plan.end(), 15))
        .breaks("16 as the first", |plan| plan.codes[0] = 16)
        .breaks("16 in the middle", |plan| {
            let middle = plan.middle();
            plan.codes[middle] = 16;
        })
        .breaks("16 as the last", |plan| {
            let end = plan.end();
            plan.codes[end] = 16;
        })
        .breaks("255 as the first", |plan| plan.codes[0] = 255)
        .farther(|plan, rng| {
            let place = rng.below(plan.codes.len());
            plan.codes[place] = *rng.pick(&[16, 17, 19, 20, 27, 31, 32, 64, 127, 128, 255]);
        })
}

/// An output of no bytes is always too short, whatever the codes are.
fn room_rule(has_table: bool) -> Rule<Plan> {
    let rule = rule(NO_ROOM, "the output has the bytes needed")
        .passes("exactly", |plan: &mut Plan| plan.room = needed(&plan.codes))
        .passes("one more", |plan| plan.room = needed(&plan.codes) + 1)
        .breaks("none", |plan| plan.room = 0)
        .breaks("one less", |plan| plan.room = needed(&plan.codes) - 1)
        .farther(|plan, rng| plan.room = rng.below(needed(&plan.codes)));
    if !has_table {
        return rule;
    }
    rule.breaks("the two-bit bytes less one", |plan| plan.room = two_bit_size(&plan.codes) - 1)
        .breaks("the two-bit bytes", |plan| plan.room = two_bit_size(&plan.codes))
        .breaks("the two-bit bytes and the word", |plan| plan.room = two_bit_size(&plan.codes) + 4)
        .breaks("all but the last entry", |plan| plan.room = needed(&plan.codes) - 4)
}

/// The only rule of a code's bases, whose plan is the code.
pub fn base_rules() -> Vec<Rule<u64>> {
    vec![rule(BAD_CODE, "the code is at most 15")
        .passes("0", |code: &mut u64| *code = 0)
        .passes("15", |code| *code = 15)
        .breaks("16", |code| *code = 16)
        .breaks("2^32 - 1", |code| *code = (1 << 32) - 1)
        .breaks("2^32, handed on as 2^32 - 1", |code| *code = 1 << 32)
        .breaks("2^64 - 1", |code| *code = u64::MAX)
        .farther(|code, rng| *code = rng.number() >> rng.below(64) | 16)]
}
