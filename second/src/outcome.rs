//! What came out of a call's cases: the numbers reached, what the cases have shown of the order of refusals, and where
//! the two programs do not agree.

use crate::answers::TOO_LARGE;
use crate::call::{signature, Call};
use crate::generate::order::Shows;
use crate::generate::{orders, Case};
use crate::line::number_of;
use crate::stream::describe;
use std::collections::{BTreeMap, BTreeSet};

/// How many differences of a call are told in full.
const TOLD: usize = 3;

/// A case on which the two programs do not agree.
pub struct Difference {
    pub case: Case,
    pub expected: String,
    pub found: String,
}

#[derive(Default)]
pub struct Outcome {
    pub cases: usize,
    pub reached: BTreeMap<u32, usize>,
    pub shown: BTreeSet<Shows>,
    pub differences: Vec<Difference>,
}

impl Outcome {
    /// Counts one case, and notes it where the two lines are not the same, or are not what the case aims at.
    pub fn count(&mut self, case: &Case, expected: &str, found: String) {
        self.cases += 1;
        let number = number_of(expected).expect("our lines begin with a number");
        *self.reached.entry(number).or_insert(0) += 1;
        let is_hit = case.is_hit_by(expected);
        if found == expected && is_hit {
            self.shown.extend(case.shows.clone());
            return;
        }
        let expected = if is_hit {
            expected.to_string()
        } else {
            format!("{:?} was aimed at, and {:?} done", case.aim, case.done)
        };
        self.differences.push(Difference { case: case.clone(), expected, found });
    }

    /// The numbers that a call can give and the cases did not reach. 22 is asked only where the cases can make it.
    pub fn missed(&self, byte: u8, with_22: bool) -> Vec<u32> {
        let numbers = signature(byte).map_or(&[] as &[u32], |signature| signature.numbers);
        let asked = |number: &u32| *number != TOO_LARGE || with_22;
        numbers.iter().copied().filter(asked).filter(|number| !self.reached.contains_key(number)).collect()
    }

    /// The sides of rules and the pairs of rules that the cases did not show.
    pub fn not_shown(&self, byte: u8) -> Vec<Shows> {
        let asked = orders(byte).into_iter().flat_map(|order| [order.sides(), order.pairs()].concat());
        asked.filter(|shows| !self.shown.contains(shows)).collect()
    }

    pub fn tell_differences(&self) {
        for difference in self.differences.iter().take(TOLD) {
            let case = &difference.case;
            println!("DIFFERENCE ({}) in {}", case.note, describe_call(&case.call).trim_end());
            println!("    expected: {}\n    found:    {}", difference.expected, difference.found);
        }
        if self.differences.len() > TOLD {
            println!("and {} differences more", self.differences.len() - TOLD);
        }
    }

    /// Tells the differences and what is missing; gives how many things are wrong.
    pub fn tell(&self, byte: u8, with_22: bool) -> usize {
        let name = signature(byte).map_or("", |signature| signature.name);
        self.tell_differences();
        let missed = self.missed(byte, with_22);
        for number in &missed {
            println!("NOT REACHED: answer {number} of call {byte} ({name})");
        }
        let not_shown = self.not_shown(byte);
        for shows in &not_shown {
            println!("NOT SHOWN: call {byte} ({name}), {shows}");
        }
        self.differences.len() + missed.len() + not_shown.len()
    }
}

/// A call for people: its name and its arguments in hex.
pub fn describe_call(call: &Call) -> String {
    let name = signature(call.byte).map_or("unknown", |signature| signature.name);
    let mut text = format!("call {} ({name})\n", call.byte);
    for argument in &call.arguments {
        text.push_str(&format!("    {}\n", describe(argument)));
    }
    text
}
