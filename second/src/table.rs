//! The tables that a run prints: which call gave which number how often, and what was shown of each order of refusals.

use crate::answers::TOO_LARGE;
use crate::call::{signature, Signature};
use crate::generate::order::Order;
use crate::generate::orders;
use crate::outcome::Outcome;
use std::collections::BTreeMap;

/// Document 01's numbers, 0 for success first.
const NUMBERS: [u32; 22] =
    [0, 1, 2, 3, 4, 5, 6, 7, 8, 9, 10, 11, 12, 13, 14, 15, 17, 18, 19, 20, 21, TOO_LARGE];

/// The calls of a run with what came out of each.
pub type Outcomes = [(u8, Outcome)];

/// The table of numbers. A dot is a number that the call cannot give; 22 is told in words where cases cannot make it.
pub fn numbers(outcomes: &Outcomes, with_22: bool) -> String {
    let mut text = String::from("cases that gave each number; '.': the call cannot give it\n");
    let heads: String = NUMBERS[..21].iter().map(|number| format!("{number:>6}")).collect();
    text.push_str(&format!("{:24}{heads}  22\n", "call"));
    for (byte, outcome) in outcomes {
        let Some(signature) = signature(*byte) else { continue };
        let cells: String = NUMBERS[..21].iter().map(|number| cell(signature, outcome, *number)).collect();
        let last = if with_22 {
            cell(signature, outcome, TOO_LARGE).trim().to_string()
        } else {
            signature.large.words().to_string()
        };
        text.push_str(&format!("{byte:>2} {:21}{cells}  {last}\n", signature.name));
    }
    text
}

fn cell(signature: &Signature, outcome: &Outcome, number: u32) -> String {
    match outcome.reached.get(&number) {
        Some(count) => format!("{count:>6}"),
        None if signature.numbers.contains(&number) => format!("{:>6}", "NONE"),
        None => format!("{:>6}", "."),
    }
}

/// The table of orders: rules, values at their edges, and pairs of neighbours.
pub fn coverage(outcomes: &Outcomes) -> String {
    let mut text = String::from(
        "limits and pairs: values on both sides of each rule; neighbours in the order of refusals broken together\n",
    );
    text.push_str(&format!("{:46}{:>6}{:>14}{:>14}  cannot be\n", "call", "rules", "values", "pairs"));
    for (byte, outcome) in outcomes {
        let name = signature(*byte).map_or("", |signature| signature.name);
        for order in orders(*byte) {
            let called = format!("{byte:>2} {name}, {}", order.title);
            let shown = |asked: Vec<_>| {
                let found = asked.iter().filter(|shows| outcome.shown.contains(shows)).count();
                format!("{found} of {}", asked.len())
            };
            text.push_str(&format!(
                "{called:46}{:>6}{:>14}{:>14}  {}\n",
                order.rows.len(),
                shown(order.sides()),
                shown(order.pairs()),
                order.impossible().len()
            ));
        }
    }
    text.push_str(
        "22 and its limit, alone and together with the number asked next: as the last column above says\n",
    );
    text.push_str(&impossible(outcomes.iter().flat_map(|(byte, _)| orders(*byte)).collect()));
    text
}

/// Every pair that cannot be, once, by its reason, with the calls that have it.
pub fn impossible(orders: Vec<Order>) -> String {
    let mut reasons: BTreeMap<&str, Vec<Shut>> = BTreeMap::new();
    for order in &orders {
        for (earlier, later, reason) in order.impossible() {
            let known = reasons.entry(reason).or_default();
            match known.iter_mut().find(|shut| shut.earlier == earlier) {
                Some(shut) => shut.add(later, order.byte),
                None => known.push(Shut { earlier, later: vec![later], calls: vec![order.byte] }),
            }
        }
    }
    let mut text = String::new();
    for (reason, pairs) in reasons {
        text.push_str(&format!("pairs that cannot be, because {reason}:\n"));
        for shut in pairs {
            let calls: Vec<String> = shut.calls.iter().map(u8::to_string).collect();
            let later = shut.later.join("; ");
            text.push_str(&format!("  {} / {later} (calls {})\n", shut.earlier, calls.join(", ")));
        }
    }
    text
}

/// A rule and those that cannot be broken together with it.
struct Shut {
    earlier: &'static str,
    later: Vec<&'static str>,
    calls: Vec<u8>,
}

impl Shut {
    fn add(&mut self, later: &'static str, byte: u8) {
        if !self.later.contains(&later) {
            self.later.push(later);
        }
        if !self.calls.contains(&byte) {
            self.calls.push(byte);
        }
    }
}
