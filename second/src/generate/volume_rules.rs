//! The rules of the volume check in the order of its refusals.

use super::index_rules;
use super::rules::{rule, Rule};
use super::volumes::Plan;
use crate::answers::*;
use crate::call::CONSOLE_VOLUME_CHECK;

/// All rules; the last is the console's alone.
pub fn rules(byte: u8, kind: i128) -> Vec<Rule<Plan>> {
    let mut rules = index_rules::rules(kind);
    rules.extend(headers());
    rules.extend(if kind == 1 { protein() } else { dna() });
    rules.extend(totals(kind));
    rules.extend(results(byte));
    rules
}

/// What a volume without sequences may not have.
pub fn without_sequences(byte: u8, kind: i128) -> Vec<Rule<Plan>> {
    let mut rules = vec![rule(BAD_OFFSETS, "H[0] is 0 and the header file empty")
        .passes("0 and no byte", |_: &mut Plan| {})
        .breaks("-1", |plan| plan.headers[0] = -1)
        .breaks("1 and one byte", |plan| (plan.headers[0], plan.header) = (1, vec![0]))
        .breaks("0 and one byte", |plan| plan.header = vec![0])];
    if kind == 1 {
        rules.extend(protein_without_sequences());
    } else {
        rules.extend(dna_without_sequences());
    }
    rules.extend([
        rule(WRONG_TOTALS, "the count is 0")
            .passes("0", |_: &mut Plan| {})
            .breaks("1", |plan| plan.count = 1),
        rule(WRONG_TOTALS, "the longest is 0")
            .passes("0", |_: &mut Plan| {})
            .breaks("1", |plan| plan.longest = 1),
    ]);
    rules.extend(results(byte));
    rules
}

fn protein_without_sequences() -> Vec<Rule<Plan>> {
    vec![
        rule(BAD_OFFSETS, "S[0] is 1")
            .passes("1", |_: &mut Plan| {})
            .breaks("0", |plan| plan.s[0] = 0)
            .breaks("2 and two bytes", |plan| {
                plan.s[0] = 2;
                plan.sequence.push(0);
            }),
        rule(BAD_OFFSETS, "the sequence file has at most one byte")
            .passes("one", |_: &mut Plan| {})
            .breaks("two", |plan| plan.sequence.push(0)),
        rule(BAD_OFFSETS, "the sequence file has at least one byte")
            .passes("one", |_: &mut Plan| {})
            .breaks("none", |plan| plan.sequence.clear())
            .shuts("a file without bytes has no byte 0"),
        rule(NO_SEPARATOR, "byte 0 is NUL").passes("0", |_: &mut Plan| {}).breaks("1", |plan| plan.put(0, 1)),
    ]
}

fn dna_without_sequences() -> Vec<Rule<Plan>> {
    vec![
        rule(BAD_OFFSETS, "S[0] is 0")
            .passes("0", |_: &mut Plan| {})
            .breaks("-1", |plan| plan.s[0] = -1)
            .breaks("1 and one byte", |plan| {
                (plan.s[0], plan.a[0], plan.sequence) = (1, 1, vec![0]);
            }),
        rule(BAD_OFFSETS, "A[0] is the file's length")
            .passes("0 and no byte", |_: &mut Plan| {})
            .breaks("-1", |plan| plan.a[0] = -1)
            .breaks("1 and no byte", |plan| plan.a[0] = 1),
        rule(BAD_OFFSETS, "the sequence file is empty")
            .passes("no byte", |_: &mut Plan| {})
            .breaks("one byte", |plan| plan.sequence = vec![0])
            .breaks("one byte and A[0] 1", |plan| (plan.a[0], plan.sequence) = (1, vec![0])),
    ]
}

/// The console's results.
fn results(byte: u8) -> Option<Rule<Plan>> {
    let results = rule(NO_ROOM, "the results have 64 bytes")
        .passes("64", |plan: &mut Plan| plan.results = 64)
        .breaks("63", |plan| plan.results = 63)
        .farther(|plan, rng| plan.results = rng.below(64));
    (byte == CONSOLE_VOLUME_CHECK).then_some(results)
}

/// The place of the offset behind the chosen sequence.
fn later(plan: &Plan) -> usize {
    plan.number as usize + 1
}

/// A place of an offset that is neither the first nor the last.
fn inner(plan: &Plan) -> usize {
    (plan.number as usize).clamp(1, plan.s.len() - 2)
}

fn headers() -> Vec<Rule<Plan>> {
    vec![
        rule(BAD_OFFSETS, "the first header offset is 0")
            .passes("0", |_: &mut Plan| {})
            .breaks("-1", |plan| plan.headers[0] = -1)
            .breaks("1", |plan| plan.headers[0] = 1),
        rule(BAD_OFFSETS, "header offsets never fall")
            .passes("the same as before", |plan: &mut Plan| {
                let at = inner(plan);
                plan.headers[at] = plan.headers[at - 1];
            })
            .breaks("one below", |plan| {
                let at = later(plan);
                plan.headers[at] = plan.headers[at - 1] - 1;
            })
            .farther(|plan, _| {
                let at = later(plan);
                plan.headers[at] = -2_147_483_648;
            }),
        rule(BAD_OFFSETS, "the last header offset is the file's length")
            .passes("the length", |_: &mut Plan| {})
            .breaks("one more", |plan| plan.header.truncate(plan.header.len() - 1))
            .breaks("one less", |plan| plan.header.push(0)),
    ]
}

/// Offsets, then separators.
fn protein() -> Vec<Rule<Plan>> {
    vec![
        rule(BAD_OFFSETS, "S[0] is 1")
            .passes("1", |_: &mut Plan| {})
            .breaks("0", |plan| plan.s[0] = 0)
            .breaks("2", |plan| plan.s[0] = 2)
            .farther(|plan, _| plan.s[0] = -1),
        rule(BAD_OFFSETS, "each S is at least one above the previous")
            .passes("one above", |plan: &mut Plan| {
                plan.replace(plan.number as usize, |one| (one.residues, one.bytes) = (0, vec![0]));
            })
            .breaks("the same", |plan| {
                let at = later(plan);
                plan.s[at] = plan.s[at - 1];
            })
            .farther(|plan, rng| {
                let at = later(plan);
                plan.s[at] = *rng.pick(&[plan.s[at - 1] - 1, 0, -5]);
            }),
        rule(BAD_OFFSETS, "the last S is the file's length")
            .passes("the length", |_: &mut Plan| {})
            .breaks("one more", |plan| plan.sequence.truncate(plan.sequence.len() - 1))
            .breaks("one less", |plan| plan.sequence.push(0)),
        rule(NO_SEPARATOR, "byte 0 is NUL")
            .passes("0", |_: &mut Plan| {})
            .breaks("1", |plan| plan.sequence[0] = 1)
            .farther(|plan, rng| plan.sequence[0] = rng.between(1, 255) as u8),
        rule(NO_SEPARATOR, "the byte before each later S is NUL")
            .passes("0", |_: &mut Plan| {})
            .breaks("1 before the second", |plan| plan.put(plan.s[1] - 1, 1))
            .breaks("1 before the last", |plan| *plan.sequence.last_mut().expect("a separator") = 1)
            .farther(|plan, rng| plan.put(plan.s[later(plan)] - 1, rng.between(1, 255) as u8)),
    ]
}

fn dna() -> Vec<Rule<Plan>> {
    vec![
        rule(BAD_OFFSETS, "S[0] is 0")
            .passes("0", |_: &mut Plan| {})
            .breaks("-1", |plan| plan.s[0] = -1)
            .breaks("1", |plan| plan.s[0] = 1),
        rule(BAD_OFFSETS, "S[i] is below A[i]")
            .passes("one below", |plan: &mut Plan| {
                plan.replace(plan.number as usize, |one| (one.residues, one.bytes) = (3, vec![0x1B]));
            })
            .breaks("the same", |plan| {
                let i = plan.number as usize;
                plan.a[i] = plan.s[i];
            })
            .farther(|plan, _| {
                let i = plan.number as usize;
                plan.a[i] = plan.s[i] - 1;
            }),
        rule(BAD_OFFSETS, "A[i] is at most S[i+1]")
            .passes("the same", |plan: &mut Plan| plan.replace(plan.number as usize, |one| one.range.clear()))
            .breaks("one more", |plan| {
                let i = plan.number as usize;
                plan.a[i] = plan.s[i + 1] + 1;
            })
            .farther(|plan, _| {
                let i = plan.number as usize;
                plan.a[i] = 2_147_483_647;
            }),
        rule(BAD_OFFSETS, "S[N] is the file's length")
            .passes("the length", |_: &mut Plan| {})
            .breaks("one more", |plan| *plan.s.last_mut().expect("S[N]") += 1)
            .breaks("one less", |plan| *plan.s.last_mut().expect("S[N]") -= 1)
            .farther(|plan, _| plan.sequence.push(0)),
        rule(BAD_OFFSETS, "A[N] is the file's length")
            .passes("the length", |_: &mut Plan| {})
            .breaks("one more", |plan| *plan.a.last_mut().expect("A[N]") += 1)
            .breaks("one less", |plan| *plan.a.last_mut().expect("A[N]") -= 1)
            .farther(|plan, _| plan.sequence.push(0)),
    ]
}

fn totals(kind: i128) -> Vec<Rule<Plan>> {
    let mut count = rule(WRONG_TOTALS, "the count is the sum of lengths")
        .passes("the sum", |_: &mut Plan| {})
        .breaks("one more", |plan| plan.count = sum(plan) + 1)
        .breaks("one less", |plan| plan.count = sum(plan) - 1)
        .farther(|plan, _| plan.count = (1 << 63) - 1);
    if kind == 0 {
        count = count
            .breaks("bit 0 of a last byte turned", |plan| turn_low_bit(plan, 1))
            .breaks("bit 1 of a last byte turned", |plan| turn_low_bit(plan, 2));
    }
    let longest = rule(WRONG_TOTALS, "the longest is the largest length")
        .passes("the largest", |_: &mut Plan| {})
        .breaks("one more", |plan| plan.longest = largest(plan) + 1)
        .breaks("one less", |plan| plan.longest = largest(plan) - 1)
        .farther(|plan, _| plan.longest = 2_147_483_647);
    vec![count, longest]
}

fn sum(plan: &Plan) -> i128 {
    plan.lengths.iter().sum::<usize>() as i128
}

fn largest(plan: &Plan) -> i128 {
    plan.lengths.iter().copied().max().unwrap_or(0) as i128
}

/// Turns one of the two bits that belong to the chosen sequence's length.
fn turn_low_bit(plan: &mut Plan, bit: u8) {
    plan.sequence[plan.a[plan.number as usize] as usize - 1] ^= bit;
}
