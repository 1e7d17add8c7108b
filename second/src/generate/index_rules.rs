//! The rules of an index in the order of its fields: 1 to 6.

use super::rng::Rng;
use super::rules::{rule, Rule};
use super::volumes::*;
use crate::answers::*;

const CUT: &str = "a field that is cut has no value";
const ENDS_BEFORE: &str = "the index ends before the next field";
const SHORT: &str = "an index that ends early has nothing left over";

/// A number that is negative as four bytes.
fn negative(rng: &mut Rng) -> i128 {
    *rng.pick(&[-1, -2, -2_147_483_648])
}

/// The index ends inside a field, one byte before its end.
fn one_byte_short(plan: &mut Plan, field: usize) {
    plan.cut = Some((field, plan.fields()[field].len() - 1));
}

/// The index ends right behind a field.
fn ends_behind(plan: &mut Plan, field: usize) {
    plan.cut = Some((field + 1, 0));
}

/// The index ends somewhere inside a field.
fn cut_by_chance(plan: &mut Plan, field: usize, rng: &mut Rng) {
    plan.cut = Some((field, rng.below(plan.fields()[field].len())));
}

/// Rules from the version to the end of the tables. Only a DNA index has the third table.
pub fn rules(kind: i128) -> Vec<Rule<Plan>> {
    let mut rules = up_to_the_sequence_offsets();
    if kind == 0 {
        rules.push(ambiguity_offsets());
    }
    rules.push(nothing_behind());
    rules
}

/// The rules of both types.
pub fn up_to_the_sequence_offsets() -> Vec<Rule<Plan>> {
    let mut rules = version_and_type();
    rules.extend(title());
    rules.extend(timestamp());
    rules.extend(sequences());
    rules.extend(residue_count());
    rules.extend(longest());
    rules.extend(offsets());
    rules
}

fn version_and_type() -> Vec<Rule<Plan>> {
    vec![
        rule(ENDS_TOO_EARLY, "the version is whole")
            .leads_to(WRONG_VERSION, "4 bytes, version 5", |plan: &mut Plan| {
                plan.version = 5;
                ends_behind(plan, VERSION);
            })
            .breaks("3 bytes", |plan| one_byte_short(plan, VERSION))
            .farther(|plan, rng| cut_by_chance(plan, VERSION, rng))
            .shuts(CUT),
        rule(WRONG_VERSION, "the version is 4")
            .passes("4", |_: &mut Plan| {})
            .breaks("3", |plan| plan.version = 3)
            .breaks("5", |plan| plan.version = 5)
            .farther(|plan, rng| plan.version = *rng.pick(&[0, -4, 0x0400_0000, 260])),
        rule(ENDS_TOO_EARLY, "the type is whole")
            .leads_to(WRONG_TYPE, "4 bytes, type 2", |plan: &mut Plan| {
                plan.kind = 2;
                ends_behind(plan, TYPE);
            })
            .breaks("3 bytes", |plan| one_byte_short(plan, TYPE))
            .farther(|plan, rng| cut_by_chance(plan, TYPE, rng))
            .shuts(CUT),
        rule(WRONG_TYPE, "the type is 0 or 1")
            .passes("as the volume is", |_: &mut Plan| {})
            .breaks("-1", |plan| plan.kind = -1)
            .breaks("2", |plan| plan.kind = 2)
            .farther(|plan, rng| plan.kind = *rng.pick(&[256, 257, 0x0100_0000])),
    ]
}

fn title() -> Vec<Rule<Plan>> {
    vec![
        rule(ENDS_TOO_EARLY, "the title length is whole")
            .leads_to(OUT_OF_RANGE, "4 bytes, length -1", |plan: &mut Plan| {
                plan.title_length = -1;
                ends_behind(plan, TITLE_LENGTH);
            })
            .breaks("3 bytes", |plan| one_byte_short(plan, TITLE_LENGTH))
            .farther(|plan, rng| cut_by_chance(plan, TITLE_LENGTH, rng))
            .shuts(CUT),
        rule(OUT_OF_RANGE, "the title length is not negative")
            .passes("0", |plan: &mut Plan| plan.set_texts(0, 8))
            .breaks("-1", |plan| plan.title_length = -1)
            .farther(|plan, rng| plan.title_length = negative(rng)),
        rule(ENDS_TOO_EARLY, "the title is whole")
            .passes("every byte", |_: &mut Plan| {})
            .breaks("one byte less", |plan| one_byte_short(plan, TITLE))
            .breaks("2,147,483,647 stated", |plan| plan.title_length = 2_147_483_647)
            .farther(|plan, rng| cut_by_chance(plan, TITLE, rng))
            .shuts(ENDS_BEFORE),
    ]
}

fn timestamp() -> Vec<Rule<Plan>> {
    vec![
        rule(ENDS_TOO_EARLY, "the timestamp length is whole")
            .leads_to(OUT_OF_RANGE, "4 bytes, length -1", |plan: &mut Plan| {
                plan.timestamp_length = -1;
                ends_behind(plan, TIMESTAMP_LENGTH);
            })
            .breaks("3 bytes", |plan| one_byte_short(plan, TIMESTAMP_LENGTH))
            .farther(|plan, rng| cut_by_chance(plan, TIMESTAMP_LENGTH, rng))
            .shuts(CUT),
        rule(OUT_OF_RANGE, "the timestamp length is not negative")
            .passes("0", |plan: &mut Plan| plan.set_texts(8, 0))
            .breaks("-1", |plan| plan.timestamp_length = -1)
            .farther(|plan, rng| plan.timestamp_length = negative(rng)),
        rule(ENDS_TOO_EARLY, "the timestamp is whole")
            .leads_to(MISALIGNED, "every byte, misaligned", |plan: &mut Plan| {
                lengthen_timestamp(plan, 1);
                ends_behind(plan, TIMESTAMP);
            })
            .breaks("one byte less", |plan| one_byte_short(plan, TIMESTAMP))
            .breaks("2,147,483,647 stated", |plan| plan.timestamp_length = 2_147_483_647)
            .farther(|plan, rng| cut_by_chance(plan, TIMESTAMP, rng)),
        rule(MISALIGNED, "the timestamp ends at a multiple of 4")
            .passes("8k", |plan: &mut Plan| end_timestamp_past(plan, 0))
            .passes("8k + 4", |plan| end_timestamp_past(plan, 4))
            .breaks("8k + 1", |plan| end_timestamp_past(plan, 1))
            .breaks("8k + 2", |plan| end_timestamp_past(plan, 2))
            .breaks("8k + 3", |plan| end_timestamp_past(plan, 3))
            .breaks("8k + 5", |plan| end_timestamp_past(plan, 5))
            .breaks("8k + 6", |plan| end_timestamp_past(plan, 6))
            .breaks("8k + 7", |plan| end_timestamp_past(plan, 7))
            .farther(|plan, rng| lengthen_timestamp(plan, 4 * rng.below(6) + rng.between(1, 3))),
    ]
}

/// NULs behind the timestamp, up to an end that is this much past a multiple of 8.
fn end_timestamp_past(plan: &mut Plan, past: usize) {
    let end = 16 + plan.title.len() + plan.timestamp.len();
    lengthen_timestamp(plan, (8 + past - end % 8) % 8);
}

/// NULs behind the timestamp.
fn lengthen_timestamp(plan: &mut Plan, more: usize) {
    plan.timestamp.extend(vec![0; more]);
    plan.timestamp_length += more as i128;
}

/// How many sequences there are.
fn sequences() -> Vec<Rule<Plan>> {
    vec![
        rule(ENDS_TOO_EARLY, "N is whole")
            .leads_to(OUT_OF_RANGE, "4 bytes, N -1", |plan: &mut Plan| {
                plan.n = -1;
                ends_behind(plan, SEQUENCES);
            })
            .breaks("3 bytes", |plan| one_byte_short(plan, SEQUENCES))
            .farther(|plan, rng| cut_by_chance(plan, SEQUENCES, rng))
            .shuts(CUT),
        rule(OUT_OF_RANGE, "N is not negative")
            .leads_to(LEFT_OVER, "0, with tables for more", |plan: &mut Plan| plan.n = 0)
            .breaks("-1", |plan| plan.n = -1)
            .farther(|plan, rng| plan.n = negative(rng)),
        rule(OUT_OF_RANGE, "N is at most 134,217,728")
            .leads_to(ENDS_TOO_EARLY, "134,217,728", |plan: &mut Plan| plan.n = 134_217_728)
            .breaks("134,217,729", |plan| plan.n = 134_217_729)
            .farther(|plan, _| plan.n = 2_147_483_647),
    ]
}

fn residue_count() -> Vec<Rule<Plan>> {
    vec![
        rule(ENDS_TOO_EARLY, "the count is whole")
            .leads_to(OUT_OF_RANGE, "8 bytes, count -1", |plan: &mut Plan| {
                plan.count = -1;
                ends_behind(plan, RESIDUE_COUNT);
            })
            .breaks("7 bytes", |plan| one_byte_short(plan, RESIDUE_COUNT))
            .farther(|plan, rng| cut_by_chance(plan, RESIDUE_COUNT, rng))
            .shuts(CUT),
        rule(OUT_OF_RANGE, "the count is not negative")
            .leads_to(ENDS_TOO_EARLY, "0, and nothing behind", |plan: &mut Plan| {
                plan.count = 0;
                ends_behind(plan, RESIDUE_COUNT);
            })
            .leads_to(ENDS_TOO_EARLY, "9,223,372,036,854,775,807, and nothing behind", |plan| {
                plan.count = (1 << 63) - 1;
                ends_behind(plan, RESIDUE_COUNT);
            })
            .breaks("-1", |plan| plan.count = -1)
            .breaks("-9,223,372,036,854,775,808", |plan| plan.count = -(1 << 63)),
    ]
}

fn longest() -> Vec<Rule<Plan>> {
    vec![
        rule(ENDS_TOO_EARLY, "the longest is whole")
            .leads_to(OUT_OF_RANGE, "4 bytes, longest -1", |plan: &mut Plan| {
                plan.longest = -1;
                ends_behind(plan, LONGEST);
            })
            .breaks("3 bytes", |plan| one_byte_short(plan, LONGEST))
            .farther(|plan, rng| cut_by_chance(plan, LONGEST, rng))
            .shuts(CUT),
        rule(OUT_OF_RANGE, "the longest is not negative")
            .leads_to(ENDS_TOO_EARLY, "0, and nothing behind", |plan: &mut Plan| {
                plan.longest = 0;
                ends_behind(plan, LONGEST);
            })
            .leads_to(ENDS_TOO_EARLY, "2,147,483,647, and nothing behind", |plan| {
                plan.longest = 2_147_483_647;
                ends_behind(plan, LONGEST);
            })
            .breaks("-1", |plan| plan.longest = -1)
            .breaks("-2,147,483,648", |plan| plan.longest = -2_147_483_648),
    ]
}

fn offsets() -> Vec<Rule<Plan>> {
    vec![
        rule(ENDS_TOO_EARLY, "the header offsets are whole")
            .passes("every byte", |_: &mut Plan| {})
            .breaks("one byte less", |plan| one_byte_short(plan, HEADER_OFFSETS))
            .farther(|plan, rng| cut_by_chance(plan, HEADER_OFFSETS, rng))
            .shuts(SHORT),
        rule(ENDS_TOO_EARLY, "the sequence offsets are whole")
            .passes("every byte", |_: &mut Plan| {})
            .breaks("one byte less", |plan| one_byte_short(plan, SEQUENCE_OFFSETS))
            .breaks("one more stated", |plan| plan.n = plan.headers.len() as i128)
            .farther(|plan, rng| cut_by_chance(plan, SEQUENCE_OFFSETS, rng))
            .shuts(SHORT),
    ]
}

fn ambiguity_offsets() -> Rule<Plan> {
    rule(ENDS_TOO_EARLY, "the ambiguity offsets are whole")
        .passes("every byte", |_: &mut Plan| {})
        .breaks("one byte less", |plan| one_byte_short(plan, AMBIGUITY_OFFSETS))
        .breaks("none", |plan| plan.cut = Some((AMBIGUITY_OFFSETS, 0)))
        .farther(|plan, rng| cut_by_chance(plan, AMBIGUITY_OFFSETS, rng))
        .shuts(SHORT)
}

fn nothing_behind() -> Rule<Plan> {
    rule(LEFT_OVER, "nothing follows the tables")
        .passes("no byte", |_: &mut Plan| {})
        .breaks("one byte", |plan| plan.behind = vec![0])
        .breaks("one less stated", |plan| plan.n = plan.headers.len() as i128 - 2)
        .farther(|plan, rng| {
            let length = *rng.pick(&[3, 4, 7]);
            plan.behind = rng.bytes(length);
        })
}
