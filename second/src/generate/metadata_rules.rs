//! The rules of a set's metadata records: one number, in no order.

use super::rules::{rule, Rule};
use super::sets::{Plan, Record};
use crate::answers::*;

pub fn rules() -> Vec<Rule<Plan>> {
    let mut rules = texts();
    rules.extend(closings());
    rules
}

/// Changes a record and lays the metadata out anew, with the longest lengths that are then right.
fn good(change: impl Fn(&mut Record) + 'static) -> impl Fn(&mut Plan) {
    move |plan| {
        let at = plan.at;
        change(&mut plan.records[at]);
        plan.lay_out_metadata();
        plan.state_longest_texts();
    }
}

/// Changes a record and lays the metadata out anew; the rest of the set stays.
fn bad(change: impl Fn(&mut Record) + 'static) -> impl Fn(&mut Plan) {
    move |plan| {
        let at = plan.at;
        change(&mut plan.records[at]);
        plan.lay_out_metadata();
    }
}

/// One text of a record.
type Text = fn(&mut Record) -> &mut Vec<u8>;

fn texts() -> Vec<Rule<Plan>> {
    let mut rules = vec![rule(BAD_METADATA, "the name is not empty")
        .passes("one byte", good(|record| record.name = vec![b'n']))
        .breaks("no byte", bad(|record| record.name.clear()))];
    let words: [(&'static str, Text); 2] = [
        ("the name has no byte 9 to 13 or 32", |record| &mut record.name),
        ("the accession has no byte 9 to 13 or 32", |record| &mut record.accession),
    ];
    for (name, text) in words {
        let mut one = rule(BAD_METADATA, name);
        for byte in [8, 14, 31, 33, 127, 128, 255] {
            one = one.passes(format!("byte {byte}"), good(move |record| text(record).push(byte)));
        }
        for byte in [9, 10, 11, 12, 13, 32] {
            one = one.breaks(format!("byte {byte}"), bad(move |record| text(record).push(byte)));
        }
        rules.push(one);
    }
    let mut one = rule(BAD_METADATA, "the description has no byte 10");
    for byte in [9, 11, 13, 32] {
        one = one.passes(format!("byte {byte}"), good(move |record| record.description.push(byte)));
    }
    rules.push(one.breaks("byte 10", bad(|record| record.description.push(10))));
    rules
}

/// The NULs, the taxonomy id, and the end.
fn closings() -> Vec<Rule<Plan>> {
    let mut id = rule(BAD_METADATA, "the taxonomy id is -1 or at least 1");
    for value in [-1, 1, 128, 2_147_483_647] {
        id = id.passes(value.to_string(), good(move |record| record.taxonomy_id = value));
    }
    for value in [0, -2, -256, -2_147_483_648] {
        id = id.breaks(value.to_string(), bad(move |record| record.taxonomy_id = value));
    }
    vec![
        rule(BAD_METADATA, "each text is closed by NUL")
            .passes("three NULs and four bytes", good(|record| record.taxonomy_id = 0x0101_0101))
            .breaks("two NULs", |plan| {
                let last = plan.metadata_ends[plan.at] as usize;
                plan.metadata[last - 4..=last].fill(b'x');
            })
            .breaks("no NUL", |plan| {
                let first = plan.metadata_start(plan.at);
                plan.metadata[first..=plan.metadata_ends[plan.at] as usize].fill(b'x');
            })
            .breaks(
                "two NULs more",
                bad(|record| {
                    // So long that what stands behind the third NUL is never four bytes.
                    record.name.extend([0, 0]);
                    record.description = vec![b'd'; 9];
                }),
            ),
        rule(BAD_METADATA, "four bytes and nothing more stand behind the texts")
            .passes("4 bytes of 1", good(|record| record.taxonomy_id = 1))
            .passes("4 bytes of 2^24", good(|record| record.taxonomy_id = 1 << 24))
            .breaks("3 bytes", bad(|record| (record.taxonomy_id, record.id_width) = (1, 3)))
            .breaks("5 bytes", bad(|record| (record.taxonomy_id, record.id_width) = (1, 5)))
            .breaks("no byte", bad(|record| record.id_width = 0)),
        id,
    ]
}
