//! The rules of decoding one sequence in the order of its refusals.

use super::dna::{all_a, table, Entry};
use super::index_rules;
use super::rules::{rule, Rule};
use super::volumes::Plan;
use crate::answers::*;

/// All rules of decoding for a type.
pub fn rules(kind: i128) -> Vec<Rule<Plan>> {
    let mut rules = index_rules::rules(kind);
    rules.push(number_rule());
    rules.extend(if kind == 1 { protein() } else { dna() });
    rules.push(
        rule(NO_ROOM, "the output has room for L")
            .passes("L", |plan: &mut Plan| plan.room = plan.lengths[chosen(plan)])
            .breaks("L - 1", |plan| plan.room = plan.lengths[chosen(plan)] - 1)
            .farther(|plan, _| plan.room = 0),
    );
    rules
}

fn number_rule() -> Rule<Plan> {
    rule(NO_SUCH_NUMBER, "the number is below N")
        .passes("N - 1", |plan: &mut Plan| choose(plan, plan.lengths.len() - 1))
        .breaks("N", |plan| plan.number = plan.lengths.len() as u64)
        .farther(|plan, rng| {
            let n = plan.lengths.len() as u64;
            plan.number = *rng.pick(&[n + 1, (1 << 32) + plan.number, (1 << 63) + plan.number, u64::MAX]);
        })
        .shuts("a sequence that is not there has no entries of its own")
}

pub fn chosen(plan: &Plan) -> usize {
    plan.number as usize
}

/// Another sequence of the volume, with room for it.
fn choose(plan: &mut Plan, i: usize) {
    plan.number = i as u64;
    plan.room = plan.lengths[i];
}

/// The chosen sequence with other bytes, and room for it.
fn with_bytes(plan: &mut Plan, residues: usize, bytes: Vec<u8>) {
    plan.replace(chosen(plan), |one| (one.residues, one.bytes) = (residues, bytes.clone()));
    plan.room = residues;
}

fn protein() -> Vec<Rule<Plan>> {
    vec![
        rule(BAD_OFFSETS, "S[i] is at least 1")
            .passes("1", |plan: &mut Plan| choose(plan, 0))
            .breaks("0", |plan| {
                let i = chosen(plan);
                plan.s[i] = 0;
            })
            .farther(|plan, rng| {
                let i = chosen(plan);
                plan.s[i] = *rng.pick(&[-1, -2_147_483_648]);
            }),
        rule(BAD_OFFSETS, "S[i] is below S[i+1]")
            .passes("one below", |plan: &mut Plan| with_bytes(plan, 0, vec![0]))
            .breaks("the same", |plan| {
                let i = chosen(plan);
                plan.s[i + 1] = plan.s[i];
            })
            .farther(|plan, _| {
                let i = chosen(plan);
                plan.s[i + 1] = plan.s[i] - 1;
            }),
        past_the_file(),
        rule(NO_SEPARATOR, "NUL before the sequence")
            .passes("0", |_: &mut Plan| {})
            .breaks("1", |plan| plan.put(plan.s[chosen(plan)] - 1, 1))
            .farther(|plan, rng| plan.put(plan.s[chosen(plan)] - 1, rng.between(1, 255) as u8)),
        rule(NO_SEPARATOR, "NUL behind the sequence")
            .passes("0", |_: &mut Plan| {})
            .breaks("1", |plan| plan.put(plan.s[chosen(plan) + 1] - 1, 1))
            .farther(|plan, rng| plan.put(plan.s[chosen(plan) + 1] - 1, rng.between(1, 255) as u8)),
        protein_bytes(),
    ]
}

fn past_the_file() -> Rule<Plan> {
    rule(BAD_OFFSETS, "S[i+1] is at most the file's length")
        .passes("the length", |plan: &mut Plan| choose(plan, plan.lengths.len() - 1))
        .breaks("one more", |plan| {
            let i = chosen(plan);
            plan.s[i + 1] = plan.sequence.len() as i128 + 1;
        })
        .farther(|plan, _| {
            let i = chosen(plan);
            plan.s[i + 1] = 2_147_483_647;
        })
}

fn protein_bytes() -> Rule<Plan> {
    let first = |plan: &Plan| plan.s[chosen(plan)];
    let last = |plan: &Plan| plan.s[chosen(plan) + 1] - 2;
    rule(BAD_PROTEIN_BYTE, "each byte is at most 27")
        .passes("27 as the first", move |plan: &mut Plan| plan.put(first(plan), 27))
        .passes("27 as the last", move |plan| plan.put(last(plan), 27))
        .breaks("28 as the first", move |plan| plan.put(first(plan), 28))
        .breaks("28 as the last", move |plan| plan.put(last(plan), 28))
        .farther(|plan, rng| {
            let at = rng.below(plan.lengths[chosen(plan)]) as i128;
            plan.put(plan.s[chosen(plan)] + at, *rng.pick(&[29, 128, 255]));
        })
}

fn dna() -> Vec<Rule<Plan>> {
    let mut rules = dna_offsets();
    rules.extend(words());
    rules.extend(entries(false));
    rules.extend(entries(true));
    rules
}

fn dna_offsets() -> Vec<Rule<Plan>> {
    vec![
        rule(BAD_OFFSETS, "S[i] is at least 0")
            .passes("0", |plan: &mut Plan| choose(plan, 0))
            .breaks("-1", |plan| {
                let i = chosen(plan);
                plan.s[i] = -1;
            })
            .farther(|plan, _| {
                let i = chosen(plan);
                plan.s[i] = -2_147_483_648;
            }),
        rule(BAD_OFFSETS, "S[i] is below A[i]")
            .passes("one below", |plan: &mut Plan| {
                set_range(plan, vec![]);
                with_bytes(plan, 3, vec![0x1B]);
            })
            .breaks("the same", |plan| {
                let i = chosen(plan);
                plan.a[i] = plan.s[i];
            })
            .farther(|plan, _| {
                let i = chosen(plan);
                plan.a[i] = plan.s[i] - 1;
            }),
        rule(BAD_OFFSETS, "A[i] is at most S[i+1]")
            .passes("the same", |plan: &mut Plan| set_range(plan, vec![]))
            .breaks("one more", |plan| {
                let i = chosen(plan);
                plan.a[i] = plan.s[i + 1] + 1;
            })
            .farther(|plan, _| {
                let i = chosen(plan);
                plan.a[i] = 2_147_483_647;
            }),
        past_the_file(),
    ]
}

/// The chosen sequence with another ambiguity range. Everything else of the volume is laid out anew.
pub fn set_range(plan: &mut Plan, range: Vec<u8>) {
    plan.replace(chosen(plan), |one| one.range = range.clone());
}

/// A range of a word and so many others, all zero.
fn said(word: u32, words: usize) -> Vec<u8> {
    [word.to_be_bytes().to_vec(), vec![0; 4 * words]].concat()
}

/// What an ambiguity range is made of.
fn words() -> Vec<Rule<Plan>> {
    vec![
        rule(BAD_AMBIGUITY_TABLE, "the ambiguity range is empty or begins with a word")
            .passes("no byte", |plan: &mut Plan| set_range(plan, vec![]))
            .passes("4 bytes", |plan| set_range(plan, vec![0; 4]))
            .breaks("1 byte", |plan| set_range(plan, vec![0]))
            .breaks("3 bytes", |plan| set_range(plan, vec![0; 3])),
        rule(BAD_AMBIGUITY_TABLE, "as many words follow as its low 31 bits say")
            .passes("one said, one there", |plan: &mut Plan| set_range(plan, said(1, 1)))
            .passes("none said, top bit set", |plan| set_range(plan, said(0x8000_0000, 0)))
            .breaks("one said, none there", |plan| set_range(plan, said(1, 0)))
            .breaks("none said, one there", |plan| set_range(plan, said(0, 1)))
            .breaks("a byte missing", |plan| set_range(plan, said(1, 1)[..7].to_vec()))
            .breaks("a byte behind", |plan| set_range(plan, [said(1, 1), vec![0]].concat()))
            .breaks("2,147,483,647 said, one there", |plan| set_range(plan, said(0x7FFF_FFFF, 1)))
            .breaks("1,073,741,825 said, one there", |plan| set_range(plan, said(0x4000_0001, 1))),
        rule(BAD_AMBIGUITY_TABLE, "with the top bit set the count is even")
            .passes("2", |plan: &mut Plan| set_range(plan, said(0x8000_0002, 2)))
            .breaks("1", |plan| set_range(plan, said(0x8000_0001, 1)))
            .breaks("3", |plan| set_range(plan, said(0x8000_0003, 3))),
    ]
}

/// A table with these entries, given as start and repeat.
fn table_of(is_wide: bool, entries: &[(i128, i128)]) -> Vec<u8> {
    let entry = |(start, repeat): &(i128, i128)| Entry { value: 15, repeat: *repeat, start: *start };
    table(is_wide, &entries.iter().map(entry).collect::<Vec<_>>())
}

/// Makes the chosen sequence as long as said, under this table. The output stays large enough or too small.
fn over(plan: &mut Plan, residues: usize, range: Vec<u8>) {
    let missing = plan.lengths[chosen(plan)].saturating_sub(plan.room);
    plan.replace(chosen(plan), |one| {
        (one.residues, one.bytes, one.range) = (residues, all_a(residues), range.clone());
    });
    plan.room = residues - missing.min(residues);
}

/// Where entries stand. Their 4 or 12 bits for the repeat and 24 or 48 for the offset have their own limits.
fn entries(is_wide: bool) -> Vec<Rule<Plan>> {
    let bits = |narrow: &'static str, wide: &'static str| if is_wide { wide } else { narrow };
    let (most, last_start) = if is_wide { (4096, (1 << 48) - 1) } else { (16, (1 << 24) - 1) };
    let tables = move |entries: &[(i128, i128)]| table_of(is_wide, entries);
    let after = bits(
        "an entry of 32 bits starts at or after the end of the one before",
        "an entry of 64 bits starts at or after the end of the one before",
    );
    let within = bits("an entry of 32 bits ends within L", "an entry of 64 bits ends within L");
    vec![
        rule(BAD_AMBIGUITY_TABLE, after)
            .passes("at the end", move |plan: &mut Plan| set_range(plan, tables(&[(0, 2), (2, 1)])))
            .breaks("one before", move |plan| set_range(plan, tables(&[(0, 2), (1, 1)])))
            .breaks("at the same start", move |plan| set_range(plan, tables(&[(1, 1), (1, 1)]))),
        rule(BAD_AMBIGUITY_TABLE, within)
            .passes("the last residue", move |plan: &mut Plan| {
                set_range(plan, tables(&[(plan.lengths[chosen(plan)] as i128 - 1, 1)]))
            })
            .passes("the most repeats over as many", move |plan| {
                over(plan, most, tables(&[(0, most as i128)]))
            })
            .breaks("one past the last residue", move |plan| {
                set_range(plan, tables(&[(plan.lengths[chosen(plan)] as i128, 1)]))
            })
            .breaks("two at the last residue", move |plan| {
                set_range(plan, tables(&[(plan.lengths[chosen(plan)] as i128 - 1, 2)]))
            })
            .breaks("the most repeats over one less", move |plan| {
                over(plan, most - 1, tables(&[(0, most as i128)]))
            })
            .breaks("the last offset", move |plan| set_range(plan, tables(&[(last_start, 1)])))
            .breaks("the last offset and the most repeats", move |plan| {
                set_range(plan, tables(&[(last_start, most as i128)]))
            }),
    ]
}
