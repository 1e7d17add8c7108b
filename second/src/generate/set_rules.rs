//! The rules of a set in the order of the check's refusals.

use super::metadata_rules;
use super::rng::Rng;
use super::rules::{rule, Rule};
use super::sets::{magic, Plan};
use crate::answers::*;
use crate::dsqdata::{MAGIC, TURNED_MAGIC};
use crate::fields::ByteOrder;
use crate::packets::{five_bit_packet, Packet, NO_RESIDUE};
use crate::residues::Alphabet;

/// All rules of a set in an alphabet.
pub fn rules(alphabet: Alphabet) -> Vec<Rule<Plan>> {
    let mut rules = before_runs();
    rules.extend(runs(alphabet));
    rules.extend(codes(alphabet));
    rules.extend(behind_runs());
    rules
}

/// Files, header and ends.
pub fn before_runs() -> Vec<Rule<Plan>> {
    let mut rules = files();
    rules.extend(header());
    rules.extend(sizes());
    rules.push(bodies_without_sequences());
    rules.extend(ends(
        [
            "the first metadata end is above -1",
            "metadata ends rise",
            "the last metadata end is the body's last place",
        ],
        BAD_METADATA,
        |plan| &mut plan.metadata_ends,
    ));
    rules.extend(ends(
        [
            "the first packet end is above -1",
            "packet ends rise",
            "the last packet end is the body's last place",
        ],
        BAD_RUN,
        |plan| &mut plan.packet_ends,
    ));
    rules
}

/// Metadata records and totals.
pub fn behind_runs() -> Vec<Rule<Plan>> {
    let mut rules = metadata_rules::rules();
    rules.extend(totals());
    rules
}

/// A set without sequences, of the same tag and byte order.
fn without_sequences(plan: &mut Plan) {
    *plan = Plan::new(plan.alphabet, &[], vec![], plan.tags[0], plan.byte_orders[0]);
}

/// Each file by itself: its length, then its magic.
fn files() -> Vec<Rule<Plan>> {
    vec![
        rule(ENDS_TOO_EARLY, "the index has 52 bytes")
            .passes("52 bytes, no sequences", without_sequences)
            .breaks("51 bytes", |plan| plan.index_length = Some(51))
            .farther(|plan, rng| plan.index_length = Some(rng.below(52))),
        index_magic(),
        rule(ENDS_TOO_EARLY, "the metadata file has 8 bytes")
            .leads_to(BAD_OFFSETS, "8 bytes", |plan: &mut Plan| plan.metadata_length = Some(8))
            .breaks("7 bytes", |plan| plan.metadata_length = Some(7))
            .farther(|plan, rng| plan.metadata_length = Some(rng.below(8))),
        later_magic("the magic of the metadata file is the one of the index", 1),
        rule(ENDS_TOO_EARLY, "the sequence file has 8 bytes")
            .leads_to(BAD_OFFSETS, "8 bytes", |plan: &mut Plan| plan.sequence_length = Some(8))
            .breaks("7 bytes", |plan| plan.sequence_length = Some(7))
            .farther(|plan, rng| plan.sequence_length = Some(rng.below(8))),
        later_magic("the magic of the sequence file is the one of the index", 2),
    ]
}

/// The index sets the byte order.
fn index_magic() -> Rule<Plan> {
    let mut rule =
        no_magic(rule(WRONG_MAGIC, "the magic of the index, read little-endian, is c4d3d1b1 or b1d1d3c4"), 0);
    for byte_order in ByteOrder::BOTH {
        rule = rule.passes(hex(magic(byte_order)), move |plan| plan.write_in([byte_order; 3]));
    }
    rule
}

/// A later file has the index's byte order, and so has its magic.
fn later_magic(name: &'static str, file: usize) -> Rule<Plan> {
    let mut rule = no_magic(rule(WRONG_MAGIC, name), file);
    for byte_order in ByteOrder::BOTH {
        let [own, other] = [byte_order, byte_order.other()].map(magic).map(hex);
        rule = rule.passes(format!("{own} in each"), move |plan| plan.write_in([byte_order; 3])).breaks(
            format!("{other} behind {own}"),
            move |plan| {
                plan.magics[..file].fill(magic(byte_order));
                plan.magics[file] = magic(byte_order.other());
            },
        );
    }
    rule
}

/// A magic as the documents write it.
fn hex(magic: i128) -> String {
    format!("{magic:x}")
}

/// Numbers that are neither magic, put into a file.
fn no_magic(rule: Rule<Plan>, file: usize) -> Rule<Plan> {
    let near = |magic: i128| [magic - 1, magic + 1, magic ^ 0x0100_0000];
    let numbers = [MAGIC, TURNED_MAGIC].into_iter().flat_map(near);
    let rule = rule.farther(move |plan, rng| plan.magics[file] = other_magic(rng));
    numbers.fold(rule, |rule, number| {
        rule.breaks(hex(number), move |plan: &mut Plan| plan.magics[file] = number)
    })
}

/// Either magic with one byte changed.
fn other_magic(rng: &mut Rng) -> i128 {
    let change = rng.between(1, 255) as i128;
    *rng.pick(&[MAGIC, TURNED_MAGIC]) ^ (change << (8 * rng.below(4)))
}

/// Tags, alphabet, flags and count.
fn header() -> Vec<Rule<Plan>> {
    vec![
        rule(TAGS_DIFFER, "the three tags are one")
            .passes("0 in each", |plan: &mut Plan| plan.tags = [0; 3])
            .passes("ffffffff in each", |plan| plan.tags = [0xFFFF_FFFF; 3])
            .breaks("the index has another", |plan| plan.tags[0] ^= 1)
            .breaks("the metadata file has another", |plan| plan.tags[1] ^= 0x8000_0000)
            .breaks("the sequence file has another", |plan| plan.tags[2] ^= 0x0100)
            .farther(|plan, rng| plan.tags[rng.below(3)] ^= 1 << rng.below(32)),
        rule(WRONG_TYPE, "the alphabet is 1, 2 or 3")
            .passes("1", |plan: &mut Plan| {
                without_sequences(plan);
                plan.alphabet = 1;
            })
            .passes("3", |plan| {
                without_sequences(plan);
                plan.alphabet = 3;
            })
            .breaks("0", |plan| plan.alphabet = 0)
            .breaks("4", |plan| plan.alphabet = 4)
            .farther(|plan, rng| plan.alphabet = *rng.pick(&[5, 258, 0xFFFF_FFFF])),
        rule(OUT_OF_RANGE, "the flags are 0")
            .passes("0", |_: &mut Plan| {})
            .breaks("1", |plan| plan.flags = 1)
            .breaks("80000000", |plan| plan.flags = 0x8000_0000)
            .farther(|plan, rng| plan.flags = 1 << rng.below(32)),
        rule(OUT_OF_RANGE, "the count is at most 134,217,728")
            .leads_to(ENDS_TOO_EARLY, "134,217,728", |plan: &mut Plan| plan.count = 134_217_728)
            .breaks("134,217,729", |plan| plan.count = 134_217_729)
            .breaks("2^63", |plan| plan.count = 1 << 63)
            .farther(|plan, rng| plan.count = *rng.pick(&[1 << 32, 1 << 60, (1 << 64) - 1])),
    ]
}

/// The lengths of index and sequence body.
fn sizes() -> Vec<Rule<Plan>> {
    vec![
        rule(ENDS_TOO_EARLY, "the index has every end")
            .passes("every byte", |_: &mut Plan| {})
            .breaks("one byte less", |plan| {
                plan.index_length = Some(51 + 16 * plan.metadata_ends.len());
            })
            .breaks("one more stated", |plan| plan.count = plan.metadata_ends.len() as i128 + 1)
            .farther(|plan, _| plan.index_length = Some(52 + 8 * plan.metadata_ends.len() - 1))
            .shuts("an index that is short has nothing left over"),
        rule(LEFT_OVER, "nothing follows the ends")
            .passes("no byte", |_: &mut Plan| {})
            .breaks("one byte", |plan| plan.behind = vec![0])
            .breaks("two ends", |plan| plan.behind = vec![0; 16])
            .farther(|plan, rng| {
                let length = rng.between(1, 40);
                plan.behind = rng.bytes(length);
            }),
        rule(ENDS_TOO_EARLY, "the sequence body is whole packets")
            .passes("no byte more", |_: &mut Plan| {})
            .breaks("1 byte more", |plan| plan.odd = vec![0])
            .breaks("3 bytes more", |plan| plan.odd = vec![0; 3])
            .farther(|plan, _| plan.odd = vec![0; 2]),
    ]
}

fn bodies_without_sequences() -> Rule<Plan> {
    rule(BAD_OFFSETS, "without sequences both bodies are empty")
        .passes("no byte", without_sequences)
        .breaks("a byte of metadata", |plan| {
            without_sequences(plan);
            plan.metadata.push(0);
        })
        .breaks("a packet", |plan| {
            without_sequences(plan);
            plan.packets.push(u32::MAX);
        })
        .shuts("a set without sequences has no run")
}

/// The rules of a column of ends. Of two ends that are one apart the part between is too short, which is the given
/// number.
fn ends(names: [&'static str; 3], short: u32, column: fn(&mut Plan) -> &mut Vec<i128>) -> Vec<Rule<Plan>> {
    let last = move |plan: &mut Plan, by: i128| *column(plan).last_mut().expect("an end") += by;
    vec![
        rule(BAD_OFFSETS, names[0])
            .leads_to(short, "0", move |plan: &mut Plan| column(plan)[0] = 0)
            .breaks("-1", move |plan| column(plan)[0] = -1)
            .breaks("-2^63", move |plan| column(plan)[0] = -(1 << 63)),
        rule(BAD_OFFSETS, names[1])
            .leads_to(short, "one above", move |plan: &mut Plan| column(plan)[1] = column(plan)[0] + 1)
            .breaks("the same", move |plan| column(plan)[1] = column(plan)[0])
            .breaks("one below", move |plan| column(plan)[2] = column(plan)[1] - 1),
        rule(BAD_OFFSETS, names[2])
            .passes("the last place", |_: &mut Plan| {})
            .breaks("one more", move |plan| last(plan, 1))
            .breaks("one less", move |plan| last(plan, -1))
            .breaks("2^62 more", move |plan| last(plan, 1 << 62)),
    ]
}

/// The first packet of the first run and of the last; every run has two (see `set_cases::to_damage`).
fn firsts(plan: &Plan) -> [usize; 2] {
    [0, plan.packets.len() - 2]
}

/// A rule of runs, broken in the first run or in the last.
fn in_runs(name: &'static str, change: fn(&mut Plan, usize)) -> Rule<Plan> {
    rule(BAD_RUN, name)
        .passes("in every run", |_: &mut Plan| {})
        .breaks("not in the first run", move |plan| change(plan, firsts(plan)[0]))
        .breaks("not in the last run", move |plan| change(plan, firsts(plan)[1]))
}

fn runs(alphabet: Alphabet) -> Vec<Rule<Plan>> {
    let mut rules = vec![
        in_runs("a packet without residues is the whole run", |plan, at| plan.packets[at + 1] = u32::MAX),
        in_runs("bit 31 is set in the last packet", |plan, at| plan.packets[at + 1] &= 0x7FFF_FFFF),
        in_runs("bit 31 is clear in every other packet", |plan, at| plan.packets[at] |= 0x8000_0000),
        in_runs("31 stands in the last packet only", |plan, at| {
            plan.packets[at] = five_bit_packet(&[1; 5]).number();
        }),
    ];
    if alphabet == Alphabet::Amino {
        rules.push(in_runs("bit 30 is set in every packet of an amino run", |plan, at| {
            plan.packets[at] = 0x0555_5555;
        }));
    }
    rules
}

/// What is asked of codes, at the end of the last run and of the first.
fn codes(alphabet: Alphabet) -> Vec<Rule<Plan>> {
    let first_bad = alphabet.letters().len() as u8;
    let ending =
        |fields: [u8; 6]| Packet { ends_run: true, five_bit: true, fields: fields.to_vec() }.number();
    let [a, none] = [1, NO_RESIDUE];
    vec![
        rule(BAD_RUN, "each code is valid")
            .passes(format!("{}", first_bad - 1), move |plan: &mut Plan| {
                let at = firsts(plan)[1];
                plan.set_packet(at + 1, ending([first_bad - 1, a, a, a, a, a]));
            })
            .breaks(format!("{first_bad}"), move |plan| {
                let at = firsts(plan)[1];
                plan.packets[at + 1] = ending([first_bad, a, a, a, a, a]);
            })
            .breaks("30", move |plan| plan.packets[1] = ending([a, a, a, a, a, 30]))
            .farther(|plan, rng| {
                let at = firsts(plan)[rng.below(2)];
                plan.packets[at] = five_bit_packet(&[0, 0, 0, *rng.pick(&[28, 29, 30]), 0, 0]).number();
            }),
        rule(BAD_RUN, "31 stands as a tail only")
            .passes("in all fields but the first", move |plan: &mut Plan| {
                let at = firsts(plan)[1];
                plan.set_packet(at + 1, ending([a, none, none, none, none, none]));
            })
            .breaks("before the last field", move |plan| {
                let at = firsts(plan)[1];
                plan.packets[at + 1] = ending([a, a, a, a, none, a]);
            })
            .breaks("in the first field", move |plan| plan.packets[1] = ending([none, a, a, a, a, a])),
    ]
}

/// Residues, and the longest name, accession, description and sequence.
fn totals() -> Vec<Rule<Plan>> {
    let longest = |name: &'static str, k: usize| {
        rule(WRONG_TOTALS, name)
            .passes("as it is", |_: &mut Plan| {})
            .breaks("one more", move |plan| plan.longest[k] += 1)
            .breaks("one less", move |plan| plan.longest[k] -= 1)
            .breaks("256 more", move |plan| plan.longest[k] += 256)
    };
    vec![
        rule(WRONG_TOTALS, "the residues are the sum of lengths")
            .passes("the sum", |_: &mut Plan| {})
            .passes("0, no sequences", without_sequences)
            .breaks("one more", |plan| plan.residues += 1)
            .breaks("one less", |plan| plan.residues -= 1)
            .breaks("2^32 more", |plan| plan.residues += 1 << 32),
        longest("the longest name", 0),
        longest("the longest accession", 1),
        longest("the longest description", 2),
        longest("the longest sequence", 3),
    ]
}
