//! What the byte order asks of the set check: files that differ in it, other magics, tags, and integers that are left
//! unturned in a set that is turned.

use super::rng::Rng;
use super::runs::ALPHABETS;
use super::set_cases::{call_on, to_damage};
use super::sets::{magic, Plan};
use super::turned::{turned, Integer};
use super::Case;
use crate::answers::*;
use crate::call::Call;
use crate::fields::{little_bytes, little_unsigned, ByteOrder};

pub fn planned(rng: &mut Rng) -> Vec<Case> {
    let mut cases = mixed_files(rng);
    cases.extend(mixed_magics(rng));
    cases.extend(other_magics(rng));
    cases.extend(tags(rng));
    cases.extend(tags_of_mixed_files(rng));
    cases.extend(unturned(rng));
    cases
}

/// Every choice of a byte order, or of something else of two, for each of three files.
fn choices<T: Copy>(two: [T; 2]) -> Vec<[T; 3]> {
    (0..8).map(|k| [two[k & 1], two[k >> 1 & 1], two[k >> 2]]).collect()
}

/// The byte orders of three files that do not all have the same.
fn mixed() -> impl Iterator<Item = [ByteOrder; 3]> {
    choices(ByteOrder::BOTH).into_iter().filter(|orders| !is_one(*orders))
}

fn is_one<T: PartialEq>([index, metadata, sequence]: [T; 3]) -> bool {
    index == metadata && index == sequence
}

fn some_set(byte_order: ByteOrder, rng: &mut Rng) -> Plan {
    let n = rng.below(4);
    Plan::by_chance(n, byte_order, rng)
}

/// Each file in a byte order of its own, whole or cut.
fn mixed_files(rng: &mut Rng) -> Vec<Case> {
    let mut cases = Vec::new();
    let cuts = choices([false, true]);
    for (orders, cut) in
        choices(ByteOrder::BOTH).into_iter().flat_map(|orders| cuts.iter().map(move |cut| (orders, *cut)))
    {
        for is_by_one in [true, false] {
            let mut plan = some_set(ByteOrder::Little, rng);
            plan.write_in(orders);
            let mut cut_below = |is_cut: bool, least: usize| {
                is_cut.then(|| if is_by_one { least - 1 } else { rng.below(least) })
            };
            plan.index_length = cut_below(cut[0], 52);
            plan.metadata_length = cut_below(cut[1], 8);
            plan.sequence_length = cut_below(cut[2], 8);
            let note = format!("files {orders:?}, cut {cut:?}");
            cases.push(Case::aimed(call_on(plan.files()), first_fault(orders, cut), note));
        }
    }
    cases
}

/// File by file: its length, then its magic.
fn first_fault(orders: [ByteOrder; 3], cut: [bool; 3]) -> u32 {
    for file in 0..3 {
        if cut[file] {
            return ENDS_TOO_EARLY;
        }
        if orders[file] != orders[0] {
            return WRONG_MAGIC;
        }
    }
    0
}

/// Magics of other byte orders than the files they stand in: where all three have the other one, all else is wrong.
fn mixed_magics(rng: &mut Rng) -> Vec<Case> {
    let mut cases = Vec::new();
    for (byte_order, orders) in ByteOrder::BOTH
        .into_iter()
        .flat_map(|one| choices(ByteOrder::BOTH).into_iter().map(move |orders| (one, orders)))
    {
        let mut plan = some_set(byte_order, rng);
        plan.magics = orders.map(magic);
        let aim = match is_one(orders) {
            true if orders[0] == byte_order => 0,
            // The alphabet is the first field that does not read as it did; the tags are alike in each order.
            true => WRONG_TYPE,
            false => WRONG_MAGIC,
        };
        cases.push(Case::aimed(call_on(plan.files()), aim, format!("{byte_order:?}, magics {orders:?}")));
    }
    cases
}

/// Every file of a set with a magic that is not its own: the four bytes in every other order, each byte changed, none.
fn other_magics(rng: &mut Rng) -> Vec<Case> {
    let mut cases = Vec::new();
    for (file, byte_order) in (0..3).flat_map(|file| ByteOrder::BOTH.map(|byte_order| (file, byte_order))) {
        let own = magic(byte_order);
        let bytes = little_bytes(own, 4);
        let mut others: Vec<i128> = arrangements(&bytes).iter().map(|four| little_unsigned(four)).collect();
        for place in 0..4 {
            others.extend([0x01, 0x10, 0x80, 0xFF].map(|change| own ^ (change << (8 * place))));
        }
        others.extend([0, 0xFFFF_FFFF]);
        for other in others.into_iter().filter(|other| *other != own) {
            let mut plan = some_set(byte_order, rng);
            plan.magics[file] = other;
            let note = format!("{byte_order:?}, {other:x} in file {file}");
            cases.push(Case::aimed(call_on(plan.files()), WRONG_MAGIC, note));
        }
    }
    cases
}

/// Bytes in every order.
fn arrangements(bytes: &[u8]) -> Vec<Vec<u8>> {
    if bytes.is_empty() {
        return vec![vec![]];
    }
    let mut all = Vec::new();
    for k in 0..bytes.len() {
        let others = [&bytes[..k], &bytes[k + 1..]].concat();
        all.extend(arrangements(&others).into_iter().map(|rest| [vec![bytes[k]], rest].concat()));
    }
    all
}

/// Tags, none of which is the same when it is turned.
const TAGS: [i128; 4] = [1, 0x8000_0000, 0x0102_0304, 0xFF00_0000];

/// A tag of four bytes, turned.
fn turned_tag(tag: i128) -> i128 {
    little_unsigned(&ByteOrder::Big.bytes(tag, 4))
}

/// Tags that are one only where some are turned and the others not.
fn tags(rng: &mut Rng) -> Vec<Case> {
    let mut cases = Vec::new();
    for (byte_order, tag) in ByteOrder::BOTH.into_iter().flat_map(|one| TAGS.map(|tag| (one, tag))) {
        for tags in choices([tag, turned_tag(tag)]) {
            let mut plan = some_set(byte_order, rng);
            plan.tags = tags;
            let aim = if is_one(tags) { 0 } else { TAGS_DIFFER };
            cases.push(Case::aimed(call_on(plan.files()), aim, format!("{byte_order:?}, tags {tags:x?}")));
        }
    }
    cases
}

/// Files that differ in byte order, with tags of one number, and with tags of the same bytes.
fn tags_of_mixed_files(rng: &mut Rng) -> Vec<Case> {
    let mut cases = Vec::new();
    for (orders, tag) in mixed().flat_map(|orders| TAGS.map(|tag| (orders, tag))) {
        let same_bytes = orders.map(|one| if one == ByteOrder::Little { tag } else { turned_tag(tag) });
        for tags in [[tag; 3], same_bytes] {
            let mut plan = some_set(ByteOrder::Little, rng);
            plan.write_in(orders);
            plan.tags = tags;
            let note = format!("files {orders:?}, tags {tags:x?}");
            cases.push(Case::aimed(call_on(plan.files()), WRONG_MAGIC, note));
        }
    }
    cases
}

/// The integers that can be left unturned alone, with their names.
pub const LEFT: [(&str, fn(Integer) -> bool); 20] = [
    ("the magic of the index", |integer| integer == Integer::Magic(0)),
    ("the magic of the metadata file", |integer| integer == Integer::Magic(1)),
    ("the magic of the sequence file", |integer| integer == Integer::Magic(2)),
    ("every magic", |integer| matches!(integer, Integer::Magic(_))),
    ("the tag of the index", |integer| integer == Integer::Tag(0)),
    ("the tag of the metadata file", |integer| integer == Integer::Tag(1)),
    ("the tag of the sequence file", |integer| integer == Integer::Tag(2)),
    ("the alphabet", |integer| integer == Integer::Field(2)),
    ("the flags", |integer| integer == Integer::Field(3)),
    ("the longest name", |integer| integer == Integer::Field(4)),
    ("the longest accession", |integer| integer == Integer::Field(5)),
    ("the longest description", |integer| integer == Integer::Field(6)),
    ("the longest sequence", |integer| integer == Integer::Field(7)),
    ("the count", |integer| integer == Integer::Field(8)),
    ("the residues", |integer| integer == Integer::Field(9)),
    ("the metadata ends", |integer| integer == Integer::MetadataEnd),
    ("the packet ends", |integer| integer == Integer::PacketEnd),
    ("all ends", |integer| matches!(integer, Integer::MetadataEnd | Integer::PacketEnd)),
    ("the packets", |integer| integer == Integer::Packet),
    ("the taxonomy ids", |integer| integer == Integer::TaxonomyId),
];

/// How a case says that integers are left unturned.
pub fn left_unturned(name: &str) -> String {
    format!("{name} left unturned")
}

/// Turned sets in which one kind of integer is left as it was. Where that shows, our own reading says how.
fn unturned(rng: &mut Rng) -> Vec<Case> {
    let mut cases = Vec::new();
    for ((name, is_left), byte_order) in LEFT.iter().flat_map(|left| ByteOrder::BOTH.map(|one| (left, one))) {
        for (alphabet, _) in [ALPHABETS, ALPHABETS].concat() {
            let plan = to_damage(alphabet, byte_order, rng);
            let call: Call = call_on(turned(&plan.files(), byte_order, is_left));
            cases.push(Case::free(call, left_unturned(name)));
        }
    }
    cases
}
