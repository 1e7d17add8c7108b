//! Two-bit bytes and ambiguity tables by chance.

use super::rng::Rng;
use crate::fields::big_bytes;

/// One entry of an ambiguity table: value, how many residues, and where they start.
#[derive(Clone, Copy, Debug)]
pub struct Entry {
    pub value: i128,
    pub repeat: i128,
    pub start: i128,
}

/// Two-bit bytes of this many residues; bits that nobody may read are by chance too.
pub fn two_bit(residues: usize, rng: &mut Rng) -> Vec<u8> {
    let mut bytes = rng.bytes(residues / 4 + 1);
    let last = bytes.len() - 1;
    bytes[last] = bytes[last] / 4 * 4 + (residues % 4) as u8;
    bytes
}

/// A table of entries, with 32 or 64 bits for each.
pub fn table(is_wide: bool, entries: &[Entry]) -> Vec<u8> {
    let words = entries.len() as i128 * if is_wide { 2 } else { 1 };
    let mut bytes = big_bytes(words + if is_wide { 1 << 31 } else { 0 }, 4);
    for entry in entries {
        let (repeat_bits, offset_bits, width) = if is_wide { (12, 48, 8) } else { (4, 24, 4) };
        let high = (entry.value << repeat_bits) + entry.repeat - 1;
        bytes.extend(big_bytes((high << offset_bits) + entry.start, width));
    }
    bytes
}

/// Entries that follow each other within a length, touching or with gaps, up to the very end.
pub fn entries(is_wide: bool, residues: usize, rng: &mut Rng) -> Vec<Entry> {
    let longest = if is_wide { 4096 } else { 16 };
    let mut entries = Vec::new();
    let mut at = 0;
    while entries.len() < 40 {
        at += if rng.chance(40) { 0 } else { rng.below(9) };
        if at >= residues {
            break;
        }
        let most = longest.min(residues - at);
        let repeat = if rng.chance(20) { most } else { rng.between(1, most.min(20)) };
        entries.push(Entry { value: rng.below(16) as i128, repeat: repeat as i128, start: at as i128 });
        at += repeat;
    }
    entries
}

/// A good ambiguity range: none, a word that says no entries, or a table.
pub fn ambiguity_range(residues: usize, rng: &mut Rng) -> Vec<u8> {
    let is_wide = rng.chance(50);
    match rng.below(10) {
        0..=3 => vec![],
        4 => table(is_wide, &[]),
        _ => table(is_wide, &entries(is_wide, residues, rng)),
    }
}

/// Two-bit bytes of this many residues, all A.
pub fn all_a(residues: usize) -> Vec<u8> {
    let mut bytes = vec![0; residues / 4 + 1];
    *bytes.last_mut().expect("a last byte") = (residues % 4) as u8;
    bytes
}
