//! One sequence of a volume decoded to Easel codes.

use crate::answers::*;
use crate::fields::big_unsigned;
use crate::index::{read_index, Index};
use crate::residues::{ambiguity_code, protein_code, two_bit_code};
use crate::volume::dna_length;

/// 22, 1 to 6 for the index, 10, then 7, 8, 11, 12 for this sequence alone, and 13. L is returned; the first L
/// bytes of the output are the codes.
pub fn decode(index: &[u8], sequence: &[u8], number: i128, output: &mut [u8]) -> Answer<i128> {
    ask_sizes(&[index, sequence])?;
    let index = read_index(index)?;
    ask((0..index.sequences).contains(&number), NO_SUCH_NUMBER)?;
    let codes = if index.is_protein {
        protein_codes(&index, sequence, number as usize)?
    } else {
        dna_codes(&index, sequence, number as usize)?
    };
    ask(codes.len() <= output.len(), NO_ROOM)?;
    output[..codes.len()].copy_from_slice(&codes);
    Ok(codes.len() as i128)
}

/// "protein 1 <= S[i] < S[i+1] <= file length and NUL on both sides", then no byte above 27.
fn protein_codes(index: &Index, sequence: &[u8], i: usize) -> Answer<Vec<u8>> {
    let start = index.sequence_offsets[i];
    let next = index.sequence_offsets[i + 1];
    ask(1 <= start && start < next && next <= sequence.len() as i128, BAD_OFFSETS)?;
    let (start, end) = (start as usize, next as usize - 1);
    ask(sequence[start - 1] == 0 && sequence[end] == 0, NO_SEPARATOR)?;
    let codes: Option<Vec<u8>> = sequence[start..end].iter().map(|byte| protein_code(*byte)).collect();
    codes.ok_or(BAD_PROTEIN_BYTE)
}

/// "DNA 0 <= S[i] < A[i] <= S[i+1] <= file length", then the bases with their corrections.
fn dna_codes(index: &Index, sequence: &[u8], i: usize) -> Answer<Vec<u8>> {
    let start = index.sequence_offsets[i];
    let end = index.ambiguity_offsets[i];
    let next = index.sequence_offsets[i + 1];
    let length = sequence.len() as i128;
    ask(0 <= start && start < end && end <= next && next <= length, BAD_OFFSETS)?;
    let residues = dna_length(sequence, start, end);
    let mut codes = bases(&sequence[start as usize..end as usize], residues);
    for correction in corrections(&sequence[end as usize..next as usize], residues)? {
        for code in &mut codes[correction.start as usize..correction.end as usize] {
            *code = correction.code;
        }
    }
    Ok(codes)
}

/// The first residues of two-bit bytes, highest first in each.
fn bases(bytes: &[u8], residues: i128) -> Vec<u8> {
    let all = bytes.iter().flat_map(|byte| [byte >> 6, byte >> 4 & 3, byte >> 2 & 3, byte & 3]);
    all.take(residues as usize).map(two_bit_code).collect()
}

/// A correction: this code from a residue up to, not including, another.
#[derive(Clone, Copy, Debug, PartialEq, Eq)]
pub struct Correction {
    pub code: u8,
    pub start: i128,
    pub end: i128,
}

/// The corrections of an ambiguity range over a number of residues, or 12.
pub fn corrections(range: &[u8], residues: i128) -> Answer<Vec<Correction>> {
    if range.is_empty() {
        return Ok(vec![]);
    }
    ask(range.len() >= 4, BAD_AMBIGUITY_TABLE)?;
    let (first, entries) = range.split_at(4);
    let word = big_unsigned(first);
    let is_wide = word >> 31 == 1;
    let words = word & 0x7FFF_FFFF;
    ask(entries.len() as i128 == 4 * words, BAD_AMBIGUITY_TABLE)?;
    ask(!is_wide || words % 2 == 0, BAD_AMBIGUITY_TABLE)?;
    let width = if is_wide { 8 } else { 4 };
    let list: Vec<Correction> = entries.chunks(width).map(correction).collect();
    let mut before = 0;
    for entry in &list {
        ask(entry.start >= before && entry.end <= residues, BAD_AMBIGUITY_TABLE)?;
        before = entry.end;
    }
    Ok(list)
}

/// An entry of 4 bits value, then 4 bits repeat less one and 24 bits offset, or 12 and 48 bits.
fn correction(entry: &[u8]) -> Correction {
    let number = big_unsigned(entry);
    let (repeat_bits, offset_bits) = if entry.len() == 8 { (12, 48) } else { (4, 24) };
    let value = number >> (repeat_bits + offset_bits);
    let repeat = (number >> offset_bits) % (1 << repeat_bits) + 1;
    let start = number % (1 << offset_bits);
    Correction { code: ambiguity_code(value as u8), start, end: start + repeat }
}
