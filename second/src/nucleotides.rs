//! Nucleotide sequences written the old way (request 2026-03): two-bit bytes and, right behind, the ambiguity table; and
//! how many bases a code stands for.

use crate::answers::*;
use crate::fields::big_bytes;
use crate::residues::{ambiguity_value, Alphabet};

/// A sequence of more residues than this has 64-bit entries.
pub const MOST_NARROW: usize = 16_777_216;

/// "return both sizes", in bytes. The table's is 0 where there is none.
#[derive(Clone, Copy, Debug, PartialEq, Eq)]
pub struct WrittenSizes {
    pub two_bit: i128,
    pub table: i128,
}

/// 22, 18, 22 where more than 2,147,483,647 bytes are needed, 13. The rest of the output stays as it was.
pub fn write_nucleotides(codes: &[u8], output: &mut [u8]) -> Answer<WrittenSizes> {
    ask_sizes(&[codes])?;
    ask(codes.iter().all(|code| Alphabet::Nucleic.is_code(*code)), BAD_CODE)?;
    let sizes = sizes_of(codes);
    let needed = sizes.two_bit + sizes.table;
    ask(needed <= MOST_BYTES, TOO_LARGE)?;
    ask(needed <= output.len() as i128, NO_ROOM)?;
    let written = [two_bit_bytes(codes), table(codes)].concat();
    output[..needed as usize].copy_from_slice(&written);
    Ok(sizes)
}

/// "how many bases a code stands for, 0 for '-', or 18": the bits that are set in its ambiguity value.
pub fn bases_of_code(code: i128) -> Answer<i128> {
    ask((0..=15).contains(&code), BAD_CODE)?;
    Ok(ambiguity_value(code as u8).count_ones() as i128)
}

/// The sizes of both parts, without writing them.
fn sizes_of(codes: &[u8]) -> WrittenSizes {
    let entries = pieces(codes).count() as i128;
    let table = if entries == 0 { 0 } else { 4 + entries * Form::of(codes).bytes() as i128 };
    WrittenSizes { two_bit: codes.len() as i128 / 4 + 1, table }
}

/// Four residues to a byte, highest first. The last byte has those left over, and how many they are in its low two bits;
/// unused bits are zero.
fn two_bit_bytes(codes: &[u8]) -> Vec<u8> {
    let byte = |bases: &[u8]| (0..bases.len()).map(|k| bases[k] << (6 - 2 * k)).sum::<u8>();
    let bases: Vec<u8> = codes.iter().map(|code| first_base(*code)).collect();
    let fours = bases.chunks_exact(4);
    let left = fours.remainder();
    let last = byte(left) + left.len() as u8;
    fours.map(byte).chain([last]).collect()
}

/// "the first base its ambiguity value stands for by its lowest set bit, and A for '-'". A base stands for itself.
fn first_base(code: u8) -> u8 {
    let value = ambiguity_value(code);
    (0..4).find(|bit| value >> bit & 1 == 1).unwrap_or(0)
}

/// How wide entries are: the repeat has so many bits, and the offset.
#[derive(Clone, Copy, Debug, PartialEq, Eq)]
struct Form {
    repeat_bits: usize,
    offset_bits: usize,
}

impl Form {
    /// "These are used exactly when the sequence has more than 16,777,216 residues": 64 bits, and else 32.
    fn of(codes: &[u8]) -> Form {
        if codes.len() > MOST_NARROW {
            Form { repeat_bits: 12, offset_bits: 48 }
        } else {
            Form { repeat_bits: 4, offset_bits: 24 }
        }
    }

    fn is_wide(self) -> bool {
        self.bytes() == 8
    }

    /// The bytes of an entry, which has four bits for the value.
    fn bytes(self) -> usize {
        (4 + self.repeat_bits + self.offset_bits) / 8
    }

    /// The most residues of one entry: 16, or 4,096.
    fn most(self) -> usize {
        1 << self.repeat_bits
    }
}

/// So many residues of one code from a place on.
#[derive(Clone, Copy, Debug, PartialEq, Eq)]
struct Piece {
    code: u8,
    start: usize,
    length: usize,
}

/// "for each longest stretch of one such code, cut from the front into pieces". Every stretch is cut, so that each piece
/// knows its place, and then those of A, C, G and T are left out.
fn pieces(codes: &[u8]) -> impl Iterator<Item = Piece> + '_ {
    let most = Form::of(codes).most();
    let stretches = codes.chunk_by(|one, next| one == next);
    let cut = stretches.flat_map(move |stretch| stretch.chunks(most));
    let placed = cut.scan(0, |end, part| {
        let start = *end;
        *end += part.len();
        Some(Piece { code: part[0], start, length: part.len() })
    });
    placed.filter(|piece| piece.code >= 4)
}

/// "No such code, no table." Else a word, which counts words of 32 bits and has its top bit set for wide entries, and an
/// entry for each piece.
fn table(codes: &[u8]) -> Vec<u8> {
    let form = Form::of(codes);
    let entries: Vec<u8> = pieces(codes).flat_map(|piece| entry(form, piece)).collect();
    if entries.is_empty() {
        return vec![];
    }
    let top_bit = if form.is_wide() { 1 << 31 } else { 0 };
    [big_bytes(top_bit + entries.len() as i128 / 4, 4), entries].concat()
}

/// The value, the repeat less one, and the offset.
fn entry(form: Form, piece: Piece) -> Vec<u8> {
    let value = ambiguity_value(piece.code) as i128;
    let high = (value << form.repeat_bits) + piece.length as i128 - 1;
    big_bytes((high << form.offset_bits) + piece.start as i128, form.bytes())
}
