//! The volume check: the index, then 7, 8 and 9 over the whole volume.

use crate::answers::*;
use crate::index::{read_index, Index, Part};

/// What passing returns. `kind` is the type: 0 for DNA, 1 for protein.
#[derive(Clone, Copy, Debug, PartialEq, Eq)]
pub struct VolumeRecord {
    pub kind: i128,
    pub sequences: i128,
    pub residue_count: i128,
    pub longest: i128,
    pub title: Part,
    pub timestamp: Part,
}

impl VolumeRecord {
    /// The values in their order.
    pub fn values(&self) -> Vec<i128> {
        vec![
            self.kind,
            self.sequences,
            self.residue_count,
            self.longest,
            self.title.start,
            self.title.length,
            self.timestamp.start,
            self.timestamp.length,
        ]
    }
}

/// 22, 1 to 6 for the index, then all of 7 before 8, and 8 before 9.
pub fn check_volume(index: &[u8], sequence: &[u8], header: &[u8]) -> Answer<VolumeRecord> {
    ask_sizes(&[index, sequence, header])?;
    let index = read_index(index)?;
    ask(header_offsets_hold(&index, header), BAD_OFFSETS)?;
    ask(sequence_offsets_hold(&index, sequence), BAD_OFFSETS)?;
    ask(!index.is_protein || separators_hold(&index, sequence), NO_SEPARATOR)?;
    let lengths = sequence_lengths(&index, sequence);
    ask(lengths.iter().sum::<i128>() == index.residue_count, WRONG_TOTALS)?;
    ask(lengths.iter().copied().max().unwrap_or(0) == index.longest, WRONG_TOTALS)?;
    Ok(VolumeRecord {
        kind: index.is_protein as i128,
        sequences: index.sequences,
        residue_count: index.residue_count,
        longest: index.longest,
        title: index.title,
        timestamp: index.timestamp,
    })
}

/// "headers: first 0, never falling, last equal to the header file's length".
fn header_offsets_hold(index: &Index, header: &[u8]) -> bool {
    let offsets = &index.header_offsets;
    let first = offsets[0] == 0;
    let never_falling = offsets.windows(2).all(|two| two[0] <= two[1]);
    let last = offsets[offsets.len() - 1] == header.len() as i128;
    first && never_falling && last
}

fn sequence_offsets_hold(index: &Index, sequence: &[u8]) -> bool {
    if index.is_protein {
        protein_offsets_hold(index, sequence)
    } else {
        dna_offsets_hold(index, sequence)
    }
}

/// "protein S: first 1, each at least one above the previous, last the file's length".
fn protein_offsets_hold(index: &Index, sequence: &[u8]) -> bool {
    let offsets = &index.sequence_offsets;
    let first = offsets[0] == 1;
    let rising = offsets.windows(2).all(|two| two[0] < two[1]);
    let last = offsets[offsets.len() - 1] == sequence.len() as i128;
    first && rising && last
}

/// "DNA: S[0] is 0; S[i] < A[i] <= S[i+1]; S[N] and A[N] equal the file's length".
fn dna_offsets_hold(index: &Index, sequence: &[u8]) -> bool {
    let s = &index.sequence_offsets;
    let a = &index.ambiguity_offsets;
    let n = index.sequences as usize;
    let first = s[0] == 0;
    let between = (0..n).all(|i| s[i] < a[i] && a[i] <= s[i + 1]);
    let last = s[n] == sequence.len() as i128 && a[n] == sequence.len() as i128;
    first && between && last
}

/// "byte 0 and the byte before each later offset are NUL".
fn separators_hold(index: &Index, sequence: &[u8]) -> bool {
    let later = &index.sequence_offsets[1..];
    sequence[0] == 0 && later.iter().all(|offset| sequence[*offset as usize - 1] == 0)
}

/// The length of every sequence, where the offsets hold.
pub fn sequence_lengths(index: &Index, sequence: &[u8]) -> Vec<i128> {
    (0..index.sequences as usize)
        .map(|i| {
            let start = index.sequence_offsets[i];
            if index.is_protein {
                // From S[i] up to, not including, S[i+1] - 1.
                index.sequence_offsets[i + 1] - 1 - start
            } else {
                dna_length(sequence, start, index.ambiguity_offsets[i])
            }
        })
        .collect()
}

/// "4 times (A[i]-S[i]-1) plus the low two bits of the last byte".
pub fn dna_length(sequence: &[u8], start: i128, end: i128) -> i128 {
    4 * (end - start - 1) + (sequence[end as usize - 1] % 4) as i128
}
