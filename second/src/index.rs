//! The index of a volume, read field by field into an owned value: 1 to 6.

use crate::answers::*;
use crate::fields::{big_signed, little_signed};

/// A part of a file: where it starts and how many bytes it has.
#[derive(Clone, Copy, Debug, PartialEq, Eq)]
pub struct Part {
    pub start: i128,
    pub length: i128,
}

/// Everything that an index states. `sequences` is N.
#[derive(Clone, Debug, PartialEq, Eq)]
pub struct Index {
    pub is_protein: bool,
    pub title: Part,
    pub timestamp: Part,
    pub sequences: i128,
    pub residue_count: i128,
    pub longest: i128,
    pub header_offsets: Vec<i128>,
    pub sequence_offsets: Vec<i128>,
    pub ambiguity_offsets: Vec<i128>,
}

/// Reads an index to its last byte. Each field: too short (1), then its value.
pub fn read_index(bytes: &[u8]) -> Answer<Index> {
    let mut fields = Fields { bytes, at: 0 };
    let version = fields.four()?;
    ask(version == 4, WRONG_VERSION)?;
    let kind = fields.four()?;
    ask(kind == 0 || kind == 1, WRONG_TYPE)?;
    let title = fields.text()?;
    let timestamp = fields.text()?;
    ask((timestamp.start + timestamp.length) % 4 == 0, MISALIGNED)?;
    let sequences = fields.four()?;
    ask((0..=MOST_SEQUENCES).contains(&sequences), OUT_OF_RANGE)?;
    let residue_count = little_signed(fields.take(8)?);
    ask(residue_count >= 0, OUT_OF_RANGE)?;
    let longest = fields.four()?;
    ask(longest >= 0, OUT_OF_RANGE)?;
    let header_offsets = fields.table(sequences + 1)?;
    let sequence_offsets = fields.table(sequences + 1)?;
    let ambiguity_offsets = if kind == 0 { fields.table(sequences + 1)? } else { vec![] };
    ask(fields.at == bytes.len(), LEFT_OVER)?;
    Ok(Index {
        is_protein: kind == 1,
        title,
        timestamp: without_trailing_nuls(bytes, timestamp),
        sequences,
        residue_count,
        longest,
        header_offsets,
        sequence_offsets,
        ambiguity_offsets,
    })
}

/// The index's bytes and how far they are read.
struct Fields<'a> {
    bytes: &'a [u8],
    at: usize,
}

impl<'a> Fields<'a> {
    /// The next bytes; 1 where the file ends before.
    fn take(&mut self, length: i128) -> Answer<&'a [u8]> {
        ask(self.at as i128 + length <= self.bytes.len() as i128, ENDS_TOO_EARLY)?;
        let start = self.at;
        self.at += length as usize;
        Ok(&self.bytes[start..self.at])
    }

    /// A four-byte field: big-endian and signed.
    fn four(&mut self) -> Answer<i128> {
        Ok(big_signed(self.take(4)?))
    }

    /// A length, which must not be negative (4), and that many bytes.
    fn text(&mut self) -> Answer<Part> {
        let length = self.four()?;
        ask(length >= 0, OUT_OF_RANGE)?;
        let start = self.at as i128;
        self.take(length)?;
        Ok(Part { start, length })
    }

    /// A table of offsets.
    fn table(&mut self, count: i128) -> Answer<Vec<i128>> {
        Ok(self.take(4 * count)?.chunks(4).map(big_signed).collect())
    }
}

/// The timestamp is "shown without trailing NULs".
fn without_trailing_nuls(bytes: &[u8], part: Part) -> Part {
    let shown = &bytes[part.start as usize..(part.start + part.length) as usize];
    let trailing = shown.iter().rev().take_while(|byte| **byte == 0).count();
    Part { start: part.start, length: part.length - trailing as i128 }
}
