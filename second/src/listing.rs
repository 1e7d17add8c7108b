//! The listing: a volume's type and totals, then each number with its length, as text.

use crate::answers::*;
use crate::index::read_index;
use crate::volume::{check_volume, sequence_lengths};

/// The largest file that the listing reads.
const MOST_LISTED: i128 = 16_384;

/// The whole text of a volume's three files, every line with its line feed.
pub fn listing(index: &[u8], sequence: &[u8], header: &[u8]) -> String {
    match lines(index, sequence, header) {
        Ok(lines) => lines.concat(),
        Err(number) => format!("refused {number}\n"),
    }
}

fn lines(index: &[u8], sequence: &[u8], header: &[u8]) -> Answer<Vec<String>> {
    for file in [index, sequence, header] {
        ask(file.len() as i128 <= MOST_LISTED, TOO_LARGE)?;
    }
    let record = check_volume(index, sequence, header)?;
    let kind = if record.kind == 1 { "protein" } else { "dna" };
    let first = format!("{kind} {} {} {}\n", record.sequences, record.residue_count, record.longest);
    let mut lines = vec![first];
    let lengths = sequence_lengths(&read_index(index)?, sequence);
    lines.extend(lengths.iter().enumerate().map(|(i, length)| format!("{i} {length}\n")));
    Ok(lines)
}
