//! Decoding through the timing library: its number 22. Long sequences stand in `chromosomes`; of the set check, the page and
//! writing nucleotides that library takes every case: see `sets`, `page` and `nucleotides`.

use crate::large::{files, NO_SEQUENCES};
use second::call::DECODE;
use second::outcome::Outcome;
use second::sequence::decode;

#[link(name = "timing", kind = "static")]
extern "C" {
    fn gull_time_decode(
        index: *const u8,
        index_len: usize,
        sequence: *const u8,
        sequence_len: usize,
        number: u64,
        output: *mut u8,
        output_len: usize,
    ) -> u32;
}

/// The number of a refusal, and whether the bytes lent for writing are as they were.
pub fn refused_line(number: u32, lent: &[u8]) -> String {
    let touched =
        if lent.iter().all(|byte| *byte == 8) { "" } else { " and bytes lent for writing were changed" };
    format!("{number}{touched}")
}

/// Decoding. Every range is lent for the call alone, and none shares a byte with another.
pub fn time_decode(index: &[u8], sequence: &[u8], number: u64, output: &mut [u8]) -> u32 {
    unsafe {
        gull_time_decode(
            index.as_ptr(),
            index.len(),
            sequence.as_ptr(),
            sequence.len(),
            number,
            output.as_mut_ptr(),
            output.len(),
        )
    }
}

/// Each file of a volume. An index of zeros has version 0; a volume without sequences has none of the number 0.
pub fn decode_large(outcome: &mut Outcome, large: &[u8]) {
    for (files, case) in files(DECODE, &NO_SEQUENCES[..2], &[2, 10], large) {
        let expected = decode(files[0], files[1], 0, &mut []).err().unwrap_or(0);
        let mut output = [8u8; 4];
        let found = time_decode(files[0], files[1], 0, &mut output);
        outcome.count(&case, &refused_line(expected, &[]), refused_line(found, &output));
    }
}
