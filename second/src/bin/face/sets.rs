//! The set check through the timing library: its cases with guards around every range, and files that are too large.

use crate::large::files;
use crate::lent::Lent;
use crate::timing::refused_line;
use second::answers::NO_ROOM;
use second::call::{Call, SET_CHECK};
use second::dsqdata::{check_set, MAGIC};
use second::fields::{little_unsigned, ByteOrder};
use second::outcome::Outcome;

#[link(name = "timing", kind = "static")]
extern "C" {
    fn gull_time_check_set(
        index: *const u8,
        index_len: usize,
        metadata: *const u8,
        metadata_len: usize,
        sequence: *const u8,
        sequence_len: usize,
        results: *mut u8,
        results_len: usize,
    ) -> u32;
}

/// The set check. Every range is lent for the call alone, and none shares a byte with another.
fn check([index, metadata, sequence]: [&[u8]; 3], results: &mut [u8]) -> u32 {
    unsafe {
        gull_time_check_set(
            index.as_ptr(),
            index.len(),
            metadata.as_ptr(),
            metadata.len(),
            sequence.as_ptr(),
            sequence.len(),
            results.as_mut_ptr(),
            results.len(),
        )
    }
}

/// Ten header fields and the byte order, eight bytes each.
const RESULTS: usize = 88;

/// What the results are filled with.
const FILL: u8 = 0xA5;

/// The ranges of one case as they are lent.
struct Ranges {
    files: [Lent<u8>; 3],
    results: Lent<u8>,
}

impl Ranges {
    fn new(call: &Call, results: usize, shift: usize) -> Ranges {
        Ranges {
            files: [0, 1, 2].map(|k| Lent::new(call.range(k), shift + k)),
            results: Lent::new(&vec![FILL; results], shift + 5),
        }
    }

    fn check(&mut self) -> u32 {
        let [index, metadata, sequence] = &self.files;
        check([index.inside(), metadata.inside(), sequence.inside()], self.results.inside_mut())
    }

    /// Whether nothing but the results was touched.
    fn is_guarded(&self) -> bool {
        let are_files_as_lent = self.files.iter().all(|file| file.is_as_lent() && file.is_guarded());
        are_files_as_lent && self.results.is_guarded()
    }
}

/// The line of a case: the number and the results; and what was touched that may not be.
pub fn set_line(call: &Call, shift: usize) -> String {
    let mut lent = Ranges::new(call, RESULTS + shift % 9, shift);
    let number = lent.check();
    let written = if number == 0 { RESULTS } else { 0 };
    let (results, behind) = lent.results.inside().split_at(written);
    let mut fields = vec![number.to_string()];
    fields.extend(results.chunks(8).map(|eight| little_unsigned(eight).to_string()));
    if behind.iter().any(|byte| *byte != FILL) {
        fields.push("and results that are not there were written".to_string());
    }
    if !lent.is_guarded() {
        fields.push("and something other than the results was changed".to_string());
    }
    if number == 0 && !has_no_room_in_short_results(call, shift) {
        fields.push("and not 13, with nothing written, where the results have no room".to_string());
    }
    fields.join(" ")
}

/// A good set with fewer than 88 bytes for the results is 13.
fn has_no_room_in_short_results(call: &Call, shift: usize) -> bool {
    let mut short = Ranges::new(call, shift % RESULTS, shift);
    short.check() == NO_ROOM && short.results.is_as_lent() && short.is_guarded()
}

/// Each file of a set, in both byte orders. Zeros have the wrong magic.
pub fn large(outcome: &mut Outcome, large: &[u8]) {
    for byte_order in ByteOrder::BOTH {
        let magic_and_tag = [byte_order.bytes(MAGIC, 4), vec![0; 4]].concat();
        let mut index = [&magic_and_tag[..], &byte_order.bytes(3, 4)].concat();
        index.resize(52, 0);
        let valid: [&[u8]; 3] = [&index, &magic_and_tag, &magic_and_tag];
        for (files, case) in files(SET_CHECK, &valid, &[14, 14, 14], large) {
            let expected = check_set(files[0], files[1], files[2]).err().unwrap_or(0);
            let mut results = [8u8; RESULTS];
            let found = check([files[0], files[1], files[2]], &mut results);
            outcome.count(&case, &refused_line(expected, &[]), refused_line(found, &results));
        }
    }
}
