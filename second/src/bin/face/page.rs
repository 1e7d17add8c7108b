//! The page through the timing library: its cases with guards around every range, and ranges that are too large.

use crate::large::case;
use crate::lent::Lent;
use second::call::{Call, PAGE};
use second::generate::large::{first, last, no_numbers, pair, ranges, MOST};
use second::generate::Case;
use second::outcome::Outcome;
use second::page::fetch_page;
use second::stream::{hex, number_hex};

#[link(name = "timing", kind = "static")]
extern "C" {
    fn gull_time_fetch_page(
        index: *const u8,
        index_len: usize,
        sequence: *const u8,
        sequence_len: usize,
        numbers: *const u64,
        numbers_len: usize,
        out: *mut u8,
        out_len: usize,
        ends: *mut u64,
        ends_len: usize,
        results: *mut u8,
        results_len: usize,
    ) -> u32;
}

/// What a page may write: the output, the ends, and the results with how many items were done.
struct Writable<'a> {
    output: &'a mut [u8],
    ends: &'a mut [u64],
    results: &'a mut [u8],
}

/// The page. Every range is lent for the call alone, and none shares a byte with another.
fn fetch(index: &[u8], sequence: &[u8], numbers: &[u64], to: Writable) -> u32 {
    unsafe {
        gull_time_fetch_page(
            index.as_ptr(),
            index.len(),
            sequence.as_ptr(),
            sequence.len(),
            numbers.as_ptr(),
            numbers.len(),
            to.output.as_mut_ptr(),
            to.output.len(),
            to.ends.as_mut_ptr(),
            to.ends.len(),
            to.results.as_mut_ptr(),
            to.results.len(),
        )
    }
}

/// The ranges of one case as they are lent.
struct Ranges {
    files: [Lent<u8>; 2],
    numbers: Lent<u64>,
    output: Lent<u8>,
    ends: Lent<u64>,
    results: Lent<u8>,
}

impl Ranges {
    fn new(call: &Call, results: usize, shift: usize) -> Ranges {
        Ranges {
            files: [0, 1].map(|k| Lent::new(call.range(k), shift + k)),
            numbers: Lent::new(call.numbers(2), shift),
            output: Lent::new(&call.output(3), shift + 3),
            ends: Lent::new(&call.number_output(4), shift + 4),
            results: Lent::new(&vec![0xA5; results], shift + 5),
        }
    }

    fn fetch(&mut self) -> u32 {
        let to = Writable {
            output: self.output.inside_mut(),
            ends: self.ends.inside_mut(),
            results: self.results.inside_mut(),
        };
        fetch(self.files[0].inside(), self.files[1].inside(), self.numbers.inside(), to)
    }

    /// Whether the inputs are as they were lent.
    fn has_its_inputs(&self) -> bool {
        self.files.iter().all(Lent::is_as_lent) && self.numbers.is_as_lent()
    }

    fn is_guarded(&self) -> bool {
        let [index, sequence] = &self.files;
        let bytes = [index, sequence, &self.output, &self.results];
        bytes.iter().all(|range| range.is_guarded()) && self.numbers.is_guarded() && self.ends.is_guarded()
    }
}

/// How many items were done: the first eight bytes of the results.
fn done(results: &[u8]) -> u64 {
    results.iter().take(8).rev().fold(0, |number, byte| (number << 8) + *byte as u64)
}

/// The line of a case: the number, how many were done, the output and the ends; and what was touched that may not be.
pub fn page_line(call: &Call, shift: usize) -> String {
    let mut lent = Ranges::new(call, 8 + shift % 9, shift);
    let number = lent.fetch();
    let (results, behind) = lent.results.inside().split_at(8);
    let mut fields = vec![number.to_string(), done(results).to_string()];
    fields.extend([hex(lent.output.inside()), number_hex(lent.ends.inside())]);
    if behind.iter().any(|byte| *byte != 0xA5) {
        fields.push("and results behind the count were changed".to_string());
    }
    if !lent.has_its_inputs() {
        fields.push("and an input was changed".to_string());
    }
    if !lent.is_guarded() {
        fields.push("and something outside the lent ranges was changed".to_string());
    }
    if !is_same_with_short_results(call, shift, number, &lent) {
        fields.push("and another outcome where the results have no room for the count".to_string());
    }
    fields.join(" ")
}

/// Where the results have fewer than eight bytes nothing is written there, and all else is the same.
fn is_same_with_short_results(call: &Call, shift: usize, number: u32, whole: &Ranges) -> bool {
    let mut short = Ranges::new(call, shift % 8, shift);
    let is_same_number = short.fetch() == number;
    let is_same_output = short.output.inside() == whole.output.inside();
    let is_same_ends = short.ends.inside() == whole.ends.inside();
    let is_untouched = short.results.is_as_lent() && short.has_its_inputs() && short.is_guarded();
    is_same_number && is_same_output && is_same_ends && is_untouched
}

/// One protein sequence of two residues and no other. In a file of zeros these are two gaps.
const ONE_SEQUENCE: [&[u8]; 2] = [
    &[
        0, 0, 0, 4, 0, 0, 0, 1, 0, 0, 0, 0, 0, 0, 0, 0, 0, 0, 0, 1, 2, 0, 0, 0, 0, 0, 0, 0, 0, 0, 0, 2, 0, 0,
        0, 0, 0, 0, 0, 0, 0, 0, 0, 1, 0, 0, 0, 4,
    ],
    &[0, 12, 10, 0],
];

/// Each file at 22's limit and past it; past it also with too few ends, which are asked next, and with an empty list.
pub fn large(outcome: &mut Outcome, large: &[u8]) {
    let zeros = [2, 0];
    for (k, range) in ranges(PAGE).iter().enumerate() {
        let cases = [
            (MOST, vec![0, 0], 2, case(PAGE, zeros[k], last(range))),
            (MOST + 1, vec![0, 0], 2, case(PAGE, 22, first(range))),
            (MOST + 1, vec![0, 0], 1, case(PAGE, 22, pair(range))),
            (MOST + 1, vec![], 0, case(PAGE, 22, no_numbers(range))),
            (MOST, vec![0, 0], 1, Case::aimed(Call::new(PAGE, vec![]), 13, "too few ends at the limit")),
            (MOST, vec![], 0, Case::aimed(Call::new(PAGE, vec![]), 0, "an empty list at the limit")),
        ];
        for (length, numbers, ends, case) in cases {
            let mut files = ONE_SEQUENCE;
            files[k] = &large[..length];
            outcome.count(&case, &our_line(files, &numbers, ends), their_line(files, &numbers, ends));
        }
    }
}

/// The line of a page into nine bytes and so many ends, by our own reading.
fn our_line([index, sequence]: [&[u8]; 2], numbers: &[u64], ends: usize) -> String {
    let (mut output, mut ends) = ([7; 9], vec![6; ends]);
    let page = fetch_page(index, sequence, numbers, &mut output, &mut ends);
    let number = page.answer.err().unwrap_or(0);
    format!("{number} {} {} {}", page.done, hex(&output), number_hex(&ends))
}

/// The same line by the timing library.
fn their_line([index, sequence]: [&[u8]; 2], numbers: &[u64], ends: usize) -> String {
    let (mut output, mut ends, mut results) = ([7; 9], vec![6; ends], [5; 8]);
    let to = Writable { output: &mut output, ends: &mut ends, results: &mut results };
    let number = fetch(index, sequence, numbers, to);
    format!("{number} {} {} {}", done(&results), hex(&output), number_hex(&ends))
}
