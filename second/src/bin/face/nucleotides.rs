//! Writing nucleotides through the timing library: its cases with guards around every range. What is too large for the
//! protocol stands in `long`.

use crate::lent::Lent;
use second::call::Call;
use second::fields::little_unsigned;
use second::stream::hex;

#[link(name = "timing", kind = "static")]
extern "C" {
    fn gull_time_write_nucleotides(
        codes: *const u8,
        codes_len: usize,
        out: *mut u8,
        out_len: usize,
        results: *mut u8,
        results_len: usize,
    ) -> u32;
}

/// Writing. Every range is lent for the call alone, and none shares a byte with another.
pub fn write(codes: &[u8], output: &mut [u8], results: &mut [u8]) -> u32 {
    let (to, to_len) = (output.as_mut_ptr(), output.len());
    unsafe {
        gull_time_write_nucleotides(
            codes.as_ptr(),
            codes.len(),
            to,
            to_len,
            results.as_mut_ptr(),
            results.len(),
        )
    }
}

/// What the results are filled with.
const FILL: u8 = 0xA5;

/// The ranges of one call as they are lent.
pub struct Ranges {
    codes: Lent<u8>,
    pub output: Lent<u8>,
    results: Lent<u8>,
}

impl Ranges {
    pub fn new(codes: &[u8], output: &[u8], results: usize, shift: usize) -> Ranges {
        Ranges {
            codes: Lent::new(codes, shift),
            output: Lent::new(output, shift + 3),
            results: Lent::new(&vec![FILL; results], shift + 5),
        }
    }

    pub fn write(&mut self) -> u32 {
        write(self.codes.inside(), self.output.inside_mut(), self.results.inside_mut())
    }

    /// The bytes of the results that hold sizes: none on a refusal, else eight for each of the two that fits.
    fn held(&self, number: u32) -> &[u8] {
        let results = self.results.inside();
        let sizes = if number == 0 { (results.len() / 8).min(2) } else { 0 };
        &results[..8 * sizes]
    }

    /// The number, and the sizes that the results hold.
    pub fn answer(&self, number: u32) -> Vec<String> {
        let sizes = self.held(number).chunks(8).map(|eight| little_unsigned(eight).to_string());
        [number.to_string()].into_iter().chain(sizes).collect()
    }

    /// What was touched that may not be.
    pub fn faults(&self, number: u32) -> Vec<String> {
        let behind = &self.results.inside()[self.held(number).len()..];
        let mut faults = Vec::new();
        if behind.iter().any(|byte| *byte != FILL) {
            faults.push("and results other than the sizes were changed".to_string());
        }
        if !self.codes.is_as_lent() {
            faults.push("and an input was changed".to_string());
        }
        if ![&self.codes, &self.output, &self.results].iter().all(|range| range.is_guarded()) {
            faults.push("and a byte outside the lent ranges was changed".to_string());
        }
        faults
    }
}

/// The line of a case: the number, the sizes and the output; and what was touched that may not be.
pub fn write_line(call: &Call, shift: usize) -> String {
    let mut lent = Ranges::new(call.range(0), &call.output(1), 16 + shift % 9, shift);
    let number = lent.write();
    let mut fields = lent.answer(number);
    fields.push(hex(lent.output.inside()));
    fields.extend(lent.faults(number));
    if !is_same_with_short_results(call, shift, number, &lent) {
        fields.push("and another outcome where the results have no room for both sizes".to_string());
    }
    fields.join(" ")
}

/// Where the results have fewer than sixteen bytes they hold the first size alone, or nothing, and all else is the same.
fn is_same_with_short_results(call: &Call, shift: usize, number: u32, whole: &Ranges) -> bool {
    let mut short = Ranges::new(call.range(0), &call.output(1), shift % 16, shift);
    let is_same_number = short.write() == number;
    let is_same_output = short.output.inside() == whole.output.inside();
    let are_same_sizes = whole.held(number).starts_with(short.held(number));
    is_same_number && is_same_output && are_same_sizes && short.faults(number).is_empty()
}
