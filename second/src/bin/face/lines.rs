//! One case through the library's C functions, as a line of CASES.md.

use crate::lent::Lent;
use crate::library;
use crate::nucleotides::write_line;
use crate::page::page_line;
use crate::sets::set_line;
use second::call::*;
use second::stream::hex;

/// The line that the library gives for a case; `shift` moves its ranges against the machine's words.
pub fn library_line(call: &Call, shift: usize) -> String {
    match call.byte {
        CONSOLE_PACK => pack_line(call, shift),
        CONSOLE_UNPACK => unpack_line(call, shift),
        CONSOLE_VOLUME_CHECK => volume_line(call, shift),
        SET_CHECK => set_line(call, shift),
        PAGE => page_line(call, shift),
        WRITE_NUCLEOTIDES => write_line(call, shift),
        other => panic!("no C function takes the cases of call {other}"),
    }
}

/// A number too large for its argument is handed on as that argument's largest.
fn alphabet(call: &Call) -> u32 {
    u32::try_from(call.number(0)).unwrap_or(u32::MAX)
}

fn pack_line(call: &Call, shift: usize) -> String {
    let codes = Lent::new(call.range(1), shift);
    let mut buffer = Lent::new(&call.output(2), shift + 3);
    let mut results = Lent::new(&call.output(4), shift + 5);
    let place = call.number(3) as u64;
    let number =
        library::pack(alphabet(call), codes.inside(), buffer.inside_mut(), place, results.inside_mut());
    line(number, &[&codes], &[&buffer, &results])
}

fn unpack_line(call: &Call, shift: usize) -> String {
    let packets = Lent::new(call.range(1), shift);
    let mut codes = Lent::new(&call.output(2), shift + 3);
    let mut results = Lent::new(&call.output(3), shift + 5);
    let number = library::unpack(alphabet(call), packets.inside(), codes.inside_mut(), results.inside_mut());
    line(number, &[&packets], &[&codes, &results])
}

fn volume_line(call: &Call, shift: usize) -> String {
    let files = [0, 1, 2].map(|k| Lent::new(call.range(k), shift + k));
    let mut results = Lent::new(&call.output(3), shift + 5);
    let number =
        library::check_volume(files[0].inside(), files[1].inside(), files[2].inside(), results.inside_mut());
    line(number, &[&files[0], &files[1], &files[2]], &[&results])
}

/// The answer number and the outputs; and what was touched that may not be.
fn line(number: u32, inputs: &[&Lent<u8>], outputs: &[&Lent<u8>]) -> String {
    let mut fields = vec![number.to_string()];
    fields.extend(outputs.iter().map(|output| hex(output.inside())));
    if inputs.iter().any(|input| !input.is_as_lent()) {
        fields.push("and an input was changed".to_string());
    }
    if inputs.iter().chain(outputs).any(|range| !range.is_guarded()) {
        fields.push("and a byte outside the lent ranges was changed".to_string());
    }
    fields.join(" ")
}
