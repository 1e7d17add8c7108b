//! Ranges around number 22's limit: untouched anonymous memory, which takes no room. And packing of sequences that the
//! protocol has no room for.

use crate::library;
use crate::lines::library_line;
use second::call::*;
use second::console::*;
use second::generate::large::{first, last, pair, ranges, MOST};
use second::generate::order::Shows;
use second::generate::rng::Rng;
use second::generate::room_cases::at_length;
use second::generate::Case;
use second::line::line_of;
use second::outcome::Outcome;
use second::stream::hex;

const PROT_READ: i32 = 1;
const PROT_WRITE: i32 = 2;
const MAP_PRIVATE: i32 = 0x02;
const MAP_ANONYMOUS: i32 = 0x20;
const MAP_NORESERVE: i32 = 0x4000;

extern "C" {
    fn mmap(address: *mut u8, length: usize, protection: i32, flags: i32, file: i32, offset: i64) -> *mut u8;
}

/// Memory of zeros that stays mapped until the program ends.
fn mapped(length: usize, protection: i32) -> Result<*mut u8, String> {
    let flags = MAP_PRIVATE | MAP_ANONYMOUS | MAP_NORESERVE;
    let address = unsafe { mmap(std::ptr::null_mut(), length, protection, flags, -1, 0) };
    if address as isize == -1 {
        return Err(format!("cannot map {length} bytes"));
    }
    Ok(address)
}

/// A range of zeros that can only be read, two bytes larger than an input may be.
pub fn too_large() -> Result<&'static [u8], String> {
    let address = mapped(MOST + 2, PROT_READ)?;
    Ok(unsafe { std::slice::from_raw_parts(address, MOST + 2) })
}

/// A buffer of zeros that can be written.
pub fn large_buffer(length: usize) -> Result<&'static mut [u8], String> {
    let address = mapped(length, PROT_READ | PROT_WRITE)?;
    Ok(unsafe { std::slice::from_raw_parts_mut(address, length) })
}

/// The number and the outputs as a line.
fn line(number: u32, outputs: &[&[u8]]) -> String {
    let fields: Vec<String> = outputs.iter().map(|output| hex(output)).collect();
    format!("{number} {}", fields.join(" "))
}

fn number(answer: Result<(), u32>) -> u32 {
    answer.err().unwrap_or(0)
}

/// A case that is not in the protocol: only what it shows.
pub fn case(byte: u8, aim: u32, shows: Shows) -> Case {
    Case::aimed(Call::new(byte, vec![]), aim, shows.to_string()).showing(shows)
}

/// Packing codes of the last length that passes 22, of the first that does not, and of that one in a wrong alphabet, at a
/// place far away, with results that are too short.
pub fn pack(outcome: &mut Outcome, large: &[u8]) -> Result<(), String> {
    let [range] = ranges(CONSOLE_PACK) else { return Err("one range".to_string()) };
    let cases = [
        (0, MOST, 0, 16, case(CONSOLE_PACK, 3, last(range))),
        (2, MOST + 1, 0, 16, case(CONSOLE_PACK, 22, first(range))),
        (0, MOST + 1, u64::MAX, 0, case(CONSOLE_PACK, 22, pair(range))),
    ];
    for (alphabet, length, place, results, case) in cases {
        let mut ours = ([7u8; 9], vec![8u8; results]);
        let mut theirs = ours.clone();
        let codes = &large[..length];
        let expected = number(console_pack(alphabet as i128, codes, &mut ours.0, place as i128, &mut ours.1));
        let found = library::pack(alphabet, codes, &mut theirs.0, place, &mut theirs.1);
        outcome.count(&case, &line(expected, &[&ours.0, &ours.1]), line(found, &[&theirs.0, &theirs.1]));
    }
    pack_long(outcome);
    pack_far(outcome)
}

/// Sequences longer than a range of the protocol, in exactly the room that they take and in one packet fewer, or one byte.
fn pack_long(outcome: &mut Outcome) {
    let mut rng = Rng::new(8);
    for length in [16_385, 65_542, 1_000_000, 1_000_005] {
        for (shift, case) in at_length(CONSOLE_PACK, length, &mut rng).iter().enumerate() {
            outcome.count(case, &line_of(&case.call), library_line(&case.call, shift));
        }
    }
}

/// A buffer is lent for output, so 22 does not speak of it: a packet far behind two gigabytes.
fn pack_far(outcome: &mut Outcome) -> Result<(), String> {
    let room = MOST + 12;
    let (ours, theirs) = (large_buffer(room)?, large_buffer(room)?);
    for place in [(MOST as u64 + 1) / 4 + 1, (MOST as u64 + 1) / 4 + 2] {
        let mut results = ([5u8; 16], [5u8; 16]);
        let expected = number(console_pack(3, &[1, 2, 3], ours, place as i128, &mut results.0));
        let found = library::pack(3, &[1, 2, 3], theirs, place, &mut results.1);
        // What stands around the place; everything else would take too long to look at.
        let near = MOST - 63..;
        let note = format!("a buffer of {room} bytes at {place}");
        let expected = line(expected, &[&ours[near.clone()], &results.0]);
        let case = Case::free(Call::new(CONSOLE_PACK, vec![]), note);
        outcome.count(&case, &expected, line(found, &[&theirs[near], &results.1]));
    }
    Ok(())
}

/// Unpacking so many bytes: 22, or 1 where they are no whole packets.
pub fn unpack(outcome: &mut Outcome, large: &[u8]) -> Result<(), String> {
    let [range] = ranges(CONSOLE_UNPACK) else { return Err("one range".to_string()) };
    let cases = [
        (2, MOST, 16, case(CONSOLE_UNPACK, 1, last(range))),
        (2, MOST + 1, 16, case(CONSOLE_UNPACK, 22, first(range))),
        (2, MOST + 2, 16, case(CONSOLE_UNPACK, 22, pair(range))),
        (0, MOST + 1, 3, case(CONSOLE_UNPACK, 22, pair(range))),
    ];
    for (alphabet, length, results, case) in cases {
        let mut ours = ([7u8; 9], vec![8u8; results]);
        let mut theirs = ours.clone();
        let packets = &large[..length];
        let expected = number(console_unpack(alphabet as i128, packets, &mut ours.0, &mut ours.1));
        let found = library::unpack(alphabet, packets, &mut theirs.0, &mut theirs.1);
        outcome.count(&case, &line(expected, &[&ours.0, &ours.1]), line(found, &[&theirs.0, &theirs.1]));
    }
    Ok(())
}

/// Files of which one is large, and what the case shows. `valid` are small files that pass; of a file of zeros that is
/// not too large the number `zeros` comes, and where the first file is empty, 1.
pub fn files<'a>(byte: u8, valid: &[&'a [u8]], zeros: &[u32], large: &'a [u8]) -> Vec<(Vec<&'a [u8]>, Case)> {
    let mut cases = Vec::new();
    for (k, range) in ranges(byte).iter().enumerate() {
        let with = |length: usize, others: &[&'a [u8]]| {
            let mut files = others.to_vec();
            files[k] = &large[..length];
            files
        };
        let none: Vec<&[u8]> = vec![&[]; valid.len()];
        cases.push((with(MOST, valid), case(byte, zeros[k], last(range))));
        cases.push((with(MOST + 1, valid), case(byte, 22, first(range))));
        cases.push((with(MOST + 1, &none), case(byte, 22, pair(range))));
    }
    cases
}

/// A protein volume without sequences: its index, its sequence file and its header file.
pub const NO_SEQUENCES: [&[u8]; 3] = [
    &[
        0, 0, 0, 4, 0, 0, 0, 1, 0, 0, 0, 0, 0, 0, 0, 0, 0, 0, 0, 0, 0, 0, 0, 0, 0, 0, 0, 0, 0, 0, 0, 0, 0, 0,
        0, 0, 0, 0, 0, 1,
    ],
    &[0],
    &[],
];

/// Each file of a volume. An index of zeros has version 0; a file of another length is 7.
pub fn check_volume(outcome: &mut Outcome, large: &[u8]) {
    for (files, case) in files(CONSOLE_VOLUME_CHECK, &NO_SEQUENCES, &[2, 7, 7], large) {
        let mut ours = [8u8; 64];
        let mut theirs = ours;
        let expected = number(console_check_volume(files[0], files[1], files[2], &mut ours));
        let found = library::check_volume(files[0], files[1], files[2], &mut theirs);
        outcome.count(&case, &line(expected, &[&ours]), line(found, &[&theirs]));
    }
}
