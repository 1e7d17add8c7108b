//! What number 22 asks to be shown, where a call can get ranges of two gigabytes: for each input range its limit, on both
//! sides, and 22 together with the number that is asked next. Writing nucleotides asks 22 once more, for the bytes that its
//! output needs.

use super::order::Shows;
use crate::call::*;

/// The most bytes that an input range may have.
pub const MOST: usize = 2_147_483_647;

/// The names of a call's input ranges.
pub fn ranges(byte: u8) -> &'static [&'static str] {
    match byte {
        SET_CHECK => &["index", "metadata file", "sequence file"],
        DECODE | PAGE => &["index", "sequence file"],
        CONSOLE_VOLUME_CHECK => &["index", "sequence file", "header file"],
        CONSOLE_PACK | WRITE_NUCLEOTIDES => &["codes"],
        CONSOLE_UNPACK => &["packets"],
        other => panic!("no call {other} takes ranges of that size"),
    }
}

pub fn last(range: &'static str) -> Shows {
    Shows::side("22", range, "2,147,483,647 bytes pass")
}

pub fn first(range: &'static str) -> Shows {
    Shows::side("22", range, "2,147,483,648 bytes do not")
}

pub fn pair(range: &'static str) -> Shows {
    Shows::pair("22", range, "the number asked next")
}

/// An empty list opens no file, and still its files may not be too large.
pub fn no_numbers(range: &'static str) -> Shows {
    Shows::side("22", range, "2,147,483,648 bytes do not, for an empty list")
}

/// The second 22 of writing nucleotides: its limit on both sides, 18 together with it, and it together with 13.
pub const NEEDED: [&str; 2] = ["the bytes needed", "the output has the bytes needed"];

pub fn needed_last() -> Shows {
    Shows::side("22", NEEDED[0], "2,147,483,647 bytes pass")
}

pub fn needed_first() -> Shows {
    Shows::side("22", NEEDED[0], "2,147,483,648 bytes do not")
}

pub fn code_and_needed() -> Shows {
    Shows::pair("22", "each code is at most 15", NEEDED[0])
}

pub fn needed_and_room() -> Shows {
    Shows::pair("22", NEEDED[0], NEEDED[1])
}

/// All that is to be shown of a call.
pub fn asked(byte: u8) -> Vec<Shows> {
    let of_range = |range: &&'static str| match byte {
        PAGE => vec![last(range), first(range), pair(range), no_numbers(range)],
        _ => vec![last(range), first(range), pair(range)],
    };
    let mut asked: Vec<Shows> = ranges(byte).iter().flat_map(of_range).collect();
    if byte == WRITE_NUCLEOTIDES {
        asked.extend([needed_last(), needed_first(), code_and_needed(), needed_and_room()]);
    }
    asked
}
