//! Sets made on the other byte order (request 2026-07): a set written out by hand in both orders, files that differ in it,
//! lookups by the record's order, and the function that turns a set.

mod common;

use common::bytes;
use second::answers::*;
use second::call::{Argument::*, Call, LOOKUP, SET_CHECK};
use second::fields::ByteOrder;
use second::generate::byte_order_cases::{left_unturned, LEFT};
use second::generate::cases;
use second::generate::rng::Rng;
use second::generate::sets::Plan;
use second::generate::turned::{wholly_turned, Files};
use second::line::{line_of, number_of};

/// Amino MK, named n, with taxonomy id 9606.
fn little() -> Files {
    let fours = "B1D1D3C4 78563412 03000000 00000000 01000000 00000000 00000000";
    let eights = "0200000000000000 0100000000000000 0200000000000000";
    let ends = "0700000000000000 0000000000000000";
    [
        bytes(&format!("{fours} {eights} {ends}")),
        bytes("B1D1D3C4 78563412 6E 00 00 00 86250000"),
        bytes("B1D1D3C4 78563412 FFFF8FD4"),
    ]
}

/// The same set as a big-endian machine writes it.
fn big() -> Files {
    let fours = "C4D3D1B1 12345678 00000003 00000000 00000001 00000000 00000000";
    let eights = "0000000000000002 0000000000000001 0000000000000002";
    let ends = "0000000000000007 0000000000000000";
    [
        bytes(&format!("{fours} {eights} {ends}")),
        bytes("C4D3D1B1 12345678 6E 00 00 00 00002586"),
        bytes("C4D3D1B1 12345678 D48FFFFF"),
    ]
}

fn check(files: Files) -> String {
    line_of(&Call::new(SET_CHECK, files.into_iter().map(Range).collect()))
}

#[test]
fn the_record_is_turned_and_carries_its_order() {
    assert_eq!(check(little()), "0 3302216113 305419896 3 0 1 0 0 2 1 2 0");
    assert_eq!(check(big()), "0 3302216113 305419896 3 0 1 0 0 2 1 2 1");
}

#[test]
fn the_hand_written_sets_are_each_other_turned() {
    assert_eq!(wholly_turned(&little(), ByteOrder::Little), big());
    assert_eq!(wholly_turned(&big(), ByteOrder::Big), little());
}

#[test]
fn a_later_file_of_the_other_order_is_14_at_its_magic() {
    for [one, other] in [[little(), big()], [big(), little()]] {
        let [index, metadata, sequence] = one;
        assert_eq!(check([other[0].clone(), metadata.clone(), sequence.clone()]), "14");
        assert_eq!(check([index.clone(), other[1].clone(), sequence.clone()]), "14");
        assert_eq!(check([index.clone(), metadata.clone(), other[2].clone()]), "14");
        // Lengths come file by file: the metadata's magic before the sequence file's length, its length before that.
        assert_eq!(check([index.clone(), other[1].clone(), vec![]]), "14");
        assert_eq!(check([index.clone(), other[1][..7].to_vec(), sequence.clone()]), "1");
        assert_eq!(check([index.clone(), metadata.clone(), other[2][..7].to_vec()]), "1");
        assert_eq!(check([other[0][..51].to_vec(), metadata, sequence]), "1");
    }
}

#[test]
fn any_other_magic_is_14() {
    for file in 0..3 {
        for magic in ["C4D3D1B0", "C4D1D3B1", "D3C4B1D1", "B1D3D1C4", "B1D1D3C5", "00000000"] {
            for mut files in [little(), big()] {
                files[file][..4].copy_from_slice(&bytes(magic));
                assert_eq!(check(files), "14", "{magic} in file {file}");
            }
        }
    }
}

/// The first number of a set's index, asked of a record with this order number.
fn look_up(index: Vec<u8>, order_number: u64) -> String {
    let mut arguments: Vec<_> = [0, 0, 0, 0, 0, 0, 0, 0, 1, 0, order_number].map(Number).to_vec();
    arguments.extend([Range(index), Number(0)]);
    line_of(&Call::new(LOOKUP, arguments))
}

#[test]
fn a_lookup_reads_in_the_records_order_whatever_the_magic_is() {
    let [little, ..] = little();
    let [big, ..] = big();
    let with_other_magic = |index: &[u8], other: &[u8]| [&other[..4], &index[4..]].concat();
    for index in [little.clone(), with_other_magic(&little, &big)] {
        assert_eq!(look_up(index.clone(), 0), "0 0 8 0 1");
        assert_eq!(look_up(index, 1), "7");
    }
    for index in [big.clone(), with_other_magic(&big, &little)] {
        for order_number in [1, 2, 255, 1 << 63, u64::MAX] {
            assert_eq!(look_up(index.clone(), order_number), "0 0 8 0 1", "{order_number}");
        }
        assert_eq!(look_up(index, 0), "7");
    }
}

#[test]
fn turning_twice_gives_the_set_back() {
    for set in common::samples().sets {
        let turned = wholly_turned(&set.files, ByteOrder::Little);
        assert_ne!(turned, set.files, "{}", set.name);
        assert_eq!(wholly_turned(&turned, ByteOrder::Big), set.files, "{}", set.name);
    }
}

#[test]
fn real_sets_turned_have_their_answers_with_order_1() {
    for set in common::samples().sets {
        let [line, turned] = ByteOrder::BOTH.map(|byte_order| check(set.files_in(byte_order)));
        match line.strip_suffix(" 0") {
            Some(record) => assert_eq!(turned, format!("{record} 1"), "{}", set.name),
            None => assert_eq!(turned, line, "{}", set.name),
        }
    }
}

/// Plans write integers by their value, the turning function reverses bytes at their places.
#[test]
fn a_plan_in_the_other_order_is_the_set_turned() {
    let mut rng = Rng::new(7);
    for n in 0..40 {
        let mut plan = Plan::by_chance(n % 5, ByteOrder::Little, &mut rng);
        let turned = wholly_turned(&plan.files(), ByteOrder::Little);
        plan.write_in([ByteOrder::Big; 3]);
        assert_eq!(plan.files(), turned);
        assert_eq!(number_of(&check(turned)), Some(0));
    }
}

/// What an integer left unturned alone is found by. Flags are 0 in either order.
const FOUND: [(&str, u32); 19] = [
    ("the magic of the index", WRONG_MAGIC),
    ("the magic of the metadata file", WRONG_MAGIC),
    ("the magic of the sequence file", WRONG_MAGIC),
    ("every magic", WRONG_TYPE),
    ("the tag of the index", TAGS_DIFFER),
    ("the tag of the metadata file", TAGS_DIFFER),
    ("the tag of the sequence file", TAGS_DIFFER),
    ("the alphabet", WRONG_TYPE),
    ("the longest name", WRONG_TOTALS),
    ("the longest accession", WRONG_TOTALS),
    ("the longest description", WRONG_TOTALS),
    ("the longest sequence", WRONG_TOTALS),
    ("the count", OUT_OF_RANGE),
    ("the residues", WRONG_TOTALS),
    ("the metadata ends", BAD_OFFSETS),
    ("the packet ends", BAD_OFFSETS),
    ("all ends", BAD_OFFSETS),
    ("the packets", BAD_RUN),
    ("the taxonomy ids", BAD_METADATA),
];

#[test]
fn every_integer_left_unturned_shows_in_a_case() {
    let samples = common::samples();
    for (name, _) in LEFT {
        let wanted = FOUND.iter().find(|(other, _)| *other == name).map(|(_, number)| *number);
        for seed in 1..4 {
            let lines = cases(SET_CHECK, seed, 0, &samples)
                .filter(|case| case.note == left_unturned(name))
                .map(|case| line_of(&case.call));
            let mut numbers: Vec<u32> = lines.filter_map(|line| number_of(&line)).collect();
            assert_eq!(numbers.len(), 8, "{name}");
            numbers.retain(|number| *number != 0);
            assert_eq!(numbers.first().copied(), wanted, "{name}, seed {seed}");
            assert!(numbers.iter().all(|number| Some(*number) == wanted), "{name}, seed {seed}");
        }
    }
}
