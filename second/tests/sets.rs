//! Real sets with their right answers, in both byte orders, every run of theirs, and the lookup of each.

mod common;

use second::answers::*;
use second::call::{Argument, Call, LOOKUP};
use second::console::packets_of_bytes;
use second::dsqdata::{check_set, MAGIC};
use second::every_run::search;
use second::fields::ByteOrder;
use second::generate::samples::SampleSet;
use second::line::line_of;
use second::lookup::lookup;
use second::metadata::read_metadata;
use second::residues::Alphabet;
use second::runs::unpack;

/// Name, alphabet, count, residues, longest, longest name, accession and description, and the answer.
const SETS: [(&str, [i128; 7], u32); 7] = [
    ("nucd", [2, 23, 5796, 4298, 3, 0, 26], 0),
    ("prot", [3, 15, 1645, 1500, 3, 0, 11], 0),
    ("emptyp", [3, 3, 4, 2, 7, 0, 0], 0),
    ("uni", [3, 2, 15, 12, 10, 6, 27], 0),
    ("v_tax", [2, 27, 900, 46, 28, 0, 330], 0),
    ("v_nuc", [2, 0, 0, 0, 0, 0, 0], 19),
    ("star", [2, 0, 0, 0, 0, 0, 0], 17),
];

/// Every real set in every byte order.
fn real_sets() -> Vec<(SampleSet, ByteOrder)> {
    let in_both = |set: SampleSet| ByteOrder::BOTH.map(|byte_order| (set.clone(), byte_order));
    common::samples().sets.into_iter().flat_map(in_both).collect()
}

#[test]
fn real_sets_have_their_answers() {
    assert_eq!(real_sets().len(), 2 * SETS.len());
    for (set, byte_order) in real_sets() {
        let (name, row, base) = SETS.into_iter().find(|(name, ..)| set.name == *name).unwrap();
        let [index, metadata, sequence] = set.files_in(byte_order);
        let answer = check_set(&index, &metadata, &sequence);
        assert_eq!(answer.err().unwrap_or(0), base, "{name} {byte_order:?}");
        if let Ok(record) = answer {
            let [alphabet, count, residues, longest, of_name, of_accession, of_description] = row;
            let found = record.values();
            assert_eq!((found[0], found[2], found[3]), (MAGIC, alphabet, 0), "{name}");
            let lengths = [of_name, of_accession, of_description, longest];
            assert_eq!(
                found[4..],
                [&lengths[..], &[count, residues, byte_order.number()]].concat(),
                "{name}"
            );
        }
    }
}

#[test]
fn every_real_run_unpacks_to_its_line() {
    for (set, byte_order) in real_sets().into_iter().filter(|(set, _)| !set.lines.is_empty()) {
        let [index, metadata, sequence] = set.files_in(byte_order);
        let record = check_set(&index, &metadata, &sequence).unwrap();
        let alphabet = Alphabet::of_number(record.alphabet).unwrap();
        let packets = packets_of_bytes(&sequence[8..], record.byte_order);
        let look_up = |number: i128| lookup(record.count, record.byte_order, &index, number);
        assert_eq!(record.count, set.lines.len() as i128);
        for (number, line) in set.lines.iter().enumerate() {
            let found = look_up(number as i128).unwrap();
            let run = &packets[found.run.start as usize..(found.run.start + found.run.length) as usize];
            let mut output = vec![0; line.len()];
            assert_eq!(unpack(record.alphabet, run, &mut output).unwrap().residues, line.len() as i128);
            assert_eq!(alphabet.text_of(&output), *line, "{} {number}", set.name);
            // No run of these residues is shorter (request 2026-08): Easel packs by the same rule.
            assert_eq!(search(alphabet, &output).fewest, run.len(), "{} {number}", set.name);
            let start = 8 + found.metadata.start as usize;
            let bytes = &metadata[start..start + found.metadata.length as usize];
            assert!(read_metadata(bytes, byte_order).is_some());
        }
        assert_eq!(look_up(record.count), Err(NO_SUCH_NUMBER));
    }
}

#[test]
fn metadata_records_that_are_good_or_bad() {
    let good: [&[u8]; 6] = [
        b"n\0\0\0\xff\xff\xff\xff",
        b"n\0a\0d\0\x01\0\0\0",
        b"n\0\0\t\r d\0\xff\xff\xff\x7f",
        b"\x08\x0e\x1f\x21\x80\xff\0\0\0\x01\0\0\0",
        b"n\0\0\0\x00\x01\0\0",
        b"n\0\0\0\x00\0\0\x01",
    ];
    let bad: [&[u8]; 12] = [
        b"",
        b"\0\0\0\x01\0\0\0",
        b"n\0\0\0\0\0\0\0",
        b"n\0\0\0\xfe\xff\xff\xff",
        b"n\0\0\0\0\0\0\x80",
        b"n\0\0\0\x01\0\0",
        b"n\0\0\0\x01\0\0\0\0",
        b"n m\0\0\0\x01\0\0\0",
        b"n\0\x0b\0\0\x01\0\0\0",
        b"n\0\0d\n\0\x01\0\0\0",
        b"n\0a\0",
        b"name",
    ];
    assert!(good.iter().all(|bytes| read_metadata(bytes, ByteOrder::Little).is_some()));
    assert!(bad.iter().all(|bytes| read_metadata(bytes, ByteOrder::Little).is_none()));
}

#[test]
fn the_taxonomy_id_alone_has_a_byte_order() {
    // Little-endian, big-endian: 1 and 2^24; 128 and -2^31; -129 and 2^31 - 1; -1; 0.
    let ids: [(&[u8], bool, bool); 6] = [
        (b"ab\0c\0d e\0\x01\0\0\0", true, true),
        (b"ab\0c\0d e\0\x80\0\0\0", true, false),
        (b"ab\0c\0d e\0\x7f\xff\xff\xff", false, true),
        (b"ab\0c\0d e\0\xff\xff\xff\xff", true, true),
        (b"ab\0c\0d e\0\0\0\0\0", false, false),
        (b"ab\0c\0d e\0\xff\xff\xff\xfe", false, false),
    ];
    for (bytes, little, big) in ids {
        assert_eq!(read_metadata(bytes, ByteOrder::Little).is_some(), little, "{bytes:?}");
        assert_eq!(read_metadata(bytes, ByteOrder::Big).is_some(), big, "{bytes:?}");
    }
    let read = read_metadata(b"ab\0c\0d e\0\0\0\x25\x86", ByteOrder::Big).unwrap();
    assert_eq!(
        (&read.name[..], &read.accession[..], &read.description[..]),
        (&b"ab"[..], &b"c"[..], &b"d e"[..])
    );
    assert_eq!(read.taxonomy_id, 9606);
}

#[test]
fn an_end_of_minus_one_before_another_passes_the_lookup() {
    let mut index = vec![0; 52];
    for end in [-1i64, -1, 3, 2_147_483_646, 3, 2_147_483_647] {
        index.extend(end.to_le_bytes());
    }
    let look_up = |number: i128| lookup(3, ByteOrder::Little, &index, number);
    assert_eq!(look_up(1).unwrap().values(), [0, 4, 0, 2_147_483_647]);
    assert_eq!(look_up(0), Err(BAD_OFFSETS));
    assert_eq!(look_up(2), Err(BAD_OFFSETS));
    let mut arguments = vec![Argument::Number(9); 8];
    arguments.extend([Argument::Number(3), Argument::Number(9), Argument::Number(0)]);
    arguments.extend([Argument::Range(index), Argument::Number(1)]);
    assert_eq!(line_of(&Call::new(LOOKUP, arguments)), "0 0 4 0 2147483647");
}

#[test]
fn number_22_comes_first_and_at_its_limit() {
    let large = vec![0u8; 2_147_483_648];
    assert_eq!(check_set(&large, &[], &[]), Err(TOO_LARGE));
    assert_eq!(check_set(&[], &large, &[]), Err(TOO_LARGE));
    assert_eq!(check_set(&[], &[], &large), Err(TOO_LARGE));
    assert_eq!(check_set(&large[1..], &large[1..], &large[1..]), Err(WRONG_MAGIC));
    for byte_order in ByteOrder::BOTH {
        assert_eq!(lookup(134_217_729, byte_order, &large, 0), Err(TOO_LARGE));
        assert_eq!(lookup(134_217_729, byte_order, &large[1..], 0), Err(OUT_OF_RANGE));
        assert_eq!(lookup(134_217_728, byte_order, &large[1..], 0), Err(ENDS_TOO_EARLY));
    }
}
