//! Real volumes with their right answers, document 01's cases of one sequence, and the listing's example.

mod common;

use common::bytes;
use second::answers::*;
use second::fields::{big_bytes, big_signed, little_bytes};
use second::generate::samples::SampleVolume;
use second::index::Part;
use second::listing::listing;
use second::records::{label, label_bytes};
use second::residues::Alphabet;
use second::sequence::decode;
use second::volume::check_volume;

/// Name, N, count, longest and the answer of SAMPLES.md.
const VOLUMES: [(&str, i128, i128, i128, u32); 11] = [
    ("mb_prot", 15, 1648, 1500, 0),
    ("mb_protidt", 18, 333, 27, 0),
    ("mb_nuc", 23, 5796, 4298, 7),
    ("mb_nucidt", 27, 900, 46, 7),
    ("mb_short", 108, 540, 9, 7),
    ("fd_nuc", 23, 5796, 4298, 7),
    ("fd_titles", 6, 54, 9, 7),
    ("re_nuc0", 23, 5796, 4298, 0),
    ("re_nuc04", 23, 5796, 4298, 0),
    ("fd_v3", 0, 0, 0, 2),
    ("mb_v5", 0, 0, 0, 2),
];

#[test]
fn real_volumes_have_their_answers() {
    let samples = common::samples();
    assert_eq!(samples.volumes.len(), VOLUMES.len());
    for (name, n, count, longest, number) in VOLUMES {
        let volume = samples.volumes.iter().find(|volume| volume.name == name).unwrap();
        let answer = check_volume(&volume.index, &volume.sequence, &volume.header);
        assert_eq!(answer.err().unwrap_or(0), number, "{name}");
        if let Ok(record) = answer {
            let kind = (volume.alphabet == Alphabet::Amino) as i128;
            assert_eq!(record.values()[..4], [kind, n, count, longest], "{name}");
        }
    }
}

#[test]
fn every_real_sequence_decodes_to_its_line() {
    // Volumes with a lead byte too; an index of another version, which has no sequences here, is refused as well.
    for volume in common::samples().volumes {
        for (number, line) in volume.lines.iter().enumerate() {
            let mut output = vec![77; line.len() + 1];
            let answer = decode(&volume.index, &volume.sequence, number as i128, &mut output);
            assert_eq!(answer, Ok(line.len() as i128), "{} {number}", volume.name);
            assert_eq!(volume.alphabet.text_of(&output[..line.len()]), *line, "{} {number}", volume.name);
            assert_eq!(output[line.len()], 77);
        }
        let mut output = [];
        let beyond = decode(&volume.index, &volume.sequence, volume.lines.len() as i128, &mut output);
        assert_eq!(beyond, Err(if volume.lines.is_empty() { WRONG_VERSION } else { NO_SUCH_NUMBER }));
    }
}

#[test]
fn the_timestamp_is_shown_without_its_nuls_and_the_title_as_stated() {
    let volume = common::samples().volumes.into_iter().find(|volume| volume.name == "mb_prot").unwrap();
    let record = check_volume(&volume.index, &volume.sequence, &volume.header).unwrap();
    assert_eq!(record.title, Part { start: 12, length: 16 });
    assert_eq!(record.timestamp, Part { start: 32, length: 21 });
}

/// An index with this many NULs more behind its timestamp.
fn padded(index: &[u8], more: usize) -> Vec<u8> {
    let number = |at: usize| big_signed(&index[at..at + 4]);
    let field = 12 + number(8) as usize;
    let behind = field + 4 + number(field) as usize;
    let length = big_bytes(number(field) + more as i128, 4);
    [&index[..field], &length, &index[field + 4..behind], &vec![0; more], &index[behind..]].concat()
}

/// What every call that reads an index answers of a volume under this index: the check, each sequence and each label.
fn readings(index: &[u8], volume: &SampleVolume) -> Vec<Answer<Vec<u8>>> {
    let check = check_volume(index, &volume.sequence, &volume.header);
    let mut readings = vec![check.map(|record| format!("{record:?}").into_bytes())];
    for number in 0..volume.lines.len() as i128 {
        let mut output = vec![77; 5000];
        readings.push(decode(index, &volume.sequence, number, &mut output).map(|_| output));
        let found = label(index, &volume.header, number);
        readings.push(found.map(|_| label_bytes(index, &volume.header, found).to_vec()));
    }
    readings
}

#[test]
fn a_timestamp_ends_at_any_multiple_of_four() {
    for volume in common::samples().volumes.iter().filter(|volume| !volume.lines.is_empty()) {
        let list = |index: &[u8]| listing(index, &volume.sequence, &volume.header);
        for more in 1..=8 {
            let index = padded(&volume.index, more);
            let read = readings(&index, volume);
            if more % 4 == 0 {
                assert_eq!(read, readings(&volume.index, volume), "{} {more}", volume.name);
                assert_eq!(list(&index), list(&volume.index), "{} {more}", volume.name);
            } else {
                assert!(read.iter().all(|one| *one == Err(MISALIGNED)), "{} {more}", volume.name);
                assert_eq!(list(&index), "refused 5\n", "{} {more}", volume.name);
            }
        }
    }
}

/// A small index: no title, no timestamp (16 is a multiple of 4), and its tables.
fn index(kind: i128, count: i128, longest: i128, tables: &[&[i128]]) -> Vec<u8> {
    let mut index: Vec<u8> = [4, kind, 0, 0].iter().flat_map(|field| big_bytes(*field, 4)).collect();
    index.extend(big_bytes(tables[0].len() as i128 - 1, 4));
    index.extend(little_bytes(count, 8));
    index.extend(big_bytes(longest, 4));
    index.extend(tables.concat().iter().flat_map(|offset| big_bytes(*offset, 4)));
    index
}

#[test]
fn the_listings_example() {
    let index = index(1, 2, 2, &[&[0, 0, 0], &[1, 4, 5]]);
    let text = listing(&index, &bytes("000C0A0000"), &[]);
    assert_eq!(text, "protein 2 2 2\n0 2\n1 0\n");
    assert_eq!(listing(&index, &bytes("000C0A0001"), &[]), "refused 8\n");
    assert_eq!(listing(&index, &bytes("000C0A0000"), &[0]), "refused 7\n");
    assert_eq!(listing(&index, &bytes("00"), &[0; 16_384]), "refused 7\n");
    assert_eq!(listing(&[], &[], &[0; 16_385]), "refused 22\n");
}

/// Decodes DNA of these two-bit bytes and this ambiguity range.
fn dna(two_bit: &str, table: &str) -> Result<String, u32> {
    let (two_bit, table) = (bytes(two_bit), bytes(table));
    let end = two_bit.len() as i128;
    let length = end + table.len() as i128;
    let index = index(0, 0, 0, &[&[0, 0], &[0, length], &[end, length]]);
    let mut output = [0; 40];
    let residues = decode(&index, &[two_bit, table].concat(), 0, &mut output)?;
    Ok(Alphabet::Nucleic.text_of(&output[..residues as usize]))
}

#[test]
fn the_table_for_the_desk() {
    assert_eq!(dna("1B", ""), Ok("ACG".to_string()));
    assert_eq!(dna("1B00", ""), Ok("ACGT".to_string()));
    assert_eq!(dna("00", ""), Ok(String::new()));
    assert_eq!(dna("1B00", "00000001 F0000001"), Ok("ANGT".to_string()));
    assert_eq!(dna("1B00", "80000002 F0000000 00000001"), Ok("ANGT".to_string()));
    // Run only: sixteen N's over 15 bases.
    assert_eq!(dna("00000003", "00000001 FF000000"), Err(BAD_AMBIGUITY_TABLE));
    assert_eq!(dna("0000000000", "00000001 FF000000"), Ok("N".repeat(16)));
}

/// Request 2026-04: the four codes of a byte, highest first.
#[test]
fn every_whole_byte_has_four_bases() {
    for byte in 0..256 {
        let letters: String =
            [64, 16, 4, 1].map(|place| ['A', 'C', 'G', 'T'][byte / place % 4]).iter().collect();
        assert_eq!(dna(&format!("{byte:02X} 00"), ""), Ok(letters), "{byte}");
    }
}

#[test]
fn ambiguity_ranges_that_are_good_or_bad() {
    assert_eq!(dna("1B00", "00000000"), Ok("ACGT".to_string()));
    assert_eq!(dna("1B00", "80000000"), Ok("ACGT".to_string()));
    assert_eq!(dna("1B00", "00000002 10000003 20000003"), Err(BAD_AMBIGUITY_TABLE));
    assert_eq!(dna("1B00", "00000002 11000000 00000003"), Ok("AAG-".to_string()));
    assert_eq!(dna("1B00", "80000001 F0000000"), Err(BAD_AMBIGUITY_TABLE));
    for table in ["00", "0000", "000000", "0000000000", "00000001", "00000000 F0000000"] {
        assert_eq!(dna("1B00", table), Err(BAD_AMBIGUITY_TABLE), "{table}");
    }
}

#[test]
fn a_protein_does_not_end_at_its_first_zero() {
    let index = index(1, 3, 3, &[&[0, 0], &[1, 5]]);
    let mut output = [9; 4];
    assert_eq!(decode(&index, &bytes("00 0C 00 0A 00"), 0, &mut output), Ok(3));
    assert_eq!(output, [10, 20, 8, 9]);
}

#[test]
fn number_22_comes_first_and_at_its_limit() {
    // Zeroed memory that nobody touches takes no room; its version is 0.
    let large = vec![0u8; 2_147_483_648];
    assert_eq!(check_volume(&large, &[], &[]), Err(TOO_LARGE));
    assert_eq!(check_volume(&[], &large, &[]), Err(TOO_LARGE));
    assert_eq!(check_volume(&[], &[], &large), Err(TOO_LARGE));
    assert_eq!(check_volume(&large[1..], &large[1..], &large[1..]), Err(WRONG_VERSION));
    assert_eq!(decode(&large, &[], 0, &mut []), Err(TOO_LARGE));
    assert_eq!(decode(&[], &large, 0, &mut []), Err(TOO_LARGE));
    assert_eq!(decode(&large[1..], &large[1..], 0, &mut []), Err(WRONG_VERSION));
}
