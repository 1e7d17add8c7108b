//! Request 2026-03, sentence by sentence with bytes worked out by hand; then what decoding gives back, of all cases and of the
//! real volumes, and both calls in the protocol.

mod common;

use common::bytes;
use second::answers::*;
use second::call::{Argument, Call, BASES_OF_CODE, MOST_RANGE, WRITE_NUCLEOTIDES};
use second::fields::{big_bytes, little_bytes};
use second::generate::cases;
use second::generate::nucleotide_codes::alternating;
use second::generate::nucleotide_rules::needed;
use second::line::line_of;
use second::nucleotides::{bases_of_code, write_nucleotides, WrittenSizes};
use second::residues::Alphabet;
use second::sequence::decode;
use second::serve::lines_of;
use second::stream::stream_of;
use second::volume::check_volume;

fn codes(text: &str) -> Vec<u8> {
    Alphabet::Nucleic.codes_of(text).unwrap()
}

/// Writes codes into an output of 77s, three bytes longer than needed, and gives both parts.
fn parts(codes: &[u8]) -> (Vec<u8>, Vec<u8>) {
    let mut room = vec![77; codes.len() / 4 + 1 + 8 * codes.len() + 8];
    let sizes = write_nucleotides(codes, &mut room).unwrap();
    let (two_bit, table) = (sizes.two_bit as usize, sizes.table as usize);
    let mut output = vec![77; two_bit + table + 3];
    assert_eq!(write_nucleotides(codes, &mut output), Ok(sizes));
    assert_eq!(output[..], room[..output.len()]);
    assert_eq!(output.split_off(two_bit + table), [77; 3]);
    let behind = output.split_off(two_bit);
    (output, behind)
}

/// The parts of a text, as hex by hand.
fn assert_written(text: &str, two_bit: &str, table: &str) {
    assert_eq!(parts(&codes(text)), (bytes(two_bit), bytes(table)), "{text}");
}

/// An index of one DNA sequence, which the file's two parts are.
fn index(length: usize, two_bit: usize, table: usize) -> Vec<u8> {
    let mut index: Vec<u8> = [4, 0, 0, 0, 1].iter().flat_map(|field| big_bytes(*field, 4)).collect();
    index.extend(little_bytes(length as i128, 8));
    let end = (two_bit + table) as i128;
    let behind = [length as i128, 0, 0, 0, end, two_bit as i128, end];
    index.extend(behind.iter().flat_map(|field| big_bytes(*field, 4)));
    index
}

/// Writes codes, makes a volume of what was written, and gives what it decodes to.
fn decoded_again(codes: &[u8]) -> Vec<u8> {
    let (two_bit, table) = parts(codes);
    let index = index(codes.len(), two_bit.len(), table.len());
    let file = [two_bit, table].concat();
    assert_eq!(check_volume(&index, &file, &[]).map(|_| ()), Ok(()));
    let mut output = vec![99; codes.len()];
    assert_eq!(decode(&index, &file, 0, &mut output), Ok(codes.len() as i128));
    output
}

#[test]
fn two_bit_bytes_have_four_bases_each_and_the_last_says_how_many_are_left() {
    assert_written("", "00", "");
    for (text, two_bit) in [("A", "01"), ("C", "41"), ("G", "81"), ("T", "C1")] {
        assert_written(text, two_bit, "");
    }
    assert_written("AC", "12", "");
    assert_written("TT", "F2", "");
    assert_written("ACG", "1B", "");
    assert_written("TTT", "FF", "");
    assert_written("ACGT", "1B 00", "");
    assert_written("TTTT", "FF 00", "");
    assert_written("ACGTT", "1B C1", "");
    assert_written("ACGTTGC", "1B E7", "");
    assert_written("ACGTTGCA", "1B E4 00", "");
}

#[test]
fn a_code_of_four_or_more_stands_as_its_first_base() {
    for (letter, base) in "-RYMKSWHBVDN".chars().zip("AACAGCAACAAA".chars()) {
        let plain = parts(&codes(&base.to_string().repeat(5))).0;
        assert_eq!(parts(&codes(&letter.to_string().repeat(5))).0, plain, "{letter}");
    }
    assert_written("KKYA", "A4 00", "00000002 C1000000 A0000002");
}

#[test]
fn the_table_has_an_entry_for_each_stretch() {
    assert_written("N", "01", "00000001 F0000000");
    assert_written("-", "01", "00000001 00000000");
    assert_written("AN-GT", "02 C1", "00000002 F0000001 00000002");
    assert_written("NNRR", "00 00", "00000002 F1000000 51000002");
    assert_written("NANN", "00 00", "00000002 F0000000 F1000002");
    assert_written("----ACGT--", "00 1B 02", "00000002 03000000 01000008");
    let values = "00000000 50000001 A0000002 30000003 C0000004 60000005 \
                  90000006 B0000007 E0000008 70000009 D000000A F000000B";
    assert_written("-RYMKSWHBVDN", "04 90 40 00", &format!("0000000C {values}"));
}

#[test]
fn stretches_are_cut_from_the_front_at_16() {
    let n17 = format!("ACGT{}", "N".repeat(17));
    assert_written(&n17, "1B 00 00 00 00 01", "00000002 FF000004 F0000014");
    for (code, value) in (4..=15).zip("05A3C69BE7DF".chars()) {
        for (length, cut) in [
            (15, "00000001 vE000003"),
            (16, "00000001 vF000003"),
            (17, "00000002 vF000003 v0000013"),
            (32, "00000002 vF000003 vF000013"),
            (33, "00000003 vF000003 vF000013 v0000023"),
        ] {
            let list = [vec![0, 1, 2], vec![code; length], vec![3]].concat();
            assert_eq!(parts(&list).1, bytes(&cut.replace('v', &value.to_string())), "{length} of {code}");
        }
    }
}

#[test]
fn without_such_a_code_there_is_no_table() {
    for length in 0..70 {
        let (two_bit, table) = parts(&alternating(3, 2, length));
        assert_eq!((two_bit.len(), table), (length / 4 + 1, vec![]));
    }
}

/// So many A's, and these stretches of codes among them.
fn among(length: usize, stretches: &[(usize, usize, u8)]) -> Vec<u8> {
    let mut codes = vec![0; length];
    for (start, stretch, code) in stretches {
        codes[*start..start + stretch].fill(*code);
    }
    codes
}

#[test]
fn up_to_16_777_216_residues_entries_have_32_bits() {
    let codes = among(16_777_216, &[(0, 16, 15), (100, 17, 5), (16_777_215, 1, 4)]);
    let (two_bit, table) = parts(&codes);
    assert_eq!(two_bit, vec![0; 4_194_305]);
    assert_eq!(table, bytes("00000004 FF000000 5F000064 50000074 00FFFFFF"));
    assert!(decoded_again(&codes) == codes);
}

#[test]
fn of_more_residues_entries_have_64_bits_and_are_cut_at_4096() {
    let stretches = [(0, 4096, 15), (5000, 4097, 5), (10_000, 17, 15), (16_777_216, 1, 4)];
    let codes = among(16_777_217, &stretches);
    let (two_bit, table) = parts(&codes);
    assert_eq!(two_bit, [vec![0; 4_194_304], vec![1]].concat());
    let entries = "FFFF000000000000 5FFF000000001388 5000000000002388 F010000000002710 0000000001000000";
    assert_eq!(table, bytes(&format!("8000000A {entries}")));
    assert!(decoded_again(&codes) == codes);
    // The form goes by the length alone: places far before the end, and no table without such a code.
    assert_eq!(parts(&among(16_777_217, &[(3, 1, 15)])).1, bytes("80000002 F000000000000003"));
    assert_eq!(parts(&among(16_777_217, &[])).1, []);
}

#[test]
fn the_rest_of_the_output_stays() {
    let mut output = [77; 20];
    let sizes = WrittenSizes { two_bit: 2, table: 12 };
    assert_eq!(write_nucleotides(&codes("AN-GT"), &mut output), Ok(sizes));
    assert_eq!(output, bytes("02C1 00000002 F0000001 00000002 4D4D4D4D4D4D")[..]);
    let mut output = [77; 3];
    assert_eq!(write_nucleotides(&[], &mut output), Ok(WrittenSizes { two_bit: 1, table: 0 }));
    assert_eq!(output, [0, 77, 77]);
}

#[test]
fn a_refusal_changes_nothing_and_18_comes_before_13() {
    let list = codes("AN-GT");
    for room in 0..14 {
        let mut output = vec![77; room];
        assert_eq!(write_nucleotides(&list, &mut output), Err(NO_ROOM));
        assert_eq!(output, vec![77; room]);
    }
    assert_eq!(write_nucleotides(&[], &mut []), Err(NO_ROOM));
    for (place, bad) in (0..5).flat_map(|place| [16, 17, 128, 255].map(|bad| (place, bad))) {
        let mut spoiled = list.clone();
        spoiled[place] = bad;
        for room in [0, 1, 13, 14, 30] {
            let mut output = vec![77; room];
            assert_eq!(write_nucleotides(&spoiled, &mut output), Err(BAD_CODE));
            assert_eq!(output, vec![77; room]);
        }
    }
}

#[test]
fn number_22_comes_first_and_at_its_limit() {
    // Zeroed memory that nobody touches takes no room.
    let mut codes = vec![0u8; 2_147_483_648];
    assert_eq!(write_nucleotides(&codes, &mut []), Err(TOO_LARGE));
    codes[0] = 16;
    assert_eq!(write_nucleotides(&codes, &mut []), Err(TOO_LARGE));
    assert_eq!(write_nucleotides(&codes[..2_147_483_647], &mut []), Err(BAD_CODE));
}

#[test]
fn number_22_comes_once_more_for_the_bytes_needed() {
    // An entry of eight bytes for each code: 8 L + 4 + L/4 + 1 bytes. The last L gives 2,147,483,642.
    let last = 260_301_047;
    let mut codes = alternating(4, 5, last + 21);
    assert_eq!(write_nucleotides(&codes[..last], &mut []), Err(NO_ROOM));
    assert_eq!(write_nucleotides(&codes[..last + 1], &mut []), Err(TOO_LARGE));
    codes[last] = 16;
    assert_eq!(write_nucleotides(&codes[..last + 1], &mut []), Err(BAD_CODE));
    // Bases behind them take a byte for four: 2,147,483,647 and 2,147,483,648.
    codes[last..].fill(0);
    assert_eq!(write_nucleotides(&codes[..last + 17], &mut []), Err(NO_ROOM));
    assert_eq!(write_nucleotides(&codes[..last + 20], &mut []), Err(NO_ROOM));
    assert_eq!(write_nucleotides(&codes[..last + 21], &mut []), Err(TOO_LARGE));
}

#[test]
fn decoding_returns_the_codes() {
    let all = cases(WRITE_NUCLEOTIDES, 8, 4000, &common::samples());
    for case in all.filter(|case| case.aim == Some(0)) {
        let list = case.call.range(0);
        assert_eq!(decoded_again(list), list, "{}", case.note);
        let (two_bit, table) = parts(list);
        assert_eq!(two_bit.len() + table.len(), needed(list), "{}", case.note);
    }
}

#[test]
fn every_real_sequence_comes_back() {
    let mut count = 0;
    for volume in common::samples().volumes {
        if volume.alphabet == Alphabet::Amino {
            continue;
        }
        for (number, line) in volume.lines.iter().enumerate() {
            let mut list = vec![99; line.len()];
            let answer = decode(&volume.index, &volume.sequence, number as i128, &mut list);
            assert_eq!(answer, Ok(line.len() as i128), "{} {number}", volume.name);
            assert_eq!(decoded_again(&list), list, "{} {number}", volume.name);
            count += 1;
        }
    }
    assert_eq!(count, 233);
}

#[test]
fn tables_are_as_formatdb_writes_them() {
    let volume = common::samples().volumes.into_iter().find(|volume| volume.name == "fd_nuc").unwrap();
    let index = second::index::read_index(&volume.index).unwrap();
    let mut tables = 0;
    for (i, line) in volume.lines.iter().enumerate() {
        let (start, end) = (index.ambiguity_offsets[i], index.sequence_offsets[i + 1]);
        let made = &volume.sequence[start as usize..end as usize];
        // It may leave a table of no entries; the bases under its corrections are not compared.
        if made.len() > 4 {
            assert_eq!(parts(&codes(line)).1, made, "{i}");
            tables += 1;
        }
    }
    assert!(tables > 0);
}

#[test]
fn bases_of_each_code() {
    let counts: Vec<i128> = (0..16).map(|code| bases_of_code(code).unwrap()).collect();
    //                  A  C  G  T  -  R  Y  M  K  S  W  H  B  V  D  N
    assert_eq!(counts, [1, 1, 1, 1, 0, 2, 2, 2, 2, 2, 2, 3, 3, 3, 3, 4]);
    for code in [16, 17, 255, 256, 260, (1 << 32) - 1, 1 << 32, (1 << 64) - 1] {
        assert_eq!(bases_of_code(code), Err(BAD_CODE), "{code}");
    }
}

/// Writing in the protocol, into an output of 77.
fn call(codes: &[u8], room: usize) -> Call {
    Call::new(WRITE_NUCLEOTIDES, vec![Argument::Range(codes.to_vec()), Argument::Output(room, 0x77)])
}

#[test]
fn the_lines_have_both_sizes_and_the_output_or_the_count() {
    let line = |text: &str, room: usize| line_of(&call(&codes(text), room));
    assert_eq!(line("", 1), "0 1 0 00");
    assert_eq!(line("ACGT", 3), "0 2 0 1b0077");
    assert_eq!(line("ANGT", 11), "0 2 8 0b0000000001f000000177");
    assert_eq!(line("ANGT", 9), "13 777777777777777777");
    assert_eq!(line("", 0), "13 -");
    assert_eq!(line_of(&call(&[0, 16], 2)), "18 7777");
    let bases = |code| line_of(&Call::new(BASES_OF_CODE, vec![Argument::Number(code)]));
    assert_eq!([bases(0), bases(4), bases(15), bases(16)], ["0 1", "0 0", "0 4", "18"]);
    assert_eq!([bases(1 << 32), bases(u64::MAX)], ["18", "18"]);
}

#[test]
fn the_streams_are_as_the_protocol_says() {
    let stream = stream_of(&call(&[0, 15, 2, 3], 11));
    assert_eq!(stream, bytes("0E 04000000 000F0203 0B000000 77"));
    let bases = stream_of(&Call::new(BASES_OF_CODE, vec![Argument::Number(15)]));
    assert_eq!(bases, bytes("0F 0F00000000000000"));
    let lines = lines_of(&[stream.clone(), bases.clone()].concat());
    assert_eq!(lines, ["0 2 8 0b0000000001f000000177", "0 4"]);
    assert_eq!(lines_of(&stream[..stream.len() - 1]), ["cut"]);
    assert_eq!(lines_of(&bases[..8]), ["cut"]);
    for long in [call(&[0; MOST_RANGE + 1], 1), call(&[], MOST_RANGE + 1)] {
        assert!(!long.fits_protocol());
        assert_eq!(lines_of(&stream_of(&long)), ["too long"]);
    }
}
