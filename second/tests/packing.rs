//! Document 01's table for the desk, its "Run only" rows for packets, and the sizes of number 22.

use second::answers::*;
use second::console::{console_pack, console_unpack};
use second::residues::Alphabet;
use second::runs::{pack, unpack, RunSize};

fn codes(alphabet: i128, text: &str) -> Vec<u8> {
    Alphabet::of_number(alphabet).unwrap().codes_of(text).unwrap()
}

/// Packs a text into a buffer with room behind, and unpacks it again.
fn run(alphabet: i128, text: &str) -> Vec<u32> {
    let codes = codes(alphabet, text);
    let mut buffer = [0x1234_5678; 20];
    let size = pack(alphabet, &codes, 2, &mut buffer).unwrap();
    let run = buffer[2..2 + size.packets as usize].to_vec();
    assert_eq!(size.residues, codes.len() as i128);
    assert!(buffer[..2].iter().chain(&buffer[2 + run.len()..]).all(|packet| *packet == 0x1234_5678));
    let mut output = vec![99; codes.len() + 1];
    assert_eq!(unpack(alphabet, &run, &mut output), Ok(size));
    assert_eq!(output[..codes.len()], codes);
    assert_eq!(output[codes.len()], 99);
    run
}

#[test]
fn the_table_for_the_desk() {
    assert_eq!(run(2, "ACGT"), [0xC011_0FFF]);
    assert_eq!(run(1, "ACGT"), [0xC011_0FFF]);
    for alphabet in 1..=3 {
        assert_eq!(run(alphabet, ""), [0xFFFF_FFFF]);
    }
    assert_eq!(run(2, &"A".repeat(15)), [0x8000_0000]);
    assert_eq!(run(2, &"T".repeat(15)), [0xBFFF_FFFF]);
    assert_eq!(run(2, &"A".repeat(16)), [0x0000_0000, 0xC1FF_FFFF]);
    assert_eq!(run(3, "MK"), [0xD48F_FFFF]);
    assert_eq!(run(3, "AAAAAAA"), [0x4000_0000, 0xC1FF_FFFF]);
}

#[test]
fn the_rows_that_are_run_only() {
    assert_eq!(run(2, &"A".repeat(14)).len(), 3);
    assert_eq!(run(2, &"A".repeat(30)).len(), 2);
}

#[test]
fn twenty_nine_plain_bases_take_four_packets() {
    assert_eq!(run(2, &"A".repeat(29)).len(), 4);
}

#[test]
fn refusals_of_packing_in_order() {
    let mut buffer = [7; 2];
    assert_eq!(pack(0, &[99], 9, &mut buffer), Err(WRONG_TYPE));
    assert_eq!(pack(2, &[16], 9, &mut buffer), Err(BAD_CODE));
    assert_eq!(pack(2, &[15], 2, &mut buffer), Err(NO_ROOM));
    assert_eq!(buffer, [7, 7]);
    assert_eq!(pack(2, &[15], 1, &mut buffer), Ok(RunSize { packets: 1, residues: 1 }));
}

#[test]
fn refusals_of_the_console_in_order() {
    let (mut output, mut results) = ([7; 2], [8; 15]);
    assert_eq!(console_unpack(0, &[0; 5], &mut output, &mut results), Err(ENDS_TOO_EARLY));
    assert_eq!(console_unpack(0, &[0; 4], &mut output, &mut results), Err(WRONG_TYPE));
    assert_eq!(console_unpack(3, &[0; 4], &mut output, &mut results), Err(BAD_RUN));
    assert_eq!(console_unpack(2, &[0, 0, 0, 128], &mut output, &mut results), Err(NO_ROOM));
    assert_eq!(console_unpack(2, &[255; 4], &mut output, &mut results), Err(NO_ROOM));
    assert_eq!((output, results), ([7; 2], [8; 15]));
}

#[test]
fn the_console_packs_into_whole_packets() {
    let (mut buffer, mut results) = ([9; 11], [8; 17]);
    assert_eq!(console_pack(2, &[0, 1, 2, 3], &mut buffer, 2, &mut results), Err(NO_ROOM));
    assert_eq!(console_pack(2, &[0, 1, 2, 3], &mut buffer, 1, &mut results), Ok(()));
    assert_eq!(buffer, [9, 9, 9, 9, 0xFF, 0x0F, 0x11, 0xC0, 9, 9, 9]);
    assert_eq!(results, [1, 0, 0, 0, 0, 0, 0, 0, 4, 0, 0, 0, 0, 0, 0, 0, 8]);
}

#[test]
fn number_22_comes_first_and_at_its_limit() {
    // Zeroed memory that nobody touches takes no room.
    let bytes = vec![0u8; 2_147_483_648];
    let packets = vec![0u32; 536_870_913];
    assert_eq!(pack(0, &bytes, 0, &mut []), Err(TOO_LARGE));
    assert_eq!(pack(0, &bytes[1..], 0, &mut []), Err(WRONG_TYPE));
    assert_eq!(unpack(0, &packets, &mut []), Err(TOO_LARGE));
    assert_eq!(unpack(0, &packets[1..], &mut []), Err(WRONG_TYPE));
    assert_eq!(console_pack(0, &bytes, &mut [], 0, &mut []), Err(TOO_LARGE));
    assert_eq!(console_pack(0, &bytes[1..], &mut [], 0, &mut []), Err(WRONG_TYPE));
    assert_eq!(console_unpack(0, &bytes, &mut [], &mut []), Err(TOO_LARGE));
    assert_eq!(console_unpack(0, &bytes[1..], &mut [], &mut []), Err(ENDS_TOO_EARLY));
}

#[test]
fn runs_as_bytes_with_all_their_room() {
    use second::answers::{BAD_CODE, BAD_RUN, ENDS_TOO_EARLY, WRONG_TYPE};
    use second::console::{packed, unpacked};
    assert_eq!(packed(2, &[0, 1, 2, 3]), Ok(vec![0xFF, 0x0F, 0x11, 0xC0]));
    assert_eq!(packed(3, &[]), Ok(vec![0xFF; 4]));
    assert_eq!(packed(2, &[16]), Err(BAD_CODE));
    assert_eq!(packed(4, &[16]), Err(WRONG_TYPE));
    assert_eq!(unpacked(1, &[0xFF, 0x0F, 0x11, 0xC0]), Ok(vec![0, 1, 2, 3]));
    assert_eq!(unpacked(4, &[0; 3]), Err(ENDS_TOO_EARLY));
    assert_eq!(unpacked(0, &[0; 4]), Err(WRONG_TYPE));
    assert_eq!(unpacked(2, &[0; 4]), Err(BAD_RUN));
    let codes: Vec<u8> = (0..100_000).map(|k| (k % 4) as u8).collect();
    assert_eq!(packed(2, &codes).and_then(|run| unpacked(2, &run)), Ok(codes));
}
