//! Request 2026-02, sentence by sentence on small volumes written by hand; then the real volumes as pages, and the page in
//! the protocol.

mod common;

use common::bytes;
use second::answers::*;
use second::call::{Argument, Call, MOST_NUMBERS, PAGE};
use second::fields::{big_bytes, little_bytes};
use second::generate::samples::SampleVolume;
use second::line::line_of;
use second::page::{fetch_page, Page};
use second::sequence::decode;
use second::serve::lines_of;
use second::stream::stream_of;

/// A volume's index and sequence file.
struct Volume {
    index: Vec<u8>,
    sequence: Vec<u8>,
}

/// No title, no timestamp, and these tables. Totals are not asked for.
fn index(kind: i128, tables: &[&[i128]]) -> Vec<u8> {
    let mut index: Vec<u8> = [4, kind, 0, 0].iter().flat_map(|field| big_bytes(*field, 4)).collect();
    index.extend(big_bytes(tables[0].len() as i128 - 1, 4));
    index.extend(little_bytes(0, 8));
    index.extend(big_bytes(0, 4));
    index.extend(tables.concat().iter().flat_map(|offset| big_bytes(*offset, 4)));
    index
}

/// MK, nothing, and one A, as codes 10 8, none, and 0.
fn protein() -> Volume {
    Volume { index: index(1, &[&[0; 4], &[1, 4, 5, 7]]), sequence: bytes("00 0C0A 00 00 01 00") }
}

/// ACG, nothing, and ANGT with one correction: 0 1 2, none, and 0 15 2 3.
fn dna() -> Volume {
    Volume {
        index: index(0, &[&[0; 4], &[0, 1, 2, 12], &[1, 2, 4, 12]]),
        sequence: bytes("1B 00 1B00 00000001 F0000001"),
    }
}

/// What a page leaves: how it came out, its output, and its ends.
type Left = (Page, Vec<u8>, Vec<u64>);

/// Fetches into an output of 77s and a list of ends of 99s.
fn fetch(volume: &Volume, numbers: &[u64], room: usize, ends: usize) -> Left {
    let (mut output, mut list) = (vec![77; room], vec![99; ends]);
    let page = fetch_page(&volume.index, &volume.sequence, numbers, &mut output, &mut list);
    (page, output, list)
}

fn passed(done: usize) -> Page {
    Page { answer: Ok(()), done }
}

fn refused(number: u32, done: usize) -> Page {
    Page { answer: Err(number), done }
}

#[test]
fn items_are_appended_and_each_end_is_what_is_filled_by_then() {
    assert_eq!(fetch(&protein(), &[0, 1, 2], 3, 3), (passed(3), vec![10, 8, 0], vec![2, 2, 3]));
    assert_eq!(fetch(&protein(), &[2, 1, 0], 3, 3), (passed(3), vec![0, 10, 8], vec![1, 1, 3]));
    assert_eq!(fetch(&dna(), &[0, 1, 2], 7, 3), (passed(3), vec![0, 1, 2, 0, 15, 2, 3], vec![3, 3, 7]));
    assert_eq!(fetch(&dna(), &[2, 0], 7, 2), (passed(2), vec![0, 15, 2, 3, 0, 1, 2], vec![4, 7]));
}

#[test]
fn other_places_and_the_rest_of_the_output_stay() {
    assert_eq!(fetch(&protein(), &[2, 0], 5, 4), (passed(2), vec![0, 10, 8, 77, 77], vec![1, 3, 99, 99]));
    assert_eq!(fetch(&dna(), &[1], 2, 2), (passed(1), vec![77, 77], vec![0, 99]));
}

#[test]
fn a_number_may_repeat() {
    let (page, output, ends) = fetch(&protein(), &[0, 0, 1, 0], 6, 4);
    assert_eq!((page, output, ends), (passed(4), vec![10, 8, 10, 8, 10, 8], vec![2, 4, 4, 6]));
    let (page, output, ends) = fetch(&dna(), &[2; 50], 200, 50);
    assert_eq!((page, output), (passed(50), [0, 15, 2, 3].repeat(50)));
    assert_eq!(ends, (1..=50).map(|k| 4 * k).collect::<Vec<u64>>());
}

#[test]
fn it_stops_at_the_first_refusal_and_what_was_done_stays() {
    // No sequence 3: at each place of the list.
    let volume = protein();
    assert_eq!(fetch(&volume, &[3, 0, 2], 4, 3), (refused(10, 0), vec![77; 4], vec![99; 3]));
    assert_eq!(fetch(&volume, &[0, 3, 2], 4, 3), (refused(10, 1), vec![10, 8, 77, 77], vec![2, 99, 99]));
    assert_eq!(fetch(&volume, &[0, 2, 3], 4, 3), (refused(10, 2), vec![10, 8, 0, 77], vec![2, 3, 99]));
    assert_eq!(fetch(&volume, &[2, 1 << 63], 2, 2), (refused(10, 1), vec![0, 77], vec![1, 99]));
    assert_eq!(fetch(&volume, &[u64::MAX], 2, 1), (refused(10, 0), vec![77; 2], vec![99]));
}

#[test]
fn the_refused_item_changes_nothing() {
    // A byte above 27 behind a good one, which is not written either.
    for bad in ["1C", "FF"] {
        let sequence = bytes(&format!("00 0C0A 00 00 01{bad} 00"));
        let volume = Volume { index: index(1, &[&[0; 4], &[1, 4, 5, 8]]), sequence };
        let left = (refused(BAD_PROTEIN_BYTE, 1), vec![10, 8, 77, 77], vec![2, 99, 99]);
        assert_eq!(fetch(&volume, &[0, 2, 1], 4, 3), left);
    }
    // No NUL behind the sequence, an offset past the file's end, and a correction past the last residue.
    let mut volume = protein();
    volume.sequence[6] = 1;
    assert_eq!(fetch(&volume, &[0, 2], 4, 2), (refused(NO_SEPARATOR, 1), vec![10, 8, 77, 77], vec![2, 99]));
    volume.index = index(1, &[&[0; 4], &[1, 4, 5, 8]]);
    assert_eq!(fetch(&volume, &[0, 2], 4, 2), (refused(BAD_OFFSETS, 1), vec![10, 8, 77, 77], vec![2, 99]));
    let mut volume = dna();
    volume.sequence[11] = 4;
    let left = vec![0, 1, 2, 77, 77, 77, 77];
    assert_eq!(fetch(&volume, &[0, 2], 7, 2), (refused(BAD_AMBIGUITY_TABLE, 1), left, vec![3, 99]));
}

#[test]
fn an_item_needs_room_in_what_is_left() {
    let volume = protein();
    for (room, done, filled) in [(0, 0, 0), (1, 0, 0), (2, 2, 2), (3, 2, 2), (4, 3, 4)] {
        // MK, nothing, MK: an output that ends inside an item, at its end, and where the empty one is next.
        let (page, output, ends) = fetch(&volume, &[0, 1, 0], room, 3);
        let number = if done == 3 { passed(3) } else { refused(NO_ROOM, done) };
        let codes: Vec<u8> = [10, 8, 10, 8][..filled].to_vec();
        assert_eq!(page, number, "{room}");
        assert_eq!(output, [codes, vec![77; room - filled]].concat(), "{room}");
        assert_eq!(ends[..done], [2, 2, 4][..done], "{room}");
        assert_eq!(ends[done..], [99, 99, 99][done..], "{room}");
    }
    // A smaller item behind the one that does not fit is not tried.
    assert_eq!(fetch(&volume, &[0, 2], 1, 2), (refused(NO_ROOM, 0), vec![77], vec![99, 99]));
    // An item of length 0 fits a full output, and one of no length.
    assert_eq!(fetch(&volume, &[0, 1, 1], 2, 3), (passed(3), vec![10, 8], vec![2, 2, 2]));
    assert_eq!(fetch(&volume, &[1, 1], 0, 2), (passed(2), vec![], vec![0, 0]));
}

#[test]
fn an_empty_list_succeeds_whatever_the_files_are() {
    let nothing = Volume { index: vec![], sequence: vec![] };
    for volume in [protein(), dna(), nothing] {
        assert_eq!(fetch(&volume, &[], 2, 2), (passed(0), vec![77, 77], vec![99, 99]));
        assert_eq!(fetch(&volume, &[], 0, 0), (passed(0), vec![], vec![]));
    }
}

#[test]
fn too_few_ends_are_13_before_any_work() {
    let nothing = Volume { index: vec![], sequence: vec![] };
    for volume in [protein(), dna(), nothing] {
        assert_eq!(fetch(&volume, &[0, 1], 9, 1), (refused(NO_ROOM, 0), vec![77; 9], vec![99]));
        assert_eq!(fetch(&volume, &[9], 9, 0), (refused(NO_ROOM, 0), vec![77; 9], vec![]));
    }
    // With enough ends the index's own number comes, with none done.
    let short = Volume { index: vec![0, 0, 0], sequence: vec![] };
    assert_eq!(fetch(&short, &[0, 1], 1, 2), (refused(ENDS_TOO_EARLY, 0), vec![77], vec![99, 99]));
}

#[test]
fn the_earlier_item_decides() {
    // A byte above 27 in the last sequence, and no sequence 3: in a single fetch 10 is asked first.
    let mut volume = protein();
    volume.sequence[5] = 28;
    assert_eq!(fetch(&volume, &[1, 2, 3], 4, 3).0, refused(BAD_PROTEIN_BYTE, 1));
    assert_eq!(fetch(&volume, &[1, 3, 2], 4, 3).0, refused(NO_SUCH_NUMBER, 1));
    assert_eq!(fetch(&volume, &[0, 2], 1, 2).0, refused(NO_ROOM, 0));
    assert_eq!(fetch(&volume, &[2, 0], 1, 2).0, refused(BAD_PROTEIN_BYTE, 0));
}

#[test]
fn number_22_comes_first_and_at_its_limit() {
    // Zeroed memory that nobody touches takes no room; its version is 0.
    let large = vec![0u8; 2_147_483_648];
    let good = protein();
    let (mut output, mut ends) = ([77; 9], [99; 2]);
    for (index, sequence) in [(&large[..], &good.sequence[..]), (&good.index[..], &large[..])] {
        for numbers in [&[] as &[u64], &[0], &[0, 0, 0], &[9]] {
            assert_eq!(fetch_page(index, sequence, numbers, &mut output, &mut ends), refused(TOO_LARGE, 0));
        }
    }
    assert_eq!((output, ends), ([77; 9], [99; 2]));
    let mut fetch =
        |index: &[u8], numbers: &[u64]| fetch_page(index, &large[1..], numbers, &mut output, &mut ends);
    assert_eq!(fetch(&large[1..], &[]), passed(0));
    assert_eq!(fetch(&large[1..], &[0, 0, 0]), refused(NO_ROOM, 0));
    assert_eq!(fetch(&large[1..], &[0]), refused(WRONG_VERSION, 0));
    // Zeros are a protein's gaps, and its separators.
    assert_eq!(fetch(&good.index, &[0, 2]), passed(2));
    assert_eq!((output, ends), ([20, 20, 20, 77, 77, 77, 77, 77, 77], [2, 3]));
}

/// Fetches a page of a real volume, and holds it against single fetches in its order.
fn equals_single_fetches(volume: &SampleVolume, numbers: &[u64], room: usize) -> Page {
    let (mut output, mut ends) = (vec![77; room], vec![99; numbers.len() + 1]);
    let page = fetch_page(&volume.index, &volume.sequence, numbers, &mut output, &mut ends);
    let (mut wanted, mut wanted_ends) = (vec![], vec![]);
    for number in &numbers[..page.done] {
        let mut one = vec![0; 5000];
        let length = decode(&volume.index, &volume.sequence, *number as i128, &mut one).unwrap();
        let line = &volume.lines[*number as usize];
        assert_eq!(volume.alphabet.text_of(&one[..length as usize]), *line, "{}", volume.name);
        wanted.extend(&one[..length as usize]);
        wanted_ends.push(wanted.len() as u64);
    }
    wanted.resize(room, 77);
    wanted_ends.resize(numbers.len() + 1, 99);
    assert_eq!((output, ends), (wanted, wanted_ends), "{}", volume.name);
    page
}

#[test]
fn a_real_volume_is_one_page() {
    for volume in common::samples().volumes.iter().filter(|volume| !volume.lines.is_empty()) {
        let count = volume.lines.len();
        let all: usize = volume.lines.iter().map(String::len).sum();
        let forwards: Vec<u64> = (0..count as u64).collect();
        assert_eq!(equals_single_fetches(volume, &forwards, all), passed(count));
        assert_eq!(equals_single_fetches(volume, &forwards, all - 1), refused(NO_ROOM, count - 1));
        let mut turned: Vec<u64> = forwards.iter().rev().copied().collect();
        turned.insert(1, turned[0]);
        assert_eq!(equals_single_fetches(volume, &turned, 2 * all), passed(count + 1));
        for place in 0..count {
            let mut list = forwards.clone();
            list[place] = count as u64;
            assert_eq!(equals_single_fetches(volume, &list, all), refused(NO_SUCH_NUMBER, place));
        }
    }
}

#[test]
fn an_index_of_another_version_is_2_with_none_done() {
    for volume in common::samples().volumes.iter().filter(|volume| volume.lines.is_empty()) {
        assert_eq!(equals_single_fetches(volume, &[0, 1], 9), refused(WRONG_VERSION, 0));
        assert_eq!(equals_single_fetches(volume, &[], 9), passed(0));
    }
}

/// A page in the protocol, its output filled with 77 and its ends with one number.
fn call(volume: &Volume, numbers: &[u64], room: usize, ends: usize, fill: u64) -> Call {
    let arguments = vec![
        Argument::Range(volume.index.clone()),
        Argument::Range(volume.sequence.clone()),
        Argument::NumberList(numbers.to_vec()),
        Argument::Output(room, 0x77),
        Argument::NumberOutput(ends, fill),
    ];
    Call::new(PAGE, arguments)
}

#[test]
fn the_line_has_the_number_how_many_were_done_the_output_and_the_ends() {
    let fill = 0x0123_4567_89AB_CDEF;
    let line = |numbers: &[u64], room, ends| line_of(&call(&protein(), numbers, room, ends, fill));
    assert_eq!(line(&[0, 2], 4, 2), "0 2 0a080077 00000000000000020000000000000003");
    assert_eq!(line(&[0, 9], 4, 2), "10 1 0a087777 00000000000000020123456789abcdef");
    assert_eq!(line(&[0, 2], 2, 2), "13 1 0a08 00000000000000020123456789abcdef");
    assert_eq!(line(&[0, 2], 3, 1), "13 0 777777 0123456789abcdef");
    assert_eq!(line(&[], 0, 0), "0 0 - -");
}

#[test]
fn the_stream_has_the_list_and_the_ends_as_the_protocol_says() {
    let nothing = Volume { index: vec![], sequence: vec![0xEE] };
    let stream = stream_of(&call(&nothing, &[1, 1 << 63], 5, 3, 2));
    let written = "0D 00000000 01000000 EE 02000000 0100000000000000 0000000000000080 05000000 77 03000000";
    assert_eq!(stream, [bytes(written), bytes("0200000000000000")].concat());
    assert_eq!(lines_of(&stream), ["1 0 7777777777 000000000000000200000000000000020000000000000002"]);
    assert_eq!(lines_of(&stream[..20]), ["cut"]);
    assert_eq!(lines_of(&stream[..stream.len() - 1]), ["cut"]);
}

#[test]
fn more_than_2048_numbers_or_ends_are_too_long() {
    let most = call(&protein(), &[1; MOST_NUMBERS], 0, MOST_NUMBERS, 7);
    assert_eq!(MOST_NUMBERS, 2048);
    assert_eq!(lines_of(&stream_of(&most)), [format!("0 2048 - {}", "0".repeat(16 * 2048))]);
    let numbers = call(&protein(), &[1; MOST_NUMBERS + 1], 0, 0, 7);
    let ends = call(&protein(), &[1], 0, MOST_NUMBERS + 1, 7);
    for long in [numbers, ends] {
        assert!(!long.fits_protocol());
        assert_eq!(lines_of(&[stream_of(&most), stream_of(&long)].concat())[1..], ["too long"]);
    }
}
