//! Request 2026-08: how many packets packing takes, at every length up to 200, and the cases that lend it exactly as many, or
//! one fewer.

use second::answers::NO_ROOM;
use second::call::{CONSOLE_PACK, PACK};
use second::every_run::search;
use second::fields::little_bytes;
use second::generate::nucleotide_codes::{bases, mixed};
use second::generate::rng::Rng;
use second::generate::room_cases::{planned, LONGEST};
use second::generate::{runs, Case};
use second::line::line_of;
use second::residues::Alphabet;
use second::room::{most_packets, packets_of_bases};
use second::runs::{pack, RunSize};
use second::stream::hex;
use std::collections::BTreeSet;

/// Packing has exactly so many packets to write, and reports them; in one fewer it has no room.
fn assert_takes(number: i128, codes: &[u8], packets: usize) {
    let mut buffer = vec![7; packets];
    assert_eq!(pack(number, codes, 0, &mut buffer[1..]), Err(NO_ROOM), "{codes:?}");
    assert!(buffer.iter().all(|packet| *packet == 7));
    let size = RunSize { packets: packets as i128, residues: codes.len() as i128 };
    assert_eq!(pack(number, codes, 0, &mut buffer), Ok(size), "{codes:?}");
    // Bit 31 in the last only: the run is as long as was reported.
    let ends: Vec<usize> = (0..packets).filter(|k| buffer[*k] >> 31 == 1).collect();
    assert_eq!(ends, [packets - 1]);
    assert_eq!(search(Alphabet::of_number(number).unwrap(), codes).fewest, packets);
}

#[test]
fn the_formulas_by_hand() {
    let residues = [0, 1, 6, 7, 12, 13, 18, 19, 198, 199, 200];
    assert_eq!(residues.map(most_packets), [1, 1, 1, 2, 2, 3, 3, 4, 33, 34, 34]);
    let bases = [0, 1, 6, 7, 12, 13, 14, 15, 16, 21, 22, 27, 28, 29, 30, 31, 44, 45, 200];
    let packets = [1, 1, 1, 2, 2, 3, 3, 1, 2, 2, 3, 3, 4, 4, 2, 3, 5, 3, 14];
    assert_eq!(bases.map(packets_of_bases), packets);
}

#[test]
fn protein_takes_a_packet_for_six() {
    let mut rng = Rng::new(31);
    for length in 0..=LONGEST {
        for code in [0, 3, 4, 27] {
            assert_takes(3, &vec![code; length], most_packets(length));
        }
        assert_takes(3, &runs::codes(Alphabet::Amino, length, &mut rng), most_packets(length));
    }
}

#[test]
fn nucleic_takes_at_most_that() {
    let mut rng = Rng::new(12);
    for (length, number) in (0..=LONGEST).flat_map(|length| [(length, 1), (length, 2)]) {
        assert_takes(number, &vec![15; length], most_packets(length));
        assert_takes(number, &vec![4; length], most_packets(length));
        for percent in [3, 10, 30, 60] {
            let codes = mixed(length, percent, &mut rng);
            let fewest = search(Alphabet::Nucleic, &codes).fewest;
            assert!(fewest <= most_packets(length), "{codes:?}");
            assert_takes(number, &codes, fewest);
        }
    }
}

#[test]
fn bases_take_a_packet_for_fifteen_and_one_for_six_of_the_rest() {
    let mut rng = Rng::new(4);
    for (length, number) in (0..=LONGEST).flat_map(|length| [(length, 1), (length, 2)]) {
        for codes in [vec![0; length], vec![3; length], bases(length, &mut rng)] {
            assert_takes(number, &codes, packets_of_bases(length));
        }
    }
}

/// How many bytes the buffer of a case has behind the place.
fn bytes_behind(case: &Case) -> usize {
    let call = &case.call;
    match call.byte {
        PACK => 4 * (call.packet_output(3).len() - call.number(2) as usize),
        _ => call.output(2).len() - 4 * call.number(3) as usize,
    }
}

/// The sort that the codes of a case are, and how many packets they take: by the formulas, and where both kinds of nucleic
/// codes are there by the search.
fn taken(case: &Case) -> (&'static str, usize) {
    let codes = case.call.range(1);
    match case.call.number(0) {
        3 => ("amino", most_packets(codes.len())),
        _ if codes.iter().all(|code| *code < 4) => ("below 4", packets_of_bases(codes.len())),
        _ if codes.iter().all(|code| *code >= 4) => ("4 or more", most_packets(codes.len())),
        _ => ("both", search(Alphabet::Nucleic, codes).fewest),
    }
}

/// The numbers that a line reports: packing's behind its answer, the console's in its results.
fn reported(case: &Case) -> String {
    let line = line_of(&case.call);
    let fields: Vec<&str> = line.split(' ').collect();
    match case.call.byte {
        PACK => fields[1..3].join(" "),
        _ => fields[2].to_string(),
    }
}

#[test]
fn the_cases_have_the_room_that_the_formulas_say_or_a_packet_less() {
    for case in [PACK, CONSOLE_PACK].into_iter().flat_map(|byte| planned(byte, &mut Rng::new(5))) {
        let (_, packets) = taken(&case);
        if case.aim == Some(0) {
            assert_eq!(bytes_behind(&case) / 4, packets, "{}", case.note);
            let values = [packets as i128, case.call.range(1).len() as i128];
            let expected = match case.call.byte {
                PACK => values.map(|value| value.to_string()).join(" "),
                _ => hex(&values.map(|value| little_bytes(value, 8)).concat()),
            };
            assert_eq!(reported(&case), expected, "{}", case.note);
        } else {
            assert_eq!((case.aim, bytes_behind(&case) / 4), (Some(NO_ROOM), packets - 1), "{}", case.note);
        }
        assert!(case.is_hit_by(&line_of(&case.call)), "{}", case.note);
    }
}

#[test]
fn the_cases_have_every_sort_of_codes_at_every_length_on_both_sides() {
    for byte in [PACK, CONSOLE_PACK] {
        let cases = planned(byte, &mut Rng::new(6));
        let mut lengths = BTreeSet::new();
        let mut buffers = BTreeSet::new();
        for case in &cases {
            let (sort, _) = taken(case);
            lengths.insert((sort, case.call.range(1).len(), case.aim));
            buffers.insert((sort, case.call.number(0), case.aim, bytes_behind(case) % 4));
        }
        for (length, aim) in (0..=LONGEST).flat_map(|length| [(length, Some(0)), (length, Some(NO_ROOM))]) {
            assert!(lengths.contains(&("below 4", length, aim)), "{length}");
            assert!(lengths.contains(&("4 or more", length, aim)) || length == 0, "{length}");
            assert!(lengths.contains(&("both", length, aim)) || length < 2, "{length}");
            assert!(lengths.contains(&("amino", length, aim)), "{length}");
        }
        // Three sorts in two alphabets and one in the third, on both sides; for the console 0 to 3 bytes behind.
        assert_eq!(buffers.len(), if byte == PACK { 14 } else { 56 });
        assert_eq!(cases.len(), 201 * 4 * 2);
    }
}
