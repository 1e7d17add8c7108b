//! Packing into exactly the packets that its run takes, and into one fewer (request 2026-08). How many these are is told by
//! the request's formulas or, where it has none, by the search over every run; never by the packing rule.

use super::nucleotide_codes::{bases, corrected, mixed};
use super::pack_cases::Plan;
use super::rng::Rng;
use super::rules::{rule, Rule};
use super::{runs, Case};
use crate::answers::NO_ROOM;
use crate::every_run::search;
use crate::residues::Alphabet;
use crate::room::{most_packets, packets_of_bases};

/// The longest sequence of the planned cases.
pub const LONGEST: usize = 200;

/// A sort of codes: its name, its alphabet, how so many of them are made, and how many packets they take.
struct Sort {
    name: &'static str,
    alphabet: Alphabet,
    codes: fn(usize, &mut Rng) -> Vec<u8>,
    packets: fn(&[u8]) -> usize,
}

const SORTS: [Sort; 4] = [
    Sort {
        name: "bases",
        alphabet: Alphabet::Nucleic,
        codes: bases,
        packets: |codes| packets_of_bases(codes.len()),
    },
    Sort {
        name: "codes of 4 or more",
        alphabet: Alphabet::Nucleic,
        codes: |length, rng| (0..length).map(|_| corrected(rng)).collect(),
        packets: |codes| most_packets(codes.len()),
    },
    Sort {
        name: "nucleic codes of both kinds",
        alphabet: Alphabet::Nucleic,
        codes: both_kinds,
        packets: |codes| search(Alphabet::Nucleic, codes).fewest,
    },
    Sort {
        name: "amino codes",
        alphabet: Alphabet::Amino,
        codes: |length, rng| runs::codes(Alphabet::Amino, length, rng),
        packets: |codes| most_packets(codes.len()),
    },
];

/// Stretches of bases and of codes of 4 or more, and at some place one of each, where there are two residues.
fn both_kinds(length: usize, rng: &mut Rng) -> Vec<u8> {
    let mut codes = mixed(length, 30, rng);
    if length > 1 {
        let place = rng.below(length);
        codes[place] = corrected(rng);
        codes[(place + 1) % length] = rng.below(4) as u8;
    }
    codes
}

/// Every sort of codes at every length.
pub fn planned(byte: u8, rng: &mut Rng) -> Vec<Case> {
    (0..=LONGEST).flat_map(|length| at_length(byte, length, rng)).collect()
}

/// Every sort of codes at a length, in exactly the packets that they take and in one fewer. Nucleic codes are RNA in one of
/// the two and DNA in the other, by turns. By turns too the console's buffer has 0 to 3 bytes more: where 3 stand in the
/// place of a packet, one byte is missing.
pub fn at_length(byte: u8, length: usize, rng: &mut Rng) -> Vec<Case> {
    let mut cases = Vec::new();
    for sort in &SORTS {
        let codes = (sort.codes)(length, rng);
        let packets = (sort.packets)(&codes);
        let place = *rng.pick(&[0, 0, 1, 7]);
        for (fewer, aim) in [(0, 0), (1, NO_ROOM)] {
            let turn = length + fewer;
            let plan = Plan {
                alphabet: if sort.alphabet == Alphabet::Amino { 3 } else { 1 + turn as u64 % 2 },
                codes: codes.clone(),
                place: place as u64,
                room: place + packets - fewer,
                spare: turn / 2 % 4,
                results: 16,
            };
            let note = format!("{length} {} in {} of {packets} packets", sort.name, packets - fewer);
            cases.push(Case::aimed(plan.call(byte, rng), aim, note));
        }
    }
    cases
}

/// Some sequences of one letter, and how many packets they take, worked out by hand.
fn by_hand(alphabet: Alphabet) -> [(char, usize, usize); 4] {
    match alphabet {
        Alphabet::Nucleic => [('A', 14, 3), ('A', 15, 1), ('T', 200, 14), ('N', 200, 34)],
        Alphabet::Amino => [('A', 6, 1), ('A', 7, 2), ('A', 15, 3), ('A', 200, 34)],
    }
}

/// The room of these sequences, on both sides.
pub fn room_rule(alphabet: Alphabet) -> Rule<Plan> {
    let mut room: Rule<Plan> = rule(NO_ROOM, "the buffer has the packets that the run takes");
    for (letter, length, packets) in by_hand(alphabet) {
        let code = alphabet.code_of(letter).expect("a letter of the alphabet");
        let lend = move |plan: &mut Plan, packets: usize| {
            plan.codes = vec![code; length];
            (plan.room, plan.spare) = (plan.near_place() + packets, 0);
        };
        let words = |packets: usize| format!("{packets} for {length} {letter}'s");
        room = room
            .passes(words(packets), move |plan| lend(plan, packets))
            .breaks(words(packets - 1), move |plan| lend(plan, packets - 1));
    }
    room
}
