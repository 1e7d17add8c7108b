//! Valid codes and well-formed runs by chance, and the rules that packing and unpacking share.

use super::nucleotide_codes::bases;
use super::rng::Rng;
use super::rules::{rule, Rule};
use crate::answers::{NO_ROOM, WRONG_TYPE};
use crate::packets::{five_bit_packet, two_bit_packet, Packet};
use crate::residues::Alphabet;

/// The alphabets, and what their rules are called.
pub const ALPHABETS: [(Alphabet, &str); 2] = [(Alphabet::Nucleic, "nucleic"), (Alphabet::Amino, "amino")];

/// Lengths around the sizes of packets, now and then a longer one.
pub fn length(rng: &mut Rng) -> usize {
    match rng.below(20) {
        0..=9 => rng.between(0, 33),
        10..=14 => *rng.pick(&[14, 15, 16, 29, 30, 31, 44, 45, 46, 59, 60, 61, 90]),
        15..=18 => rng.between(34, 200),
        _ => rng.between(200, 900),
    }
}

/// Valid codes: plain bases alone, mostly plain, or of every kind.
pub fn codes(alphabet: Alphabet, length: usize, rng: &mut Rng) -> Vec<u8> {
    let all = alphabet.letters().len();
    let odd_ones = *rng.pick(&[0, 2, 8, 100]);
    (0..length)
        .map(|_| if rng.chance(odd_ones) { rng.below(all) as u8 } else { rng.below(4) as u8 })
        .collect()
}

/// An alphabet number and what it means.
pub fn alphabet(rng: &mut Rng) -> (u64, Alphabet) {
    match rng.between(1, 3) {
        3 => (3, Alphabet::Amino),
        number => (number as u64, Alphabet::Nucleic),
    }
}

/// A number that is no alphabet, also one whose low bytes would be.
pub fn wrong_alphabet(rng: &mut Rng) -> u64 {
    let low = rng.between(1, 3) as u64;
    *rng.pick(&[
        0,
        4,
        5,
        255,
        256 + low,
        65_536 + low,
        u32::MAX as u64,
        (1 << 32) + low,
        (1 << 63) + low,
        u64::MAX,
    ])
}

/// The rule of the alphabet's number, which a plan has in a field.
pub fn alphabet_rule<P: 'static>(alphabet: Alphabet, number: fn(&mut P) -> &mut u64) -> Rule<P> {
    let rule = rule(WRONG_TYPE, "the alphabet is 1, 2 or 3")
        .breaks("0", move |plan| *number(plan) = 0)
        .breaks("4", move |plan| *number(plan) = 4)
        .farther(move |plan, rng| *number(plan) = wrong_alphabet(rng));
    match alphabet {
        Alphabet::Nucleic => {
            rule.passes("1", move |plan| *number(plan) = 1).passes("2", move |plan| *number(plan) = 2)
        }
        Alphabet::Amino => rule.passes("3", move |plan| *number(plan) = 3),
    }
}

/// The console's rule of the two results, for which a plan has a size.
pub fn results_rule<P: 'static>(size: fn(&mut P) -> &mut usize) -> Rule<P> {
    rule(NO_ROOM, "the results have 16 bytes")
        .passes("16", move |plan| *size(plan) = 16)
        .breaks("15", move |plan| *size(plan) = 15)
        .farther(move |plan, rng| *size(plan) = rng.below(16))
}

/// A well-formed run of this many packets, not only such as packing makes.
pub fn run(alphabet: Alphabet, packets: usize, rng: &mut Rng) -> Vec<Packet> {
    let mut run: Vec<Packet> = (0..packets).map(|_| full_packet(alphabet, rng)).collect();
    let last = run.last_mut().expect("a run has a packet");
    if last.five_bit {
        let least = if packets == 1 { 0 } else { 1 };
        let kept = rng.between(least, 6);
        *last = five_bit_packet(&last.fields[..kept]);
    }
    last.ends_run = true;
    run
}

/// A packet full of residues; of either form for nucleic.
pub fn full_packet(alphabet: Alphabet, rng: &mut Rng) -> Packet {
    if alphabet == Alphabet::Nucleic && rng.chance(50) {
        return two_bit_packet(&bases(15, rng));
    }
    let all = alphabet.letters().len();
    let fields: Vec<u8> = (0..6).map(|_| rng.below(all) as u8).collect();
    five_bit_packet(&fields)
}

/// The numbers of a list of packets.
pub fn numbers(packets: &[Packet]) -> Vec<u32> {
    packets.iter().map(Packet::number).collect()
}
