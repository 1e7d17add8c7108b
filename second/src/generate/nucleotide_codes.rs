//! Nucleic codes to write: stretches of one code, neighbours, alternating codes, and mixes by chance.

use super::rng::Rng;

/// The codes that get corrections: '-' and the eleven that stand for several bases.
pub const CORRECTED: std::ops::RangeInclusive<u8> = 4..=15;

/// The lengths of stretches around the most residues of an entry, once and twice, and past three times.
pub const STRETCHES: [usize; 8] = [1, 15, 16, 17, 31, 32, 33, 49];

/// So many bases by chance.
pub fn bases(length: usize, rng: &mut Rng) -> Vec<u8> {
    (0..length).map(|_| rng.below(4) as u8).collect()
}

/// Any code of 4 or more.
pub fn corrected(rng: &mut Rng) -> u8 {
    rng.between(4, 15) as u8
}

/// So many codes, the same two in turn.
pub fn alternating(one: u8, other: u8, length: usize) -> Vec<u8> {
    (0..length).map(|k| if k % 2 == 0 { one } else { other }).collect()
}

/// So many codes of which none is like the one before it, so that each of 4 or more has an entry of its own: first these
/// that have, then bases.
pub fn each_alone(entries: usize, length: usize) -> Vec<u8> {
    let mut codes = alternating(4, 15, entries);
    codes.extend(alternating(0, 3, length - entries));
    codes
}

/// Stretches by chance, as many percent of them of codes of 4 or more. They may touch, also those of one code.
pub fn mixed(length: usize, percent: usize, rng: &mut Rng) -> Vec<u8> {
    let mut codes = Vec::new();
    while codes.len() < length {
        if rng.chance(percent) {
            let stretch = if rng.chance(70) { rng.between(1, 5) } else { rng.between(1, 50) };
            codes.extend(vec![corrected(rng); stretch]);
        } else {
            let stretch = rng.between(1, 30);
            codes.extend(bases(stretch, rng));
        }
    }
    codes.truncate(length);
    codes
}

/// A length, mostly short, 0 among them.
pub fn length(rng: &mut Rng) -> usize {
    match rng.below(20) {
        0..=4 => rng.below(9),
        5..=14 => rng.below(70),
        15..=18 => rng.below(500),
        _ => rng.between(500, 2500),
    }
}
