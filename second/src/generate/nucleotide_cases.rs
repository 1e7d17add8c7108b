//! Cases for writing nucleotides.

use super::nucleotide_codes::*;
use super::nucleotide_rules::*;
use super::order::Order;
use super::rng::Rng;
use super::rules::{by_chance, order, sides_and_pairs, Damaged};
use super::samples::{SampleVolume, Samples};
use super::Case;
use crate::answers::*;
use crate::call::*;
use crate::residues::Alphabet;
use crate::sequence::decode;

pub fn planned(rng: &mut Rng, samples: &Samples) -> Vec<Case> {
    let mut cases = Vec::new();
    for (has_table, title) in CONTENTS {
        let valid = |rng: &mut Rng| to_damage(has_table, rng);
        let call = |plan: &Plan, rng: &mut Rng| plan.call(rng);
        cases.extend(sides_and_pairs(title, &rules(has_table), rng, valid, call));
    }
    cases.extend(every_code(rng));
    cases.extend(bad_places(rng));
    cases.extend(lengths(rng));
    cases.extend(stretches(rng));
    cases.extend(neighbours(rng));
    cases.extend(turns(rng));
    cases.extend(rooms(rng));
    cases.extend(longest(rng));
    cases.extend(samples.volumes.iter().flat_map(|volume| real(volume, rng)));
    cases.extend((0..500).map(|_| random(rng)));
    cases
}

pub fn orders() -> Vec<Order> {
    CONTENTS.map(|(has_table, title)| order(WRITE_NUCLEOTIDES, title, &rules(has_table))).to_vec()
}

/// A plan in which every rule can be broken: it has several codes, and one of 4 or more where it shall have a table.
fn to_damage(has_table: bool, rng: &mut Rng) -> Plan {
    let length = length(rng).max(3);
    let mut codes = bases(length, rng);
    if has_table {
        codes = mixed(length, 30, rng);
        let place = rng.below(length);
        codes[place] = corrected(rng);
    }
    Plan::new(codes, rng)
}

/// Codes with room for them.
fn written(codes: Vec<u8>, note: impl Into<String>, rng: &mut Rng) -> Case {
    Case::aimed(Plan::new(codes, rng).call(rng), 0, note)
}

/// Codes in so much room.
fn in_room(codes: Vec<u8>, room: usize, note: impl Into<String>, rng: &mut Rng) -> Case {
    let aim = if room < needed(&codes) { NO_ROOM } else { 0 };
    Case::aimed(Plan { codes, room }.call(rng), aim, note)
}

/// Every code around the last valid one alone, and at each of the four places of a byte.
fn every_code(rng: &mut Rng) -> Vec<Case> {
    let mut cases = Vec::new();
    for code in (0..=40).chain([127, 128, 255]) {
        let aim = if Alphabet::Nucleic.is_code(code) { 0 } else { BAD_CODE };
        let plan = Plan::new(vec![code], rng);
        cases.push(Case::aimed(plan.call(rng), aim, format!("code {code}")));
    }
    for (code, place) in (0..=15).flat_map(|code| (0..4).map(move |place| (code, place))) {
        let base = rng.below(4) as u8;
        let mut codes = vec![base; 4 + rng.below(4)];
        codes[place] = code;
        cases.push(written(codes, format!("code {code} at {place} among {base}"), rng));
    }
    cases
}

/// A code of 16 at each place of a short list, where there is room and where there is none, or a byte too little.
fn bad_places(rng: &mut Rng) -> Vec<Case> {
    let mut cases = Vec::new();
    for (length, place) in (1..=9).flat_map(|length| (0..length).map(move |place| (length, place))) {
        let mut plan = Plan::new(mixed(length, 30, rng), rng);
        plan.codes[place] = 16;
        for room in [needed(&plan.codes), needed(&plan.codes) - 1, 0] {
            plan.room = room;
            let note = format!("16 at {place} of {length}, {room} bytes");
            cases.push(Case::aimed(plan.call(rng), BAD_CODE, note));
        }
    }
    cases
}

/// Every length up to some bytes, each with what is left over of four: bases alone, one code alone, and with a code of 4 or
/// more at both ends.
fn lengths(rng: &mut Rng) -> Vec<Case> {
    let mut cases = Vec::new();
    for length in 0..=40 {
        cases.push(written(bases(length, rng), format!("{length} bases"), rng));
        cases.push(written(vec![3; length], format!("{length} T's"), rng));
        cases.push(written(vec![15; length], format!("{length} N's"), rng));
        cases.push(written(vec![4; length], format!("{length} gaps"), rng));
        let mut codes = bases(length, rng);
        if length > 1 {
            (codes[0], codes[length - 1]) = (corrected(rng), corrected(rng));
            cases.push(written(codes, format!("corrections at both ends of {length}"), rng));
        }
    }
    cases
}

/// Stretches of every code of 4 or more around whole pieces: alone, at the start, between bases, and at the end.
fn stretches(rng: &mut Rng) -> Vec<Case> {
    let mut cases = Vec::new();
    for (code, length) in CORRECTED.flat_map(|code| STRETCHES.map(|length| (code, length))) {
        let (before, behind) = (rng.between(1, 9), rng.between(1, 9));
        for (before, behind) in [(0, 0), (0, behind), (before, behind), (before, 0)] {
            let codes = [bases(before, rng), vec![code; length], bases(behind, rng)].concat();
            cases.push(written(codes, format!("{length} of code {code} behind {before}"), rng));
        }
    }
    cases
}

/// Two codes, every pair; then stretches that touch, of two codes or of one again behind a base.
fn neighbours(rng: &mut Rng) -> Vec<Case> {
    let mut cases = Vec::new();
    for (one, other) in (0..=15).flat_map(|one| (0..=15).map(move |other| (one, other))) {
        cases.push(written(vec![one, other], format!("codes {one} and {other}"), rng));
    }
    for (first, second) in [(1, 1), (2, 2), (15, 2), (16, 1), (16, 16), (17, 17), (33, 16)] {
        let (one, step) = (corrected(rng), rng.between(1, 11) as u8);
        let other = 4 + (one - 4 + step) % 12;
        for between in [vec![], vec![rng.below(4) as u8]] {
            for next in [one, other] {
                let codes = [vec![one; first], between.clone(), vec![next; second]].concat();
                cases.push(written(codes, format!("{first} of {one}, {second} of {next}"), rng));
            }
        }
    }
    cases
}

/// Codes in turn: two of 4 or more, one and a base, or all of them.
fn turns(rng: &mut Rng) -> Vec<Case> {
    let mut cases = Vec::new();
    for length in [3, 16, 17, 33, 100, 3853] {
        let one = corrected(rng);
        let other = 4 + (one - 3) % 12;
        cases.push(written(alternating(one, other, length), format!("{one} and {other} in turn"), rng));
        cases.push(written(alternating(4, 5, length), "4 and 5 in turn", rng));
        cases.push(written(alternating(one, 0, length), format!("{one} and A in turn"), rng));
        cases.push(written(alternating(3, one, length), format!("T and {one} in turn"), rng));
        cases.push(written((0..length).map(|k| (k % 16) as u8).collect(), "all codes in turn", rng));
    }
    cases
}

/// Every length of the output up to some bytes more than are needed.
fn rooms(rng: &mut Rng) -> Vec<Case> {
    let mut lists = vec![vec![], vec![0, 1, 2, 3], bases(21, rng), vec![15], vec![4, 4, 15, 15, 5, 0]];
    lists.extend([vec![15; 17], alternating(4, 5, 6), mixed(30, 40, rng)]);
    let mut cases = Vec::new();
    for codes in lists {
        for room in 0..=needed(&codes) + 3 {
            let note = format!("{} codes in {room} bytes", codes.len());
            cases.push(in_room(codes.clone(), room, note, rng));
        }
    }
    cases
}

/// The longest lists and outputs of the protocol, with just as many entries as have room there, and one byte too much.
fn longest(rng: &mut Rng) -> Vec<Case> {
    let mut bad = bases(MOST_RANGE, rng);
    bad[MOST_RANGE - 1] = 16;
    let mut cases = vec![Case::aimed(Plan { codes: bad, room: 4097 }.call(rng), BAD_CODE, "16 as the last")];
    let most = MOST_RANGE;
    let mut add = |codes: Vec<u8>, bytes: usize, rng: &mut Rng| {
        assert_eq!(needed(&codes), bytes);
        for room in [bytes.min(most), bytes.min(most) - 1, most] {
            cases.push(in_room(codes.clone(), room, format!("{} codes, {bytes} bytes", codes.len()), rng));
        }
    };
    for length in [most - 4, most - 3, most - 2, most - 1, most] {
        let two_bit = length / 4 + 1;
        add(bases(length, rng), two_bit, rng);
        add(vec![15; length], two_bit + 4 + 4 * length.div_ceil(16), rng);
        // 3,071 entries: 16,384 bytes, and one more for the longest list.
        add(each_alone(3071, length), two_bit + 4 + 4 * 3071, rng);
    }
    add(alternating(4, 5, 3853), 16_380, rng);
    add(alternating(4, 5, 3854), 16_384, rng);
    add(alternating(4, 5, 3855), 16_388, rng);
    add(alternating(4, 5, most), 4097 + 4 + 4 * most, rng);
    cases
}

/// Every sequence of a real nucleotide volume, as it decodes, and some of them with a byte too little.
fn real(volume: &SampleVolume, rng: &mut Rng) -> Vec<Case> {
    let mut cases = Vec::new();
    let count = if volume.alphabet == Alphabet::Nucleic { volume.lines.len() } else { 0 };
    for number in 0..count {
        let mut codes = vec![0; volume.lines[number].len()];
        let answer = decode(&volume.index, &volume.sequence, number as i128, &mut codes);
        assert_eq!(answer, Ok(codes.len() as i128), "{} {number}", volume.name);
        let note = format!("{} number {number}", volume.name);
        cases.push(written(codes.clone(), note.clone(), rng));
        if number % 4 == 0 {
            let room = needed(&codes) - 1;
            cases.push(in_room(codes, room, note, rng));
        }
    }
    cases
}

pub fn random(rng: &mut Rng) -> Case {
    match rng.below(10) {
        0..=4 => {
            let (length, percent) = (length(rng), *rng.pick(&[0, 3, 20, 60, 100]));
            written(mixed(length, percent, rng), format!("a mix of {percent}%"), rng)
        }
        5 => {
            let length = length(rng);
            let codes = (0..length).map(|_| rng.below(16) as u8).collect();
            written(codes, "codes by chance", rng)
        }
        6..=7 => {
            let length = length(rng);
            let codes = mixed(length, 30, rng);
            let room = rng.below(needed(&codes) + 3);
            in_room(codes, room, "room by chance", rng)
        }
        _ => {
            let (has_table, _) = *rng.pick(&CONTENTS);
            let plan = to_damage(has_table, rng);
            let Damaged { plan, number, note } = by_chance(&rules(has_table), rng, plan);
            Case::aimed(plan.call(rng), number, note)
        }
    }
}
