//! Pages by their lists: empty ones, repeats, numbers that are not there, rooms, ends, and the longest that the protocol
//! takes.

use super::page_rules::{call, needed};
use super::rng::Rng;
use super::volumes::{sequences, stored, Plan, KINDS};
use super::Case;
use crate::answers::*;
use crate::call::*;

/// A volume of good sequences of these lengths.
pub fn volume_of(kind: i128, lengths: &[usize], rng: &mut Rng) -> Plan {
    let content: Vec<_> = lengths.iter().map(|residues| stored(kind, *residues, false, rng)).collect();
    Plan::new(kind, &content, &vec![vec![]; lengths.len()], rng)
}

/// A volume of n good sequences by chance.
pub fn volume(kind: i128, n: usize, rng: &mut Rng) -> Plan {
    Plan::new(kind, &sequences(kind, n, false, rng), &vec![vec![]; n], rng)
}

/// How many items of a list are done in so much room, each whole behind those before it, and the number that ends it.
pub fn fitting(volume: &Plan, numbers: &[u64], room: usize) -> (u32, usize) {
    let mut left = room;
    for (done, number) in numbers.iter().enumerate() {
        let Some(length) = volume.lengths.get(*number as usize) else { return (NO_SUCH_NUMBER, done) };
        if *length > left {
            return (NO_ROOM, done);
        }
        left -= length;
    }
    (0, numbers.len())
}

/// A case whose outcome follows from the lengths and the room, with an end for each number.
pub fn by_room(volume: &Plan, numbers: &[u64], room: usize, rng: &mut Rng, note: &str) -> Case {
    let (aim, done) = fitting(volume, numbers, room);
    let call = call(volume, numbers.to_vec(), room, numbers.len() + *rng.pick(&[0, 0, 1, 9]), rng);
    Case::aimed(call, aim, format!("{note}: {done} of {}", numbers.len())).with_done(done)
}

pub fn planned(rng: &mut Rng) -> Vec<Case> {
    let mut cases = no_numbers(rng);
    for (kind, _) in KINDS {
        cases.extend(one_number(kind, rng));
        cases.extend(repeats(kind, rng));
        cases.extend(missing_numbers(kind, rng));
        cases.extend(rooms(kind, rng));
        cases.extend(ends(kind, rng));
        cases.extend(short_ends_first(kind, rng));
        cases.extend(longest_lists(kind, rng));
        cases.extend(many_sequences(kind, rng));
    }
    cases
}

/// An empty list succeeds, whatever the index and the sequence file are, and changes nothing.
fn no_numbers(rng: &mut Rng) -> Vec<Case> {
    let mut cases = Vec::new();
    for (kind, _) in KINDS {
        let good = volume(kind, 3, rng);
        let mut cut = good.clone();
        cut.cut = Some((1, 3));
        let indexes = [good.index(), cut.index(), vec![], rng.bytes(40)];
        let files = [good.sequence.clone(), vec![], rng.bytes(9)];
        for index in &indexes {
            for file in &files {
                let (room, ends) = (*rng.pick(&[0, 1, 20]), *rng.pick(&[0, 1, 3]));
                let mut call = call(&good, vec![], room, ends, rng);
                call.arguments[0] = Argument::Range(index.clone());
                call.arguments[1] = Argument::Range(file.clone());
                cases.push(Case::aimed(call, 0, "an empty list").with_done(0));
            }
        }
    }
    cases
}

/// Every number of a volume alone, the first beyond it, and a volume without sequences.
fn one_number(kind: i128, rng: &mut Rng) -> Vec<Case> {
    let mut cases = Vec::new();
    for n in 0..4 {
        let volume = volume(kind, n, rng);
        for number in (0..n as u64).chain([n as u64, 1 << 32, u64::MAX]) {
            let room = volume.lengths.get(number as usize).map_or(7, |length| length + rng.below(2));
            cases.push(by_room(&volume, &[number], room, rng, "a list of one"));
        }
    }
    cases
}

/// A number may repeat, next to itself and behind others.
fn repeats(kind: i128, rng: &mut Rng) -> Vec<Case> {
    let volume = volume_of(kind, &[3, 0, 17, 4], rng);
    let lists: [Vec<u64>; 8] = [
        vec![0, 0],
        vec![1, 1],
        vec![2, 2, 2],
        vec![0, 1, 0, 1],
        vec![3, 2, 1, 0, 1, 2, 3],
        vec![2; 50],
        (0..50).map(|k| k % 4).collect(),
        (0..50).map(|k| 3 - k % 4).collect(),
    ];
    let mut cases = Vec::new();
    for list in &lists {
        for more in [0, 1, 30] {
            let room = needed(&volume, list) + more;
            cases.push(by_room(&volume, list, room, rng, "repeats"));
        }
    }
    cases
}

/// A number that is not there at each place of a list, also one whose low bytes would be there.
fn missing_numbers(kind: i128, rng: &mut Rng) -> Vec<Case> {
    let mut cases = Vec::new();
    for missing in [4, 5, (1 << 32) + 1, (1 << 63) + 1, u64::MAX] {
        for place in 0..5 {
            let volume = volume_of(kind, &[2, 5, 0, 9], rng);
            let mut list: Vec<u64> = (0..5).map(|_| rng.below(4) as u64).collect();
            let room = needed(&volume, &list);
            list[place] = missing;
            cases.push(by_room(&volume, &list, room, rng, "a number that is not there"));
        }
    }
    cases
}

/// Outputs of every length up to one more than a list needs: they end inside an item, at an item's end, and where an empty
/// item is next. Behind the one that does not fit stand smaller ones that would.
fn rooms(kind: i128, rng: &mut Rng) -> Vec<Case> {
    let lists: [&[u64]; 6] =
        [&[0, 1, 2, 3, 4], &[1, 3, 0], &[2, 4, 1], &[4, 2, 0, 4], &[0, 0, 0, 1], &[3, 1]];
    let mut cases = Vec::new();
    for list in lists {
        let volume = volume_of(kind, &[2, 0, 3, 0, 1], rng);
        for room in 0..=needed(&volume, list) + 1 {
            cases.push(by_room(&volume, list, room, rng, &format!("room for {room}")));
        }
    }
    cases
}

/// Lists of ends of every sort: none, one short, exact, longer, the longest.
fn ends(kind: i128, rng: &mut Rng) -> Vec<Case> {
    let mut cases = Vec::new();
    for items in [1, 2, 3, 50] {
        let volume = volume_of(kind, &[2, 5, 0, 9], rng);
        let list: Vec<u64> = (0..items).map(|_| rng.below(4) as u64).collect();
        for ends in [0, items - 1, items, items + 1, MOST_NUMBERS] {
            let call = call(&volume, list.clone(), needed(&volume, &list), ends, rng);
            let (aim, done) = if ends < items { (NO_ROOM, 0) } else { (0, items) };
            let note = format!("{ends} ends for {items} numbers");
            cases.push(Case::aimed(call, aim, note).with_done(done));
        }
    }
    cases
}

/// Too few ends are refused before any work: before the index, the numbers and the room, and nothing is written.
fn short_ends_first(kind: i128, rng: &mut Rng) -> Vec<Case> {
    let mut cases = Vec::new();
    for ends in [0, 1, 3] {
        let volume = volume_of(kind, &[2, 5, 0, 9], rng);
        let list: Vec<u64> = vec![0, 1, 2, 3];
        let (none, all) = (vec![], volume.index());
        for (index, list, room) in [
            (none, list.clone(), 16),
            (all[..all.len() - 1].to_vec(), list.clone(), 16),
            (all.clone(), vec![9, 0, 1, 2], 16),
            (all.clone(), vec![0, 1, 2, 9], 16),
            (all.clone(), list.clone(), 0),
            (all, list, 3),
        ] {
            let mut call = call(&volume, list, room, ends, rng);
            call.arguments[0] = Argument::Range(index);
            let note = format!("{ends} ends for 4 numbers, and another fault");
            cases.push(Case::aimed(call, NO_ROOM, note).with_done(0));
        }
    }
    cases
}

/// As many numbers as the protocol takes: of empty items, of items of one residue, and of items that fill the longest
/// output; the last of them refused, or one end missing.
fn longest_lists(kind: i128, rng: &mut Rng) -> Vec<Case> {
    let volume = volume_of(kind, &[0, 1, 8], rng);
    let mut cases = Vec::new();
    for number in 0..3 {
        let mut list = vec![number; MOST_NUMBERS];
        let room = needed(&volume, &list);
        let short = call(&volume, list.clone(), room, MOST_NUMBERS - 1, rng);
        cases.push(Case::aimed(short, NO_ROOM, "one end short of the longest list").with_done(0));
        for room in [room, room.saturating_sub(1)] {
            cases.push(longest(&volume, &list, room, rng));
        }
        list[MOST_NUMBERS - 1] = 3;
        cases.push(longest(&volume, &list, room, rng));
        list[0] = 3;
        cases.push(longest(&volume, &list, room, rng));
    }
    cases
}

/// A list of the most numbers with as many ends.
fn longest(volume: &Plan, list: &[u64], room: usize, rng: &mut Rng) -> Case {
    let (aim, done) = fitting(volume, list, room);
    let call = call(volume, list.to_vec(), room, list.len(), rng);
    Case::aimed(call, aim, "the longest list").with_done(done)
}

/// A whole volume of many sequences as one page, forwards and backwards.
fn many_sequences(kind: i128, rng: &mut Rng) -> Vec<Case> {
    let lengths: Vec<usize> = (0..500).map(|_| rng.below(6)).collect();
    let volume = volume_of(kind, &lengths, rng);
    let forwards: Vec<u64> = (0..500).collect();
    let backwards: Vec<u64> = (0..500).rev().collect();
    let room = needed(&volume, &forwards);
    vec![
        by_room(&volume, &forwards, room, rng, "a volume of 500"),
        by_room(&volume, &backwards, room, rng, "a volume of 500, backwards"),
        by_room(&volume, &forwards, room / 2, rng, "a volume of 500, half the room"),
    ]
}
