//! Cases for a whole page: its rules at each place of the list, items that are refused, two of them in one list, tables
//! of corrections, and the real volumes.

use super::dna::{entries, table, two_bit};
use super::order::Order;
use super::page_lists::{self, by_room, volume, volume_of};
use super::page_rules::*;
use super::rng::Rng;
use super::rules::{by_chance, order, sides_and_pairs, Damaged};
use super::samples::{SampleVolume, Samples};
use super::volumes::{self, Stored, KINDS};
use super::Case;
use crate::answers::*;
use crate::call::*;

pub fn planned(rng: &mut Rng, samples: &Samples) -> Vec<Case> {
    let mut cases = Vec::new();
    for (kind, title, before, behind) in PLACES {
        let valid = |rng: &mut Rng| to_damage(kind, before, behind, rng);
        let made = sides_and_pairs(title, &rules(kind), rng, valid, |plan: &Plan, rng| plan.call(rng));
        cases.extend(made.into_iter().map(|case| aiming_behind(case, before)));
    }
    for (kind, _) in KINDS {
        cases.extend(refused_items(kind, rng));
        cases.extend(two_refused(kind, rng));
        cases.extend(faults_elsewhere(kind, rng));
    }
    cases.extend(page_lists::planned(rng));
    cases.extend(corrected(rng));
    cases.extend(samples.volumes.iter().flat_map(|volume| real(volume, rng)));
    cases
}

pub fn orders() -> Vec<Order> {
    PLACES.map(|(kind, title, _, _)| order(PAGE, title, &rules(kind))).to_vec()
}

/// The case with as many items done as its number lets be, where the damaged item stands behind so many.
fn aiming_behind(case: Case, before: usize) -> Case {
    let done = done(&case.call, before, case.aim.expect("an aimed case"));
    case.with_done(done)
}

/// Every rule of an item broken at each place of a list of five.
fn refused_items(kind: i128, rng: &mut Rng) -> Vec<Case> {
    let mut cases = Vec::new();
    // The first rule is that of the ends; numbers up to 6 are the index's.
    for rule in rules(kind).iter().skip(1).filter(|rule| rule.number > LEFT_OVER) {
        for before in 0..5 {
            let mut plan = to_damage(kind, before, 4 - before, rng);
            (rule.first[0].apply)(&mut plan);
            let note = format!("not so behind {before} items: {}", rule.name);
            cases.push(Case::aimed(plan.call(rng), rule.number, note).with_done(before));
        }
    }
    cases
}

/// Makes a sequence refused with this number.
fn spoil(volume: &mut volumes::Plan, item: usize, number: u32) {
    match number {
        BAD_AMBIGUITY_TABLE => volume.replace(item, |one| one.range = vec![0]),
        BAD_PROTEIN_BYTE => volume.put(volume.s[item], 28),
        NO_SEPARATOR => volume.put(volume.s[item] - 1, 1),
        BAD_OFFSETS => volume.s[item] = -1,
        _ => {}
    }
}

/// Two items that are refused with different numbers: the one that stands first in the list decides, whichever number a
/// single fetch asks first.
fn two_refused(kind: i128, rng: &mut Rng) -> Vec<Case> {
    let numbers: &[u32] = if kind == 1 {
        &[NO_SUCH_NUMBER, BAD_OFFSETS, NO_SEPARATOR, BAD_PROTEIN_BYTE, NO_ROOM]
    } else {
        &[NO_SUCH_NUMBER, BAD_OFFSETS, BAD_AMBIGUITY_TABLE, NO_ROOM]
    };
    let mut cases = Vec::new();
    for first in numbers {
        for second in numbers.iter().filter(|second| *second != first) {
            let mut volume = volume_of(kind, &[4; 8], rng);
            // A volume is laid out anew for a bad table, so that comes before the offsets.
            let mut faults = [(1, *first), (5, *second)];
            faults.sort_by_key(|(_, number)| *number != BAD_AMBIGUITY_TABLE);
            faults.into_iter().for_each(|(item, number)| spoil(&mut volume, item, number));
            let named = |item: u64, number: u32| if number == NO_SUCH_NUMBER { 8 } else { item };
            let list = vec![3, named(1, *first), 7, named(5, *second), 3];
            let room = if *first == NO_ROOM { 7 } else { 8 };
            let call = call(&volume, list, room, 5, rng);
            cases.push(Case::aimed(call, *first, format!("{first} before {second}")).with_done(1));
        }
    }
    cases
}

/// Faults that no item of the list meets.
fn faults_elsewhere(kind: i128, rng: &mut Rng) -> Vec<Case> {
    let mut cases = Vec::new();
    for fault in [BAD_OFFSETS, NO_SEPARATOR, BAD_PROTEIN_BYTE, BAD_AMBIGUITY_TABLE] {
        let is_of_kind = fault == BAD_OFFSETS || (fault == BAD_AMBIGUITY_TABLE) == (kind == 0);
        for _ in 0..if is_of_kind { 3 } else { 0 } {
            let mut volume = volume_of(kind, &[4; 6], rng);
            spoil(&mut volume, 2, fault);
            volume.headers = vec![-7; 7];
            (volume.count, volume.longest) = (77_777, 2_147_483_647);
            volume.sequence.extend([1, 2, 3]);
            let list: Vec<u64> = (0..6).map(|_| *rng.pick(&[0, 4, 5])).collect();
            cases.push(by_room(&volume, &list, 24, rng, "faults elsewhere"));
        }
    }
    cases
}

/// DNA with tables of corrections of both widths, in several orders.
fn corrected(rng: &mut Rng) -> Vec<Case> {
    let mut cases = Vec::new();
    for widths in [[false; 4], [true; 4], [false, true, false, true]] {
        let one = |(residues, is_wide): (usize, bool), rng: &mut Rng| Stored {
            residues,
            bytes: two_bit(residues, rng),
            range: table(is_wide, &entries(is_wide, residues, rng)),
        };
        let content: Vec<Stored> =
            [16, 17, 64, 4200].into_iter().zip(widths).map(|sort| one(sort, rng)).collect();
        let volume = volumes::Plan::new(0, &content, &vec![vec![]; 4], rng);
        for list in [vec![0, 1, 2, 3], vec![3, 2, 1, 0], vec![3, 3, 3], vec![2, 0, 2, 3, 1]] {
            for less in [0, 1] {
                let room = needed(&volume, &list) - less;
                cases.push(by_room(&volume, &list, room, rng, "corrections"));
            }
        }
    }
    cases
}

/// Fetches these numbers of a real volume.
fn real_call(volume: &SampleVolume, numbers: &[u64], room: usize, ends: usize, rng: &mut Rng) -> Call {
    let files = [volume.index.clone(), volume.sequence.clone()];
    let mut arguments: Vec<Argument> = files.into_iter().map(Argument::Range).collect();
    arguments.push(Argument::NumberList(numbers.to_vec()));
    arguments.push(Argument::Output(room, rng.byte()));
    arguments.push(Argument::NumberOutput(ends, rng.number()));
    Call::new(PAGE, arguments)
}

/// A real volume as one page: in order, turned round with a number twice, cut short by a byte, an end or a number that is
/// not there. An index of another version has no sequences.
fn real(volume: &SampleVolume, rng: &mut Rng) -> Vec<Case> {
    let count = volume.lines.len();
    let mut cases = Vec::new();
    let mut add = |numbers: &[u64], room, ends, aim, done, rng: &mut Rng| {
        let note = format!("{} of {} as a page: {done}", numbers.len(), volume.name);
        cases.push(Case::aimed(real_call(volume, numbers, room, ends, rng), aim, note).with_done(done));
    };
    add(&[], 3, 1, 0, 0, rng);
    if count == 0 {
        add(&[0, 0], 3, 2, WRONG_VERSION, 0, rng);
        return cases;
    }
    let forwards: Vec<u64> = (0..count as u64).collect();
    let mut backwards: Vec<u64> = forwards.iter().rev().copied().collect();
    backwards.push(backwards[0]);
    let length = |number: &u64| volume.lines[*number as usize].len();
    let all: usize = forwards.iter().map(length).sum();
    let last = backwards.len();
    add(&forwards, all, count, 0, count, rng);
    add(&backwards, all + length(&backwards[0]) + 5, last + 2, 0, last, rng);
    add(&forwards, all - 1, count, NO_ROOM, count - 1, rng);
    add(&forwards, all, count - 1, NO_ROOM, 0, rng);
    backwards[last - 1] = count as u64;
    add(&backwards, all, last, NO_SUCH_NUMBER, count, rng);
    cases
}

pub fn random(rng: &mut Rng) -> Case {
    let kind = rng.below(2) as i128;
    match rng.below(10) {
        0..=4 => listed(kind, rng),
        5..=7 => {
            let (before, behind) = (rng.below(6), rng.below(3));
            let plan = to_damage(kind, before, behind, rng);
            let Damaged { plan, number, note } = by_chance(&rules(kind), rng, plan);
            aiming_behind(Case::aimed(plan.call(rng), number, note), before)
        }
        _ => {
            let case = listed(kind, rng);
            Case::free(super::spoiled(case.call, &[0, 1], rng), "a byte changed")
        }
    }
}

/// A list by chance over a good volume, now and then with a number that is not there, or with less room than it needs.
fn listed(kind: i128, rng: &mut Rng) -> Case {
    let n = rng.between(1, 6);
    let volume = volume(kind, n, rng);
    let mut list: Vec<u64> = (0..rng.below(12)).map(|_| rng.below(n) as u64).collect();
    while needed(&volume, &list) > MOST_RANGE {
        list.pop();
    }
    let room = needed(&volume, &list);
    let room = if rng.chance(30) { rng.below(room + 1) } else { (room + rng.below(3)).min(MOST_RANGE) };
    if !list.is_empty() && rng.chance(20) {
        let place = rng.below(list.len());
        list[place] = *rng.pick(&[n as u64, u64::MAX]);
    }
    by_room(&volume, &list, room, rng, "a list by chance")
}
