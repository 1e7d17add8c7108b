//! Cases for decoding one sequence.

use super::decode_rules::{chosen, rules};
use super::dna::{entries, table, two_bit, Entry};
use super::order::Order;
use super::rng::Rng;
use super::rules::{by_chance, order, sides_and_pairs, Change, Damaged};
use super::samples::Samples;
use super::volumes::*;
use super::Case;
use crate::answers::*;
use crate::call::*;

/// A volume with good residues, and one of its sequences to decode.
fn volume(kind: i128, n: usize, rng: &mut Rng) -> Plan {
    let stored = sequences(kind, n, false, rng);
    let mut plan = Plan::new(kind, &stored, &vec![vec![]; n], rng);
    if n > 0 {
        let number = rng.below(n);
        choose(&mut plan, number, rng);
    }
    plan
}

/// Decodes this sequence into room for it, exactly or with some more.
fn choose(plan: &mut Plan, number: usize, rng: &mut Rng) {
    plan.number = number as u64;
    plan.room = plan.lengths[number] + *rng.pick(&[0, 0, 1, 7]);
}

/// A plan in which every rule can be broken: a title, a timestamp, a sequence of several residues.
fn to_damage(kind: i128, rng: &mut Rng) -> Plan {
    loop {
        let n = rng.between(1, 4);
        let plan = volume(kind, n, rng);
        if !plan.title.is_empty() && !plan.timestamp.is_empty() && plan.lengths[plan.number as usize] > 2 {
            return plan;
        }
    }
}

fn call(plan: &Plan, rng: &mut Rng) -> Call {
    let index = Argument::Range(plan.index());
    let sequence = Argument::Range(plan.sequence.clone());
    let output = Argument::Output(plan.room, rng.byte());
    Call::new(DECODE, vec![index, sequence, Argument::Number(plan.number), output])
}

/// Ambiguity ranges that are 12 over this many residues, at least 3.
fn bad_tables(residues: usize, rng: &mut Rng) -> Vec<(&'static str, Vec<u8>)> {
    let is_wide = rng.chance(50);
    let length = residues as i128;
    let entry = |start: i128, repeat: i128| Entry { value: 15, repeat, start };
    let last_offset = if is_wide { (1 << 48) - 1 } else { (1 << 24) - 1 };
    let good = table(is_wide, &entries(is_wide, residues, rng));
    let mut odd = vec![0x80, 0, 0, 1];
    odd.extend(rng.bytes(4));
    let mut more_said = table(is_wide, &[entry(0, 1)]);
    more_said[3] += 2;
    let mut far_more_said = table(is_wide, &[entry(0, 1)]);
    far_more_said[..4].copy_from_slice(&[if is_wide { 255 } else { 127 }, 255, 255, 254]);
    let mut bit_30 = table(is_wide, &[entry(0, 1)]);
    bit_30[0] += 0x40;
    let mut less_said = table(is_wide, &[entry(0, 1), entry(1, 1)]);
    less_said[3] /= 2;
    vec![
        ("a large count", bit_30),
        ("less said than there", less_said),
        ("less than a word", [0; 3][..rng.between(1, 3)].to_vec()),
        ("words missing", more_said),
        ("far more said than there", far_more_said),
        ("a byte behind", [&good[..], &[0]].concat()),
        ("a word behind", [&good[..], &[0; 4]].concat()),
        ("a byte missing", good[..good.len() - 1].to_vec()),
        ("an odd count of 64-bit words", odd),
        ("an overlap", table(is_wide, &[entry(0, 2), entry(1, 1)])),
        ("the same twice", table(is_wide, &[entry(1, 1), entry(1, 1)])),
        ("falling entries", table(is_wide, &[entry(2, 1), entry(0, 1)])),
        ("past the end by one", table(is_wide, &[entry(length - 1, 2)])),
        ("at the end", table(is_wide, &[entry(0, 1), entry(length, 1)])),
        ("the last offset", table(is_wide, &[entry(last_offset, 16)])),
    ]
}

pub fn planned(rng: &mut Rng, samples: &Samples) -> Vec<Case> {
    let mut cases = Vec::new();
    for (kind, title) in KINDS {
        cases.extend(sides_and_pairs(title, &rules(kind), rng, |rng| to_damage(kind, rng), call));
        cases.extend(elsewhere(kind, rng));
        cases.extend(numbers(kind, rng));
        cases.extend(rooms(kind, rng));
    }
    cases.extend(tables(rng));
    cases.extend(protein_bytes(rng));
    cases.extend(real(rng, samples));
    cases.extend(two_bit_bytes(rng));
    cases.extend(whole_bytes(rng));
    cases
}

pub fn orders() -> Vec<Order> {
    KINDS.map(|(kind, title)| order(DECODE, title, &rules(kind))).to_vec()
}

/// Faults that this sequence does not meet: other entries, header offsets, totals, the file's end.
fn elsewhere(kind: i128, rng: &mut Rng) -> Vec<Case> {
    let changes: [(&str, Change<Plan>); 5] = [
        ("wrong header offsets", |plan| plan.headers = vec![-7; plan.headers.len()]),
        ("wrong totals", |plan| (plan.count, plan.longest) = (77_777, 2_147_483_647)),
        ("bytes behind the file", |plan| plan.sequence.extend([1, 2, 3])),
        ("other offsets wrong", |plan| {
            for k in
                (0..plan.s.len()).filter(|k| *k != chosen(plan) && *k != chosen(plan) + 1).collect::<Vec<_>>()
            {
                (plan.s[k], plan.a[k]) = (-9, 2_147_483_647);
            }
        }),
        ("the next ambiguity offset wrong", |plan| {
            let i = chosen(plan);
            plan.a[i + 1] = -1;
        }),
    ];
    let mut cases = Vec::new();
    for (note, change) in changes {
        for _ in 0..3 {
            let mut plan = volume(kind, 4, rng);
            change(&mut plan);
            cases.push(Case::aimed(call(&plan, rng), 0, note));
        }
    }
    cases
}

/// Every number of a volume, the first beyond it, and a volume without sequences.
fn numbers(kind: i128, rng: &mut Rng) -> Vec<Case> {
    let mut cases = Vec::new();
    for n in 0..4 {
        let mut plan = volume(kind, n, rng);
        for number in 0..n {
            choose(&mut plan, number, rng);
            cases.push(Case::aimed(call(&plan, rng), 0, format!("number {number} of {n}")));
        }
        for number in [n as u64, 1 << 32, u64::MAX] {
            plan.number = number;
            cases.push(Case::aimed(call(&plan, rng), NO_SUCH_NUMBER, format!("number {number} of {n}")));
        }
    }
    cases
}

/// Exactly enough room, one byte less, and none.
fn rooms(kind: i128, rng: &mut Rng) -> Vec<Case> {
    let mut cases = Vec::new();
    for _ in 0..8 {
        let mut plan = to_damage(kind, rng);
        let length = plan.lengths[chosen(&plan)];
        for (room, aim) in [(length, 0), (length - 1, NO_ROOM), (0, NO_ROOM)] {
            plan.room = room;
            cases.push(Case::aimed(call(&plan, rng), aim, format!("room for {room} of {length}")));
        }
    }
    cases
}

/// Ambiguity tables that are 12, each at several lengths, and such as just pass.
fn tables(rng: &mut Rng) -> Vec<Case> {
    let mut cases = Vec::new();
    for residues in [3, 4, 5, 16, 17, 64, 5000] {
        for (aim, (note, range)) in bad_tables(residues, rng)
            .into_iter()
            .map(|table| (BAD_AMBIGUITY_TABLE, table))
            .chain(good_tables(residues, rng).into_iter().map(|table| (0, table)))
        {
            let one = Stored { residues, bytes: two_bit(residues, rng), range };
            let mut plan = Plan::new(0, &[one], &[vec![]], rng);
            choose(&mut plan, 0, rng);
            cases.push(Case::aimed(call(&plan, rng), aim, format!("{note}, {residues} residues")));
        }
    }
    cases
}

/// Ranges that are good over this many residues, at their limits.
fn good_tables(residues: usize, rng: &mut Rng) -> Vec<(&'static str, Vec<u8>)> {
    let length = residues as i128;
    let mut tables = vec![("no range", vec![])];
    for is_wide in [false, true] {
        let most = if is_wide { 4096.min(length) } else { 16.min(length) };
        let entry = |start: i128, repeat: i128, value: i128| Entry { value, repeat, start };
        let each: Vec<Entry> = (0..16.min(length)).map(|k| entry(k, 1, k)).collect();
        tables.push(("no entries", table(is_wide, &[])));
        tables.push(("up to the end", table(is_wide, &[entry(length - most, most, 15)])));
        tables.push(("the most at the start", table(is_wide, &[entry(0, most, 0)])));
        tables.push(("touching", table(is_wide, &[entry(0, 1, 1), entry(1, 1, 2), entry(2, 1, 4)])));
        tables.push(("every value", table(is_wide, &each)));
        tables.push(("by chance", table(is_wide, &entries(is_wide, residues, rng))));
    }
    tables
}

/// Every byte of a protein around 27.
fn protein_bytes(rng: &mut Rng) -> Vec<Case> {
    let mut cases = Vec::new();
    for value in (0..=40).chain([127, 128, 255]) {
        let one = Stored { residues: 1, bytes: vec![value, 0], range: vec![] };
        let mut plan = Plan::new(1, &[one], &[vec![]], rng);
        choose(&mut plan, 0, rng);
        let aim = if value <= 27 { 0 } else { BAD_PROTEIN_BYTE };
        cases.push(Case::aimed(call(&plan, rng), aim, format!("byte {value}")));
    }
    cases
}

/// Every two-bit byte, once whole and once as the last.
fn two_bit_bytes(rng: &mut Rng) -> Vec<Case> {
    let mut cases = Vec::new();
    for value in 0..=255 {
        let one = Stored { residues: 4 + value as usize % 4, bytes: vec![value; 2], range: vec![] };
        let mut plan = Plan::new(0, &[one], &[vec![]], rng);
        choose(&mut plan, 0, rng);
        cases.push(Case::aimed(call(&plan, rng), 0, format!("two-bit byte {value}")));
    }
    cases
}

/// So many whole bytes, counting on from a value, with 0 to 3 residues behind them; they start at any place of a block.
fn whole_bytes(rng: &mut Rng) -> Vec<Case> {
    let mut cases = Vec::new();
    for whole in (0..=66).chain([255, 256, 257, 1023]) {
        for more in 0..4 {
            let before = 4 * rng.below(17);
            let first = Stored { residues: before, bytes: two_bit(before, rng), range: vec![] };
            let mut bytes: Vec<u8> = (0..whole).map(|k| (k + whole) as u8).collect();
            bytes.push(4 * rng.below(64) as u8 + more as u8);
            let second = Stored { residues: 4 * whole + more, bytes, range: vec![] };
            let mut plan = Plan::new(0, &[first, second], &[vec![], vec![]], rng);
            choose(&mut plan, 1, rng);
            cases.push(Case::aimed(call(&plan, rng), 0, format!("{whole} whole bytes and {more} residues")));
        }
    }
    cases
}

/// Every sequence of the real volumes.
fn real(rng: &mut Rng, samples: &Samples) -> Vec<Case> {
    let mut cases = Vec::new();
    for volume in &samples.volumes {
        for (number, line) in volume.lines.iter().enumerate() {
            let index = Argument::Range(volume.index.clone());
            let sequence = Argument::Range(volume.sequence.clone());
            let output = Argument::Output(line.len() + rng.below(3), rng.byte());
            let call = Call::new(DECODE, vec![index, sequence, Argument::Number(number as u64), output]);
            cases.push(Case::free(call, format!("{} number {number}", volume.name)));
        }
    }
    cases
}

pub fn random(rng: &mut Rng) -> Case {
    let kind = rng.below(2) as i128;
    match rng.below(10) {
        0..=4 => {
            let n = rng.between(1, 6);
            Case::aimed(call(&volume(kind, n, rng), rng), 0, "valid")
        }
        5..=7 => {
            let plan = to_damage(kind, rng);
            let Damaged { plan, number, note } = by_chance(&rules(kind), rng, plan);
            Case::aimed(call(&plan, rng), number, note)
        }
        _ => {
            let n = rng.between(1, 3);
            let plan = volume(kind, n, rng);
            Case::free(super::spoiled(call(&plan, rng), &[0, 1], rng), "a byte changed")
        }
    }
}
