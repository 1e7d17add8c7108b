//! Cases for unpacking: on packets, and the console's.

use super::order::Order;
use super::rng::Rng;
use super::rules::{by_chance, order, sides_and_pairs, Damaged};
use super::samples::Samples;
use super::unpack_rules::rules;
use super::{runs, Case};
use crate::answers::*;
use crate::call::*;
use crate::packets::{five_bit_packet, residues_of, run_of, Packet, NO_RESIDUE};
use crate::residues::Alphabet;

/// What an unpacking call gets. `extra` bytes behind the packets and `results` only the console's call has.
#[derive(Clone, Debug)]
pub struct Plan {
    pub number: u64,
    pub alphabet: Alphabet,
    pub packets: Vec<Packet>,
    pub extra: usize,
    pub room: usize,
    pub results: usize,
}

impl Plan {
    fn new(number: u64, alphabet: Alphabet, packets: Vec<Packet>, rng: &mut Rng) -> Plan {
        let room = residues_of(&runs::numbers(&packets)).len() + *rng.pick(&[0, 0, 1, 9]);
        let results = 16 + *rng.pick(&[0, 0, 1, 8]);
        Plan { number, alphabet, packets, extra: 0, room: room.min(MOST_RANGE), results }
    }

    /// A well-formed run of several packets, the last one with a residue and a 31.
    fn to_damage(alphabet: Alphabet, rng: &mut Rng) -> Plan {
        let number = if alphabet == Alphabet::Amino { 3 } else { rng.between(1, 2) as u64 };
        let count = rng.between(3, 6);
        let mut packets = runs::run(alphabet, count, rng);
        let kept = rng.between(1, 5);
        let fields: Vec<u8> = (0..kept).map(|_| rng.below(16) as u8).collect();
        packets[count - 1] = five_bit_packet(&fields);
        packets[count - 1].ends_run = true;
        Plan::new(number, alphabet, packets, rng)
    }

    fn by_chance(rng: &mut Rng) -> Plan {
        let (number, alphabet) = runs::alphabet(rng);
        let count = if rng.chance(30) { 1 } else { rng.between(1, 30) };
        let packets = runs::run(alphabet, count, rng);
        Plan::new(number, alphabet, packets, rng)
    }

    fn call(self, byte: u8, rng: &mut Rng) -> Call {
        let alphabet = Argument::Number(self.number);
        let packets = runs::numbers(&self.packets);
        let output = Argument::Output(self.room, rng.byte());
        if byte == UNPACK {
            return Call::new(byte, vec![alphabet, Argument::PacketRange(packets), output]);
        }
        let mut bytes: Vec<u8> = packets.iter().flat_map(|packet| packet.to_le_bytes()).collect();
        bytes.extend(rng.bytes(self.extra));
        let results = Argument::Output(self.results, rng.byte());
        Call::new(byte, vec![alphabet, Argument::Range(bytes), output, results])
    }

    pub fn last_but_one(&mut self) -> &mut Packet {
        let at = self.packets.len() - 2;
        &mut self.packets[at]
    }

    /// How many residues the run has, or would have.
    pub fn residues(&self) -> usize {
        residues_of(&runs::numbers(&self.packets)).len()
    }

    pub fn last(&mut self) -> &mut Packet {
        self.packets.last_mut().expect("the run has a packet")
    }
}

pub fn planned(byte: u8, rng: &mut Rng, samples: &Samples) -> Vec<Case> {
    let mut cases = Vec::new();
    for (alphabet, title) in runs::ALPHABETS {
        let rules = rules(byte, alphabet);
        let call = |plan: &Plan, rng: &mut Rng| plan.clone().call(byte, rng);
        cases.extend(sides_and_pairs(title, &rules, rng, |rng| Plan::to_damage(alphabet, rng), call));
    }
    cases.extend(fields(byte, rng));
    cases.extend(rooms(byte, rng));
    cases.extend(long_runs(byte, rng));
    cases.extend(real(byte, rng, samples));
    if byte == CONSOLE_UNPACK {
        cases.extend(byte_lengths(byte, rng));
    }
    cases
}

pub fn orders(byte: u8) -> Vec<Order> {
    runs::ALPHABETS.map(|(alphabet, title)| order(byte, title, &rules(byte, alphabet))).to_vec()
}

/// Every value of a field, first, third and last of a last packet, and every length of its tail.
fn fields(byte: u8, rng: &mut Rng) -> Vec<Case> {
    let mut cases = Vec::new();
    for (number, alphabet) in [(1, Alphabet::Nucleic), (3, Alphabet::Amino)] {
        for (code, at) in (0..32).flat_map(|code| [(code, 0), (code, 2), (code, 5)]) {
            let mut fields = vec![1; 6];
            fields[at] = code;
            let packet = Packet { ends_run: true, five_bit: true, fields };
            let plan = Plan::new(number, alphabet, vec![packet], rng);
            let good = alphabet.is_code(code) || (code == NO_RESIDUE && at == 5);
            let aim = if good { 0 } else { BAD_RUN };
            cases.push(Case::aimed(plan.call(byte, rng), aim, format!("field {code} at {at}")));
        }
        for kept in 0..=6 {
            let mut packet = five_bit_packet(&vec![3; kept]);
            packet.ends_run = true;
            let alone = Plan::new(number, alphabet, vec![packet.clone()], rng);
            cases.push(Case::aimed(alone.call(byte, rng), 0, format!("one packet of {kept}")));
            let behind = Plan::new(number, alphabet, vec![five_bit_packet(&[7; 6]), packet], rng);
            let aim = if kept == 0 { BAD_RUN } else { 0 };
            cases.push(Case::aimed(behind.call(byte, rng), aim, format!("a last packet of {kept}")));
        }
    }
    cases.extend(two_bit_ends(byte, rng));
    cases
}

/// A full 2-bit last packet, ending in T's or not: fifteen residues.
fn two_bit_ends(byte: u8, rng: &mut Rng) -> Vec<Case> {
    let mut cases = Vec::new();
    for threes in 0..=15 {
        let mut fields = vec![0; 15 - threes];
        fields.resize(15, 3);
        let packet = Packet { ends_run: true, five_bit: false, fields };
        for (number, aim) in [(1, 0), (2, 0), (3, BAD_RUN)] {
            let plan = Plan::new(number, Alphabet::Nucleic, vec![packet.clone()], rng);
            cases.push(Case::aimed(plan.call(byte, rng), aim, format!("{threes} T's at the end")));
        }
    }
    cases
}

/// The smallest output that has room, and one byte less.
fn rooms(byte: u8, rng: &mut Rng) -> Vec<Case> {
    let mut cases = Vec::new();
    for _ in 0..12 {
        let (alphabet, _) = *rng.pick(&runs::ALPHABETS);
        let mut plan = Plan::to_damage(alphabet, rng);
        plan.room = plan.residues();
        cases.push(Case::aimed(plan.clone().call(byte, rng), 0, "exactly enough room"));
        plan.room -= 1;
        cases.push(Case::aimed(plan.call(byte, rng), NO_ROOM, "one byte too few"));
    }
    let empty = Plan::new(2, Alphabet::Nucleic, vec![], rng);
    cases.push(Case::aimed(empty.call(byte, rng), BAD_RUN, "no packet"));
    let mut nothing = Plan::new(3, Alphabet::Amino, vec![Packet::of_number(u32::MAX)], rng);
    nothing.room = 0;
    cases.push(Case::aimed(nothing.call(byte, rng), 0, "no residues into no room"));
    cases
}

/// The longest runs that the protocol takes, and the longest that fit its outputs.
fn long_runs(byte: u8, rng: &mut Rng) -> Vec<Case> {
    let mut cases = Vec::new();
    for (number, alphabet, count) in [(2, Alphabet::Nucleic, 1000), (3, Alphabet::Amino, 2730)] {
        let plan = Plan::new(number, alphabet, runs::run(alphabet, count, rng), rng);
        cases.push(Case::aimed(plan.call(byte, rng), 0, "a long run"));
    }
    let plan = Plan::new(3, Alphabet::Amino, runs::run(Alphabet::Amino, MOST_RUN, rng), rng);
    cases.push(Case::aimed(plan.call(byte, rng), NO_ROOM, "the longest run"));
    cases
}

/// Inputs of every length around a few packets.
fn byte_lengths(byte: u8, rng: &mut Rng) -> Vec<Case> {
    let mut cases = Vec::new();
    for (count, extra) in (1..4).flat_map(|count| [(count, 0), (count, 1), (count, 2), (count, 3)]) {
        let mut plan = Plan::new(3, Alphabet::Amino, runs::run(Alphabet::Amino, count, rng), rng);
        plan.extra = extra;
        let aim = if extra == 0 { 0 } else { ENDS_TOO_EARLY };
        cases.push(Case::aimed(plan.call(byte, rng), aim, format!("{extra} bytes more")));
    }
    for results in 0..=24 {
        let mut plan = Plan::by_chance(rng);
        plan.results = results;
        let aim = if results < 16 { NO_ROOM } else { 0 };
        cases.push(Case::aimed(plan.call(byte, rng), aim, format!("results of {results} bytes")));
    }
    cases
}

/// Real sequences as packing makes them, and the runs of real sets.
fn real(byte: u8, rng: &mut Rng, samples: &Samples) -> Vec<Case> {
    let mut cases = Vec::new();
    for (number, run) in samples.runs() {
        let packets = run.into_iter().map(Packet::of_number).collect();
        let plan = Plan::new(number, Alphabet::Nucleic, packets, rng);
        cases.push(Case::free(plan.call(byte, rng), "a run of a real set"));
    }
    for (alphabet, codes) in samples.sequences() {
        let number = if alphabet == Alphabet::Amino { 3 } else { 2 };
        let packets = run_of(alphabet, &codes).into_iter().map(Packet::of_number).collect();
        cases.push(Case::aimed(
            Plan::new(number, alphabet, packets, rng).call(byte, rng),
            0,
            "a real sequence",
        ));
    }
    cases
}

pub fn random(byte: u8, rng: &mut Rng) -> Case {
    match rng.below(10) {
        0..=4 => Case::aimed(Plan::by_chance(rng).call(byte, rng), 0, "valid"),
        5..=6 => {
            let (alphabet, _) = *rng.pick(&runs::ALPHABETS);
            let plan = Plan::to_damage(alphabet, rng);
            let Damaged { plan, number, note } = by_chance(&rules(byte, alphabet), rng, plan);
            Case::aimed(plan.call(byte, rng), number, note)
        }
        _ => {
            let mut plan = Plan::by_chance(rng);
            let at = rng.below(plan.packets.len());
            let number = plan.packets[at].number() ^ (1 << rng.below(32));
            plan.packets[at] = Packet::of_number(number);
            plan.room = plan.residues() + rng.below(2);
            Case::free(plan.call(byte, rng), "one bit turned")
        }
    }
}
