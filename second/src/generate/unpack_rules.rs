//! The rules of unpacking in the order of its refusals.

use super::rng::Rng;
use super::rules::{rule, Rule};
use super::runs;
use super::unpack_cases::Plan;
use crate::answers::*;
use crate::call::CONSOLE_UNPACK;
use crate::packets::{five_bit_packet, two_bit_packet, Packet, NO_RESIDUE};
use crate::residues::Alphabet;

const ROOM: &str = "the output has room for L";

/// All rules for an alphabet. The console has one more at each end.
pub fn rules(byte: u8, alphabet: Alphabet) -> Vec<Rule<Plan>> {
    let mut rules: Vec<Rule<Plan>> = Vec::new();
    if byte == CONSOLE_UNPACK {
        rules.push(
            rule(ENDS_TOO_EARLY, "the input is whole packets")
                .passes("no byte more", |_: &mut Plan| {})
                .breaks("1 byte more", |plan| plan.extra = 1)
                .breaks("3 bytes more", |plan| plan.extra = 3)
                .farther(|plan, _| plan.extra = 2),
        );
    }
    rules.push(runs::alphabet_rule(alphabet, |plan: &mut Plan| &mut plan.number));
    rules.extend(packet_rules(alphabet));
    rules.extend(field_rules(alphabet));
    rules.push(
        rule(NO_ROOM, ROOM)
            .passes("L", |plan: &mut Plan| plan.room = plan.residues())
            .breaks("L - 1", |plan| plan.room = plan.residues() - 1)
            .farther(|plan, _| plan.room = 0),
    );
    if byte == CONSOLE_UNPACK {
        rules.push(runs::results_rule(|plan: &mut Plan| &mut plan.results));
    }
    rules
}

/// What a run asks of whole packets. These and the rules of fields are one number, in no order.
fn packet_rules(alphabet: Alphabet) -> Vec<Rule<Plan>> {
    let mut rules = vec![
        rule(BAD_RUN, "a run has a packet")
            .passes("one", |plan: &mut Plan| {
                plan.packets.drain(..plan.packets.len() - 1);
            })
            .breaks("none", |plan| plan.packets.clear())
            .shuts_only(ROOM, "where no packet is, no residue needs room"),
        rule(BAD_RUN, "a packet without residues is the whole run")
            .passes("alone", |plan: &mut Plan| {
                plan.packets = vec![Packet::of_number(u32::MAX)];
                plan.room = 0;
            })
            .breaks("as the last", |plan| *plan.last() = Packet::of_number(u32::MAX))
            .breaks("as the first", |plan| plan.packets[0] = five_bit_packet(&[])),
        rule(BAD_RUN, "bit 31 is set in the last packet")
            .passes("set", |_: &mut Plan| {})
            .breaks("clear", |plan| plan.last().ends_run = false),
        rule(BAD_RUN, "bit 31 is clear in every other packet")
            .passes("clear", |_: &mut Plan| {})
            .breaks("set in the first", |plan| plan.packets[0].ends_run = true)
            .breaks("set in the last but one", |plan| plan.last_but_one().ends_run = true)
            .farther(|plan, rng| {
                let more = runs::run(plan.alphabet, 1, rng);
                plan.packets.extend(more);
            }),
    ];
    if alphabet == Alphabet::Amino {
        let two_bit = || two_bit_packet(&[1; 15]);
        rules.push(
            rule(BAD_RUN, "bit 30 is set in every packet of an amino run")
                .passes("set", |_: &mut Plan| {})
                .breaks("clear in the first", move |plan| plan.packets[0] = two_bit())
                .breaks("clear in the last", move |plan| {
                    *plan.last() = Packet { ends_run: true, ..two_bit() }
                }),
        );
    }
    rules
}

/// What a run asks of codes.
fn field_rules(alphabet: Alphabet) -> Vec<Rule<Plan>> {
    let first_bad = alphabet.letters().len() as u8;
    vec![
        rule(BAD_RUN, "each code is valid")
            .passes(format!("{} as the first", first_bad - 1), move |plan: &mut Plan| {
                plan.packets[0] = five_bit_packet(&[first_bad - 1; 6]);
                plan.room = plan.residues();
            })
            .passes(format!("{} in the last packet", first_bad - 1), move |plan| {
                plan.last().fields[0] = first_bad - 1
            })
            .breaks(format!("{first_bad} as the first"), move |plan| {
                plan.packets[0] = five_bit_packet(&[first_bad, 0, 0, 0, 0, 0])
            })
            .breaks(format!("{first_bad} in the last packet"), move |plan| plan.last().fields[0] = first_bad)
            .breaks("30 in the last packet", |plan| plan.last().fields[0] = 30)
            .farther(spoil_code),
        rule(BAD_RUN, "31 stands in the last packet only")
            .passes("in the last", |_: &mut Plan| {})
            .breaks("in the last but one", |plan| *plan.last_but_one() = five_bit_packet(&[2; 5]))
            .breaks("in the first", |plan| plan.packets[0] = five_bit_packet(&[2])),
        rule(BAD_RUN, "31 stands as a tail only")
            .passes("in all fields but the first", |plan: &mut Plan| {
                plan.last().fields = five_bit_packet(&[3]).fields;
            })
            .breaks("before the last field", |plan| last_fields(plan, [0, 0, 0, 0, NO_RESIDUE, 0]))
            .breaks("in the first field", |plan| last_fields(plan, [NO_RESIDUE, 0, 0, 0, 0, 0])),
    ]
}

fn last_fields(plan: &mut Plan, fields: [u8; 6]) {
    *plan.last() = Packet { ends_run: true, five_bit: true, fields: fields.to_vec() };
}

fn spoil_code(plan: &mut Plan, rng: &mut Rng) {
    let first_bad = plan.alphabet.letters().len() as u8;
    let code = *rng.pick(&[first_bad, 29, 30]);
    let mut fields = vec![0; 6];
    fields[rng.below(6)] = code;
    let at = rng.below(plan.packets.len());
    plan.packets[at].five_bit = true;
    plan.packets[at].fields = fields;
}
