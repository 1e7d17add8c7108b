//! Every well-formed run of given residues, and how many packets the shortest has (request 2026-08). Nothing here follows
//! the packing rule: residues are cut into packets in every way that document 01's definition of a well-formed run lets
//! stand, and no way is preferred.

use crate::packets::{five_bit_packet, has_filling, two_bit_packet, Packet};
use crate::residues::Alphabet;

/// Every well-formed run of the residues, built as packets: a recursion over all packets that may stand at a place, and
/// over all ways to go on behind each.
pub fn every_run(alphabet: Alphabet, codes: &[u8]) -> Vec<Vec<u32>> {
    runs_from(alphabet, codes, 0)
}

fn runs_from(alphabet: Alphabet, codes: &[u8], place: usize) -> Vec<Vec<u32>> {
    let mut runs = Vec::new();
    for packet in packets_at(alphabet, codes, place) {
        let next = place + packet.residues().len();
        let behind = if packet.ends_run { vec![vec![]] } else { runs_from(alphabet, codes, next) };
        runs.extend(behind.into_iter().map(|run| [vec![packet.number()], run].concat()));
    }
    runs
}

/// How many well-formed runs residues have, at most what a `usize` holds, and the fewest packets of one.
#[derive(Clone, Copy, Debug, PartialEq, Eq)]
pub struct Found {
    pub runs: usize,
    pub fewest: usize,
}

/// The same runs, counted and not built: a dynamic program over places, from the last to the first. What is found from a
/// place on is what is found behind each packet that may stand there.
pub fn search(alphabet: Alphabet, codes: &[u8]) -> Found {
    let mut from = vec![Found { runs: 1, fewest: 0 }; codes.len() + 1];
    for place in (0..codes.len().max(1)).rev() {
        let packets = packets_at(alphabet, codes, place);
        let behind: Vec<Found> = packets.iter().map(|packet| from[place + packet.residues().len()]).collect();
        let fewest = behind.iter().map(|found| found.fewest).min().expect("a packet may stand anywhere");
        let runs = behind.iter().fold(0, |runs: usize, found| runs.saturating_add(found.runs));
        from[place] = Found { runs, fewest: fewest + 1 };
    }
    from[0]
}

/// The packets that may stand where the residues before a place are taken: 5-bit packets of up to six residues and a 2-bit
/// packet of fifteen, but for those that no well-formed run has there. What takes all that is left is the last packet.
fn packets_at(alphabet: Alphabet, codes: &[u8], place: usize) -> Vec<Packet> {
    let rest = &codes[place..];
    let five_bit = (0..=rest.len().min(6)).map(|held| five_bit_packet(&rest[..held]));
    let bases = rest.get(..15).filter(|held| held.iter().all(|code| *code < 4));
    five_bit
        .chain(bases.map(two_bit_packet))
        .map(|packet| Packet { ends_run: packet.residues().len() == rest.len(), ..packet })
        .filter(|packet| may_stand(alphabet, packet, place == 0))
        .collect()
}

/// Whether a well-formed run may have this packet, as its first or behind others.
fn may_stand(alphabet: Alphabet, packet: &Packet, is_first: bool) -> bool {
    // "bit 30 in all for amino"
    let is_in_alphabet = alphabet == Alphabet::Nucleic || packet.five_bit;
    // "31 only as a tail of the last packet"
    let is_full_or_last = packet.ends_run || !has_filling(packet);
    // "a packet without residues only as the whole run"
    let is_whole_run = is_first && packet.ends_run;
    is_in_alphabet && is_full_or_last && (is_whole_run || !packet.residues().is_empty())
}
