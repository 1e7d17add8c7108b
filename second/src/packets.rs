//! One packet and one run: how codes become packets, what a well-formed run is, and which residues it has.

use crate::residues::Alphabet;

/// The five-bit field that stands where there is no residue.
pub const NO_RESIDUE: u8 = 31;

/// A packet taken apart: bit 31, bit 30, and its six 5-bit or fifteen 2-bit fields, highest first.
#[derive(Clone, Debug, PartialEq, Eq)]
pub struct Packet {
    pub ends_run: bool,
    pub five_bit: bool,
    pub fields: Vec<u8>,
}

impl Packet {
    pub fn of_number(number: u32) -> Packet {
        let number = number as i128;
        let five_bit = (number >> 30) & 1 == 1;
        let (width, count) = if five_bit { (5, 6) } else { (2, 15) };
        let fields =
            (0..count).map(|k| ((number >> (30 - width * (k + 1))) & ((1 << width) - 1)) as u8).collect();
        Packet { ends_run: (number >> 31) & 1 == 1, five_bit, fields }
    }

    pub fn number(&self) -> u32 {
        let width = if self.five_bit { 5 } else { 2 };
        let mut number: i128 = self.ends_run as i128 * 2 + self.five_bit as i128;
        for field in &self.fields {
            number = (number << width) + *field as i128;
        }
        number as u32
    }

    /// The residues it holds: all fields of a 2-bit packet, the fields other than 31 of a 5-bit one.
    pub fn residues(&self) -> Vec<u8> {
        if self.five_bit {
            self.fields.iter().copied().filter(|field| *field != NO_RESIDUE).collect()
        } else {
            self.fields.clone()
        }
    }
}

/// The run of a list of codes, by the packing rule of document 01.
pub fn run_of(alphabet: Alphabet, codes: &[u8]) -> Vec<u32> {
    let mut packets: Vec<Packet> = Vec::new();
    let mut rest = codes;
    while !rest.is_empty() {
        // "if at least 15 remain and the next 15 codes are all below 4, a 2-bit packet; otherwise .. up to six"
        let plain = rest.len() >= 15 && rest[..15].iter().all(|code| *code < 4);
        let taken = if alphabet == Alphabet::Nucleic && plain { 15 } else { rest.len().min(6) };
        packets.push(packet_of(&rest[..taken]));
        rest = &rest[taken..];
    }
    if packets.is_empty() {
        packets.push(packet_of(&[]));
    }
    packets.last_mut().expect("a run has a packet").ends_run = true;
    packets.iter().map(Packet::number).collect()
}

/// A packet of fifteen codes, or of at most six.
fn packet_of(codes: &[u8]) -> Packet {
    if codes.len() == 15 {
        two_bit_packet(codes)
    } else {
        five_bit_packet(codes)
    }
}

/// A 2-bit packet of fifteen codes below 4.
pub fn two_bit_packet(codes: &[u8]) -> Packet {
    Packet { ends_run: false, five_bit: false, fields: codes.to_vec() }
}

/// A 5-bit packet of at most six codes, the rest filled with 31.
pub fn five_bit_packet(codes: &[u8]) -> Packet {
    let mut fields = codes.to_vec();
    fields.resize(6, NO_RESIDUE);
    Packet { ends_run: false, five_bit: true, fields }
}

/// Whether packets are one well-formed run in an alphabet.
pub fn is_well_formed(alphabet: Alphabet, numbers: &[u32]) -> bool {
    let packets: Vec<Packet> = numbers.iter().map(|number| Packet::of_number(*number)).collect();
    let last = packets.len() as i128 - 1;
    let has_a_packet = !packets.is_empty();
    let ends_once = packets.iter().enumerate().all(|(k, p)| p.ends_run == (k as i128 == last));
    let five_bit_for_amino = alphabet == Alphabet::Nucleic || packets.iter().all(|p| p.five_bit);
    let valid_codes = packets.iter().all(|p| p.residues().iter().all(|code| alphabet.is_code(*code)));
    let full_inside = packets.iter().enumerate().all(|(k, p)| k as i128 == last || !has_filling(p));
    let filled_at_tail = packets.iter().all(filling_is_a_tail);
    let empty_alone = packets.len() == 1 || packets.iter().all(|p| !p.residues().is_empty());
    has_a_packet
        && ends_once
        && five_bit_for_amino
        && valid_codes
        && full_inside
        && filled_at_tail
        && empty_alone
}

/// Whether a 31 stands where a residue could.
pub fn has_filling(packet: &Packet) -> bool {
    packet.five_bit && packet.fields.contains(&NO_RESIDUE)
}

/// Whether no residue stands behind a 31.
fn filling_is_a_tail(packet: &Packet) -> bool {
    !packet.five_bit || packet.fields.windows(2).all(|two| two[0] != NO_RESIDUE || two[1] == NO_RESIDUE)
}

/// The residues of a well-formed run.
pub fn residues_of(numbers: &[u32]) -> Vec<u8> {
    numbers.iter().flat_map(|number| Packet::of_number(*number).residues()).collect()
}
