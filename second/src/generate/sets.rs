//! A set as a plan: every field by itself, so that each can be made wrong alone, and the three files made from it.

use super::rng::Rng;
use super::runs;
use super::turned::Files;
use crate::dsqdata::{MAGIC, TURNED_MAGIC};
use crate::fields::{little_bytes, ByteOrder};
use crate::packets::{residues_of, run_of};
use crate::residues::Alphabet;

/// A set. Each file has its byte order, and its magic as that reads little-endian. `longest` is of names, accessions,
/// descriptions and sequences; a length given for a file cuts it; `at` is the sequence whose metadata gets a fault.
#[derive(Clone, Debug)]
pub struct Plan {
    pub byte_orders: [ByteOrder; 3],
    pub magics: [i128; 3],
    pub tags: [i128; 3],
    pub alphabet: i128,
    pub flags: i128,
    pub longest: [i128; 4],
    pub count: i128,
    pub residues: i128,
    pub metadata_ends: Vec<i128>,
    pub packet_ends: Vec<i128>,
    pub behind: Vec<u8>,
    pub index_length: Option<usize>,
    pub metadata_length: Option<usize>,
    pub sequence_length: Option<usize>,
    pub records: Vec<Record>,
    pub metadata: Vec<u8>,
    pub packets: Vec<u32>,
    pub odd: Vec<u8>,
    pub at: usize,
}

/// A metadata record in its parts, and how many bytes its taxonomy id takes.
#[derive(Clone, Debug)]
pub struct Record {
    pub name: Vec<u8>,
    pub accession: Vec<u8>,
    pub description: Vec<u8>,
    pub taxonomy_id: i128,
    pub id_width: usize,
}

impl Record {
    pub fn by_chance(rng: &mut Rng) -> Record {
        let lengths = [rng.between(1, 9), rng.below(5), rng.below(20)];
        let taxonomy_id = *rng.pick(&[-1, -1, 1, 9606, 2_147_483_647, 256, 1 << 24]);
        Record {
            name: word(lengths[0], rng),
            accession: if rng.chance(50) { vec![] } else { word(lengths[1], rng) },
            description: line(lengths[2], rng),
            taxonomy_id,
            id_width: 4,
        }
    }

    fn bytes(&self, byte_order: ByteOrder) -> Vec<u8> {
        let id = byte_order.bytes(self.taxonomy_id, self.id_width);
        [&self.name[..], &[0], &self.accession, &[0], &self.description, &[0], &id].concat()
    }
}

/// A text without NUL, white space and the like.
fn word(length: usize, rng: &mut Rng) -> Vec<u8> {
    (0..length).map(|_| *rng.pick(b"abcXYZ019_|.\x01\x08\x0e\x1f\x21\x7f\x80\xff")).collect()
}

/// A text without NUL and line feed.
fn line(length: usize, rng: &mut Rng) -> Vec<u8> {
    (0..length).map(|_| *rng.pick(b"abc XYZ\t\r\x0b\x0c,.\x01\x80\xff")).collect()
}

/// The magic of a file, as it reads little-endian.
pub fn magic(byte_order: ByteOrder) -> i128 {
    match byte_order {
        ByteOrder::Little => MAGIC,
        ByteOrder::Big => TURNED_MAGIC,
    }
}

/// A tag that the three files of a set have.
pub fn tag(rng: &mut Rng) -> i128 {
    *rng.pick(&[0, 1, 0xFFFF_FFFF, rng.clone().number() as u32 as i128])
}

/// A run as packing makes it, or another well-formed one.
fn run(alphabet: Alphabet, rng: &mut Rng) -> Vec<u32> {
    if rng.chance(50) {
        let length = rng.below(50);
        return run_of(alphabet, &runs::codes(alphabet, length, rng));
    }
    let count = rng.between(1, 5);
    runs::numbers(&runs::run(alphabet, count, rng))
}

impl Plan {
    /// A valid set of n sequences.
    pub fn by_chance(n: usize, byte_order: ByteOrder, rng: &mut Rng) -> Plan {
        let (number, alphabet) = runs::alphabet(rng);
        let all: Vec<Vec<u32>> = (0..n).map(|_| run(alphabet, rng)).collect();
        let records: Vec<Record> = (0..n).map(|_| Record::by_chance(rng)).collect();
        Plan::new(number as i128, &all, records, tag(rng), byte_order)
    }

    /// A valid set of these runs and records.
    pub fn new(
        alphabet: i128,
        runs: &[Vec<u32>],
        records: Vec<Record>,
        tag: i128,
        byte_order: ByteOrder,
    ) -> Plan {
        let lengths: Vec<i128> = runs.iter().map(|run| residues_of(run).len() as i128).collect();
        let mut plan = Plan {
            byte_orders: [byte_order; 3],
            magics: [magic(byte_order); 3],
            tags: [tag; 3],
            alphabet,
            flags: 0,
            longest: [0, 0, 0, lengths.iter().copied().max().unwrap_or(0)],
            count: runs.len() as i128,
            residues: lengths.iter().sum(),
            metadata_ends: vec![],
            packet_ends: vec![],
            behind: vec![],
            index_length: None,
            metadata_length: None,
            sequence_length: None,
            records,
            metadata: vec![],
            packets: vec![],
            odd: vec![],
            at: 0,
        };
        for run in runs {
            plan.packets.extend(run);
            plan.packet_ends.push(plan.packets.len() as i128 - 1);
        }
        plan.lay_out_metadata();
        plan.state_longest_texts();
        plan
    }

    /// The same set with each file in this byte order.
    pub fn write_in(&mut self, byte_orders: [ByteOrder; 3]) {
        self.byte_orders = byte_orders;
        self.magics = byte_orders.map(magic);
        self.lay_out_metadata();
    }

    /// The metadata body and its ends, from the records.
    pub fn lay_out_metadata(&mut self) {
        (self.metadata, self.metadata_ends) = (vec![], vec![]);
        for record in &self.records {
            self.metadata.extend(record.bytes(self.byte_orders[1]));
            self.metadata_ends.push(self.metadata.len() as i128 - 1);
        }
    }

    pub fn state_longest_texts(&mut self) {
        self.longest[..3].fill(0);
        for record in &self.records {
            let lengths = [record.name.len(), record.accession.len(), record.description.len()];
            for (k, length) in lengths.iter().enumerate() {
                self.longest[k] = self.longest[k].max(*length as i128);
            }
        }
    }

    /// Where a sequence's metadata begins in its body.
    pub fn metadata_start(&self, at: usize) -> usize {
        if at == 0 {
            0
        } else {
            self.metadata_ends[at - 1] as usize + 1
        }
    }

    /// Puts another packet at a place, with the residue totals that are then right.
    pub fn set_packet(&mut self, place: usize, packet: u32) {
        self.packets[place] = packet;
        let mut start = 0;
        let mut lengths = Vec::new();
        for end in &self.packet_ends {
            lengths.push(residues_of(&self.packets[start..=*end as usize]).len() as i128);
            start = *end as usize + 1;
        }
        self.residues = lengths.iter().sum();
        self.longest[3] = lengths.iter().copied().max().unwrap_or(0);
    }

    pub fn files(&self) -> Files {
        [self.index(), self.metadata_file(), self.sequence_file()]
    }

    fn index(&self) -> Vec<u8> {
        let byte_order = self.byte_orders[0];
        let mut bytes = self.magic_and_tag(0);
        for field in [self.alphabet, self.flags].iter().chain(&self.longest[..3]) {
            bytes.extend(byte_order.bytes(*field, 4));
        }
        for field in [self.longest[3], self.count, self.residues] {
            bytes.extend(byte_order.bytes(field, 8));
        }
        for (metadata, packets) in self.metadata_ends.iter().zip(&self.packet_ends) {
            bytes.extend(byte_order.bytes(*metadata, 8));
            bytes.extend(byte_order.bytes(*packets, 8));
        }
        bytes.extend(&self.behind);
        cut(bytes, self.index_length)
    }

    fn metadata_file(&self) -> Vec<u8> {
        cut([self.magic_and_tag(1), self.metadata.clone()].concat(), self.metadata_length)
    }

    fn sequence_file(&self) -> Vec<u8> {
        let mut bytes = self.magic_and_tag(2);
        for packet in &self.packets {
            bytes.extend(self.byte_orders[2].bytes(*packet as i128, 4));
        }
        bytes.extend(&self.odd);
        cut(bytes, self.sequence_length)
    }

    /// What each file begins with.
    fn magic_and_tag(&self, file: usize) -> Vec<u8> {
        [little_bytes(self.magics[file], 4), self.byte_orders[file].bytes(self.tags[file], 4)].concat()
    }
}

/// The first bytes, where a length is given.
fn cut(mut bytes: Vec<u8>, length: Option<usize>) -> Vec<u8> {
    bytes.truncate(length.unwrap_or(bytes.len()));
    bytes
}
