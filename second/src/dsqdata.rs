//! The set check: three files, their headers, ends, runs, metadata and totals.

use crate::answers::*;
use crate::console::packets_of_bytes;
use crate::fields::{little_unsigned, ByteOrder};
use crate::metadata::{read_metadata, Metadata};
use crate::packets::{is_well_formed, residues_of};
use crate::residues::Alphabet;

/// The magic of every file of a set.
pub const MAGIC: i128 = 0xc4d3_d1b1;

/// What the magic reads, little-endian, where a big-endian machine wrote it (request 2026-07).
pub const TURNED_MAGIC: i128 = 0xb1d1_d3c4;

/// The ten header fields of the index, in file order, and the set's byte order.
#[derive(Clone, Copy, Debug, PartialEq, Eq)]
pub struct SetRecord {
    pub magic: i128,
    pub tag: i128,
    pub alphabet: i128,
    pub flags: i128,
    pub longest_name: i128,
    pub longest_accession: i128,
    pub longest_description: i128,
    pub longest_sequence: i128,
    pub count: i128,
    pub residues: i128,
    pub byte_order: ByteOrder,
}

impl SetRecord {
    /// Seven fields of four bytes, then three of eight, from the first 52 bytes.
    fn read(index: &[u8], byte_order: ByteOrder) -> SetRecord {
        let four = |k: usize| byte_order.unsigned(&index[4 * k..4 * k + 4]);
        let eight = |k: usize| byte_order.unsigned(&index[28 + 8 * k..36 + 8 * k]);
        SetRecord {
            magic: four(0),
            tag: four(1),
            alphabet: four(2),
            flags: four(3),
            longest_name: four(4),
            longest_accession: four(5),
            longest_description: four(6),
            longest_sequence: eight(0),
            count: eight(1),
            residues: eight(2),
            byte_order,
        }
    }

    pub fn values(&self) -> Vec<i128> {
        vec![
            self.magic,
            self.tag,
            self.alphabet,
            self.flags,
            self.longest_name,
            self.longest_accession,
            self.longest_description,
            self.longest_sequence,
            self.count,
            self.residues,
            self.byte_order.number(),
        ]
    }
}

/// The two ends of one sequence: metadata in bytes, packets in packets.
#[derive(Clone, Copy, Debug, PartialEq, Eq)]
pub struct Ends {
    pub metadata: i128,
    pub packets: i128,
}

/// The ends of all sequences, from an index of the right length.
pub fn read_ends(index: &[u8], byte_order: ByteOrder) -> Vec<Ends> {
    let ends = |both: &[u8]| Ends {
        metadata: byte_order.signed(&both[..8]),
        packets: byte_order.signed(&both[8..]),
    };
    index[52..].chunks(16).map(ends).collect()
}

/// The byte order that a file's magic tells; 14 where it is neither.
fn byte_order_of(file: &[u8]) -> Answer<ByteOrder> {
    match little_unsigned(&file[..4]) {
        MAGIC => Ok(ByteOrder::Little),
        TURNED_MAGIC => Ok(ByteOrder::Big),
        _ => Err(WRONG_MAGIC),
    }
}

/// The rules in their order: 22; 1 and 14 file by file; 15; 3; 4; 4; 1, 6; 1; 7; 17; 19; 9. The index sets the byte order;
/// a later file of the other one is 14.
pub fn check_set(index: &[u8], metadata: &[u8], sequence: &[u8]) -> Answer<SetRecord> {
    ask_sizes(&[index, metadata, sequence])?;
    ask(index.len() >= 52, ENDS_TOO_EARLY)?;
    let byte_order = byte_order_of(index)?;
    for file in [metadata, sequence] {
        ask(file.len() >= 8, ENDS_TOO_EARLY)?;
        ask(byte_order_of(file)? == byte_order, WRONG_MAGIC)?;
    }
    let record = SetRecord::read(index, byte_order);
    let other_tags = [metadata, sequence].map(|file| byte_order.unsigned(&file[4..8]));
    ask(other_tags == [record.tag, record.tag], TAGS_DIFFER)?;
    let alphabet = Alphabet::of_number(record.alphabet)?;
    ask(record.flags == 0, OUT_OF_RANGE)?;
    ask(record.count <= MOST_SEQUENCES, OUT_OF_RANGE)?;
    ask(index.len() as i128 >= 52 + 16 * record.count, ENDS_TOO_EARLY)?;
    ask(index.len() as i128 == 52 + 16 * record.count, LEFT_OVER)?;
    ask((sequence.len() as i128 - 8) % 4 == 0, ENDS_TOO_EARLY)?;
    let packets = packets_of_bytes(&sequence[8..], byte_order);
    let bodies = Bodies { metadata: metadata[8..].to_vec(), packets };
    check_bodies(&record, alphabet, &read_ends(index, byte_order), &bodies)?;
    Ok(record)
}

/// The metadata and packets behind the headers.
struct Bodies {
    metadata: Vec<u8>,
    packets: Vec<u32>,
}

/// 7 for both kinds of ends, then 17 for each run, 19 for each metadata record, and 9.
fn check_bodies(record: &SetRecord, alphabet: Alphabet, ends: &[Ends], bodies: &Bodies) -> Answer<()> {
    let metadata_ends: Vec<i128> = ends.iter().map(|both| both.metadata).collect();
    let packet_ends: Vec<i128> = ends.iter().map(|both| both.packets).collect();
    ask(ends_hold(&metadata_ends, bodies.metadata.len()), BAD_OFFSETS)?;
    ask(ends_hold(&packet_ends, bodies.packets.len()), BAD_OFFSETS)?;
    let runs = pieces(&packet_ends, &bodies.packets);
    ask(runs.iter().all(|run| is_well_formed(alphabet, run)), BAD_RUN)?;
    let all: Option<Vec<Metadata>> = pieces(&metadata_ends, &bodies.metadata)
        .iter()
        .map(|piece| read_metadata(piece, record.byte_order))
        .collect();
    let all = all.ok_or(BAD_METADATA)?;
    let lengths: Vec<i128> = runs.iter().map(|run| residues_of(run).len() as i128).collect();
    ask(totals_hold(record, &lengths, &all), WRONG_TOTALS)
}

/// "before the first stands -1; each rises; the last is the body's last place; with none, both bodies are empty".
fn ends_hold(ends: &[i128], body: usize) -> bool {
    let mut before = -1;
    for end in ends {
        if *end <= before {
            return false;
        }
        before = *end;
    }
    // Before the first stands -1, so this is the empty body where there are no ends.
    before == body as i128 - 1
}

/// The pieces of a body that ends cut it into.
fn pieces<T: Clone>(ends: &[i128], body: &[T]) -> Vec<Vec<T>> {
    let mut start = 0;
    let mut pieces = Vec::new();
    for end in ends {
        let next = *end as usize + 1;
        pieces.push(body[start..next].to_vec());
        start = next;
    }
    pieces
}

/// "9 for totals and all four longest lengths, 0 with none".
fn totals_hold(record: &SetRecord, lengths: &[i128], all: &[Metadata]) -> bool {
    let longest = |lengths: Vec<i128>| lengths.into_iter().max().unwrap_or(0);
    let of_texts =
        |text: fn(&Metadata) -> &Vec<u8>| longest(all.iter().map(|one| text(one).len() as i128).collect());
    record.residues == lengths.iter().sum::<i128>()
        && record.longest_sequence == longest(lengths.to_vec())
        && record.longest_name == of_texts(|one| &one.name)
        && record.longest_accession == of_texts(|one| &one.accession)
        && record.longest_description == of_texts(|one| &one.description)
}
