//! A volume as a plan: every field by itself, so that each can be made wrong alone, and the three files made from it.

use super::dna;
use super::rng::Rng;
use crate::fields::{big_bytes, little_bytes};

/// The fields of an index in order, by number: a plan can be cut inside one.
pub const VERSION: usize = 0;
pub const TYPE: usize = 1;
pub const TITLE_LENGTH: usize = 2;
pub const TITLE: usize = 3;
pub const TIMESTAMP_LENGTH: usize = 4;
pub const TIMESTAMP: usize = 5;
pub const SEQUENCES: usize = 6;
pub const RESIDUE_COUNT: usize = 7;
pub const LONGEST: usize = 8;
pub const HEADER_OFFSETS: usize = 9;
pub const SEQUENCE_OFFSETS: usize = 10;
pub const AMBIGUITY_OFFSETS: usize = 11;

/// The two types, and what their rules are called.
pub const KINDS: [(i128, &str); 2] = [(0, "DNA"), (1, "protein")];

/// A volume, and what the calls on it need besides: a sequence's number, the output's room, the results' length.
#[derive(Clone, Debug)]
pub struct Plan {
    pub version: i128,
    pub kind: i128,
    pub title_length: i128,
    pub title: Vec<u8>,
    pub timestamp_length: i128,
    pub timestamp: Vec<u8>,
    pub n: i128,
    pub count: i128,
    pub longest: i128,
    pub headers: Vec<i128>,
    pub s: Vec<i128>,
    pub a: Vec<i128>,
    pub behind: Vec<u8>,
    /// The index ends inside this field, behind so many of its bytes.
    pub cut: Option<(usize, usize)>,
    pub sequence: Vec<u8>,
    pub header: Vec<u8>,
    pub lengths: Vec<usize>,
    pub number: u64,
    pub room: usize,
    pub results: usize,
}

/// What stands in a sequence file for one sequence: a protein's bytes, or two-bit bytes and the ambiguity range.
#[derive(Clone, Debug)]
pub struct Stored {
    pub residues: usize,
    pub bytes: Vec<u8>,
    pub range: Vec<u8>,
}

impl Plan {
    /// A valid volume of these sequences and header records.
    pub fn new(kind: i128, stored: &[Stored], records: &[Vec<u8>], rng: &mut Rng) -> Plan {
        let title_length = rng.below(20);
        let title = rng.bytes(title_length);
        let timestamp = timestamp(title.len(), rng);
        let mut plan = Plan {
            version: 4,
            kind,
            title_length: title.len() as i128,
            title,
            timestamp_length: timestamp.len() as i128,
            timestamp,
            n: stored.len() as i128,
            count: 0,
            longest: 0,
            headers: vec![],
            s: vec![],
            a: vec![],
            behind: vec![],
            cut: None,
            sequence: vec![],
            header: vec![],
            lengths: stored.iter().map(|one| one.residues).collect(),
            number: 0,
            room: 0,
            results: 64 + *rng.pick(&[0, 0, 1, 8]),
        };
        plan.lay_out(stored);
        plan.lay_out_headers(records);
        plan
    }

    /// The sequence file, its offsets and the totals.
    pub fn lay_out(&mut self, stored: &[Stored]) {
        self.sequence = if self.kind == 1 { vec![0] } else { vec![] };
        (self.s, self.a) = (vec![], vec![]);
        for one in stored {
            self.s.push(self.sequence.len() as i128);
            self.sequence.extend(&one.bytes);
            self.a.push(self.sequence.len() as i128);
            self.sequence.extend(&one.range);
        }
        self.s.push(self.sequence.len() as i128);
        self.a.push(self.sequence.len() as i128);
        self.lengths = stored.iter().map(|one| one.residues).collect();
        self.count = self.lengths.iter().sum::<usize>() as i128;
        self.longest = self.lengths.iter().copied().max().unwrap_or(0) as i128;
    }

    /// What stands in the sequence file, sequence by sequence. Only for a volume whose offsets are right.
    pub fn stored(&self) -> Vec<Stored> {
        let part = |from: i128, to: i128| self.sequence[from as usize..to as usize].to_vec();
        (0..self.lengths.len())
            .map(|i| Stored {
                residues: self.lengths[i],
                bytes: part(self.s[i], self.a[i]),
                range: part(self.a[i], self.s[i + 1]),
            })
            .collect()
    }

    /// Puts another sequence in the place of one, and lays the file out anew.
    pub fn replace(&mut self, i: usize, change: impl Fn(&mut Stored)) {
        let mut stored = self.stored();
        change(&mut stored[i]);
        self.lay_out(&stored);
    }

    /// Another byte at a place of the sequence file.
    pub fn put(&mut self, place: i128, byte: u8) {
        self.sequence[place as usize] = byte;
    }

    /// A title and a timestamp of these lengths.
    pub fn set_texts(&mut self, title: usize, timestamp: usize) {
        (self.title, self.title_length) = (vec![b't'; title], title as i128);
        (self.timestamp, self.timestamp_length) = (vec![b'd'; timestamp], timestamp as i128);
    }

    fn lay_out_headers(&mut self, records: &[Vec<u8>]) {
        for record in records {
            self.headers.push(self.header.len() as i128);
            self.header.extend(record);
        }
        self.headers.push(self.header.len() as i128);
    }

    /// The index file, cut inside a field where the plan says so.
    pub fn index(&self) -> Vec<u8> {
        let mut bytes = Vec::new();
        for (k, field) in self.fields().into_iter().enumerate() {
            match self.cut {
                Some((at, kept)) if at == k => {
                    bytes.extend(&field[..kept]);
                    return bytes;
                }
                _ => bytes.extend(field),
            }
        }
        bytes
    }

    /// The fields in order, and last what stands behind the tables.
    pub fn fields(&self) -> Vec<Vec<u8>> {
        let offsets = |table: &[i128]| table.iter().flat_map(|offset| big_bytes(*offset, 4)).collect();
        vec![
            big_bytes(self.version, 4),
            big_bytes(self.kind, 4),
            big_bytes(self.title_length, 4),
            self.title.clone(),
            big_bytes(self.timestamp_length, 4),
            self.timestamp.clone(),
            big_bytes(self.n, 4),
            little_bytes(self.count, 8),
            big_bytes(self.longest, 4),
            offsets(&self.headers),
            offsets(&self.s),
            if self.kind == 1 { vec![] } else { offsets(&self.a) },
            self.behind.clone(),
        ]
    }
}

/// A timestamp that ends at a multiple of 4, with some NULs in it and at its end.
fn timestamp(title_length: usize, rng: &mut Rng) -> Vec<u8> {
    let mut text: Vec<u8> = (0..rng.below(20)).map(|_| *rng.pick(b"Nov 15, 2026\0")).collect();
    let end = 16 + title_length + text.len();
    text.resize(text.len() + (4 - end % 4) % 4, 0);
    if rng.chance(10) {
        text.extend(vec![0; 4 * rng.between(1, 3)]);
    }
    text
}

/// A protein's bytes and the NUL behind them. `any` allows bytes above 27, which only decoding refuses.
pub fn protein(residues: usize, any: bool, rng: &mut Rng) -> Stored {
    let mut bytes: Vec<u8> = (0..residues).map(|_| rng.below(28) as u8).collect();
    if any && residues > 0 && rng.chance(30) {
        bytes[rng.below(residues)] = rng.between(28, 255) as u8;
    }
    bytes.push(0);
    Stored { residues, bytes, range: vec![] }
}

/// Two-bit bytes and an ambiguity range. `any` allows a bad range, which only decoding refuses.
pub fn nucleotide(residues: usize, any: bool, rng: &mut Rng) -> Stored {
    let length = rng.below(9);
    let range = if any && rng.chance(20) { rng.bytes(length) } else { dna::ambiguity_range(residues, rng) };
    Stored { residues, bytes: dna::two_bit(residues, rng), range }
}

/// A sequence of a kind.
pub fn stored(kind: i128, residues: usize, any: bool, rng: &mut Rng) -> Stored {
    if kind == 1 {
        protein(residues, any, rng)
    } else {
        nucleotide(residues, any, rng)
    }
}

/// As many sequences of a kind, together no more than the protocol has room for.
pub fn sequences(kind: i128, n: usize, any: bool, rng: &mut Rng) -> Vec<Stored> {
    let mut left = 12_000;
    (0..n)
        .map(|_| {
            let residues = residues(rng);
            let one = stored(kind, residues, any, rng);
            if one.bytes.len() + one.range.len() > left {
                return stored(kind, 0, false, rng);
            }
            left -= one.bytes.len() + one.range.len();
            one
        })
        .collect()
}

/// A length, mostly short, 0 among them.
fn residues(rng: &mut Rng) -> usize {
    match rng.below(20) {
        0..=4 => rng.below(3),
        5..=16 => rng.below(40),
        17..=18 => rng.below(300),
        _ => rng.between(3900, 4300),
    }
}

/// A header record for calls that do not open it.
pub fn unread_record(rng: &mut Rng) -> Vec<u8> {
    let length = *rng.pick(&[0, 1, 5, 20]);
    rng.bytes(length)
}
