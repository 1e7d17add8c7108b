//! Document 01's table for the desk, its listing's example, the cases of request 2026-06 and the magics of request 2026-07, as
//! calls with the answers that the documents give, written out by hand. The rows that document 01 calls "Run only" are among
//! them.

use crate::call::{Argument::*, Call, *};
use crate::generate::Case;

/// A row: the document's words, a call, and its line.
pub struct WorkedRow {
    pub words: &'static str,
    pub call: Call,
    pub line: &'static str,
}

pub fn rows() -> Vec<WorkedRow> {
    let mut rows = packed();
    rows.extend(decoded());
    rows.extend(integers());
    rows.extend(depths());
    rows.push(listed());
    rows.extend(magics());
    rows
}

impl WorkedRow {
    pub fn case(&self) -> Case {
        Case::free(self.call.clone(), self.words)
    }
}

fn row(words: &'static str, call: Call, line: &'static str) -> WorkedRow {
    WorkedRow { words, call, line }
}

/// Bytes written in hex.
fn hex(text: &str) -> Vec<u8> {
    let digits: Vec<u8> = text.bytes().filter(|byte| *byte != b' ').collect();
    let value = |digit: u8| (digit as char).to_digit(16).expect("a hex digit") as u8;
    digits.chunks(2).map(|two| value(two[0]) * 16 + value(two[1])).collect()
}

/// Packs codes at place 0 of a buffer of so many packets.
fn pack(alphabet: u64, codes: Vec<u8>, room: usize) -> Call {
    Call::new(PACK, vec![Number(alphabet), Range(codes), Number(0), PacketOutput(room, 0x7777_7777)])
}

fn packed() -> Vec<WorkedRow> {
    vec![
        row("T: DNA ACGT is C0110FFF", pack(2, vec![0, 1, 2, 3], 1), "0 1 4 c0110fff"),
        row("T: no residues, FFFFFFFF", pack(2, vec![], 1), "0 1 0 ffffffff"),
        row("T: 15 A's, 80000000", pack(2, vec![0; 15], 1), "0 1 15 80000000"),
        row("T: 15 T's, BFFFFFFF", pack(2, vec![3; 15], 1), "0 1 15 bfffffff"),
        row("T: 16 A's, 00000000 C1FFFFFF", pack(2, vec![0; 16], 2), "0 2 16 00000000c1ffffff"),
        row("T: amino MK, D48FFFFF", pack(3, vec![10, 8], 1), "0 1 2 d48fffff"),
        row("T: seven amino A's, 40000000 C1FFFFFF", pack(3, vec![0; 7], 2), "0 2 7 40000000c1ffffff"),
        row("Run only: 14 A's take 3 packets", pack(2, vec![0; 14], 3), "0 3 14 4000000040000000c00fffff"),
        row("Run only: 14 A's have no room in 2", pack(2, vec![0; 14], 2), "13 7777777777777777"),
        row("Run only: 30 A's take 2 packets", pack(2, vec![0; 30], 2), "0 2 30 0000000080000000"),
    ]
}

/// Decodes the only sequence of a DNA volume into an output of so many bytes.
fn decode(two_bit: &str, table: &str, room: usize) -> Call {
    let (two_bit, table) = (hex(two_bit), hex(table));
    let [ambiguity, end] = [two_bit.len() as u8, (two_bit.len() + table.len()) as u8];
    // Version 4, type 0, no title, no timestamp, N 1, a count and a longest that decoding does not ask for.
    let mut index =
        hex("00000004 00000000 00000000 00000000 00000001 0000000000000000 00000000 00000000 00000000");
    for offset in [0, end, ambiguity, end] {
        index.extend([0, 0, 0, offset]);
    }
    let sequence = [two_bit, table].concat();
    Call::new(DECODE, vec![Range(index), Range(sequence), Number(0), Output(room, 0x77)])
}

fn decoded() -> Vec<WorkedRow> {
    let n16 = "0 16 0f0f0f0f0f0f0f0f0f0f0f0f0f0f0f0f";
    let no_15 = "12 777777777777777777777777777777";
    vec![
        row("T: two-bit 1B is ACG", decode("1B", "", 4), "0 3 00010277"),
        row("T: 1B 00 is ACGT", decode("1B00", "", 4), "0 4 00010203"),
        row("T: 00 is empty", decode("00", "", 0), "0 0 -"),
        row(
            "T: 00000001 F0000001 over ACGT gives ANGT",
            decode("1B00", "00000001 F0000001", 4),
            "0 4 000f0203",
        ),
        row(
            "T: 80000002 F0000000 00000001 the same",
            decode("1B00", "80000002 F0000000 00000001", 4),
            "0 4 000f0203",
        ),
        row("Run only: FF000000 over 15 bases is 12", decode("00000003", "00000001 FF000000", 15), no_15),
        row("and over 16 bases is 16 N's", decode("0000000000", "00000001 FF000000", 16), n16),
    ]
}

/// Asks for the first identifier, title or label of a header file that is one record.
fn first_identifier(record: &[u8]) -> Call {
    let end = record.len() as u64;
    Call::new(IDENTIFIER, vec![Range(record.to_vec()), Number(0), Number(end), Number(0)])
}

fn first_title(record: &[u8]) -> Call {
    Call { byte: WALKER_STEP, ..first_identifier(record) }
}

fn first_label(record: &[u8]) -> Call {
    let mut index = hex("00000004 00000001 00000000 00000000 00000001 0000000000000000 00000000 00000000");
    index.extend((record.len() as u32).to_be_bytes());
    index.extend(hex("00000001 00000002"));
    Call::new(LABEL, vec![Range(index), Range(record.to_vec()), Number(0)])
}

/// A record with one gi number.
fn integers() -> Vec<WorkedRow> {
    let gi = |integer: &str| {
        first_identifier(&hex(&format!("3080 3080 A180 3080 AB80 {integer} 0000 0000 0000 0000 0000")))
    };
    vec![
        row("T: 02 01 FF is -1", gi("0201FF"), "0 171 -1"),
        row("T: 02 02 00 80 is 128", gi("02020080"), "0 171 128"),
        row("2026-06: 02 02 00 05 goes", gi("02020005"), "20"),
        row("2026-06: 02 02 00 80 stays 128", gi("02020080"), "0 171 128"),
        row("2026-06: 02 01 00 stays 0", gi("020100"), "0 171 0"),
    ]
}

/// A def-line with a title and an identifier whose body goes down from depth 6, list by list, to an integer.
fn nested(lists: usize) -> String {
    let (begin, end) = ("3080".repeat(lists), "0000".repeat(lists));
    let title = "A080 1A0141 0000";
    format!("3080 {title} A180 3080 A480 {begin} 020105 {end} 0000 0000 0000 0000")
}

/// No record of 001 has an element at depth 16: what passes the nesting has a wrong shape since request 2026-05. That it
/// does pass shows where depth 17 stands behind it.
fn depths() -> Vec<WorkedRow> {
    let record = |lines: &str| hex(&format!("3080 {lines} 0000"));
    let last = record(&nested(10));
    let beyond = record(&nested(11));
    let behind = record(&format!("{} {}", nested(10), nested(11)));
    vec![
        row("Run only: depth 16 is not 21", first_title(&last), "20"),
        row("Run only: depth 16 is not 21", first_identifier(&last), "20"),
        row("Run only: depth 16 is not 21", first_label(&last), "20 -"),
        row("Run only: depth 16 passes, 17 is 21", first_title(&behind), "21"),
        row("Run only: depth 17 is 21", first_title(&beyond), "21"),
        row("Run only: depth 17 is 21", first_identifier(&beyond), "21"),
        row("Run only: depth 17 is 21", first_label(&beyond), "21 -"),
    ]
}

fn listed() -> WorkedRow {
    let mut index = hex("00000004 00000001 00000000 00000000 00000002 0200000000000000 00000002");
    for offset in [0, 0, 0, 1, 4, 5] {
        index.extend([0, 0, 0, offset]);
    }
    let call = Call::new(VOLUME_CHECK, vec![Range(index), Range(hex("000C0A0000")), Range(vec![])]);
    row("the listing's volume: MK and an empty sequence", call, "0 1 2 2 2 12 0 16 0")
}

/// The set check of an amino set without sequences. Each file has its magic in hex, its tag is 0, and the index has an alphabet.
fn set(magics: [&str; 3], alphabet: &str) -> Call {
    let files = magics.map(|magic| hex(&format!("{magic} 00000000")));
    let mut ranges = files.map(Range).to_vec();
    if let Range(index) = &mut ranges[0] {
        index.extend(hex(alphabet));
        index.resize(52, 0);
    }
    Call::new(SET_CHECK, ranges)
}

/// The magics as they stand in files: 0xc4d3d1b1 and 0xb1d1d3c4 are what they read little-endian.
fn magics() -> Vec<WorkedRow> {
    let [little, big] = ["B1D1D3C4", "C4D3D1B1"];
    let apart = "2026-07: 14 for files of one set that differ in order";
    vec![
        row(
            "magic 0xc4d3d1b1, read little-endian",
            set([little; 3], "03000000"),
            "0 3302216113 0 3 0 0 0 0 0 0 0 0",
        ),
        row("2026-07: magic reads 0xb1d1d3c4", set([big; 3], "00000003"), "0 3302216113 0 3 0 0 0 0 0 0 0 1"),
        row("2026-07: 14 for any other magic", set(["C4D1D3B1"; 3], "00000003"), "14"),
        row(apart, set([big, little, little], "00000003"), "14"),
        row(apart, set([little, little, big], "03000000"), "14"),
    ]
}
