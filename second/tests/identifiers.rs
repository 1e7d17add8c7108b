//! Identifiers of every kind (request 2026-05): bytes written out by hand from 001's definitions, wrong bodies, the names
//! of the kinds, and every identifier of the real volumes.

mod common;

use common::bytes;
use second::answers::*;
use second::call::{Argument::*, Call, IDENTIFIER, KIND_NAME, LABEL, WALKER_STEP};
use second::generate::definitions::SEQ_ID;
use second::identifiers::*;
use second::index::{read_index, Part};
use second::line::line_of;
use second::records::identifier;

/// A record whose only def-line has a gi, which is at places 8 to 14, and then this identifier, which begins at 15.
fn record(identifier: &str) -> Vec<u8> {
    bytes(&format!("3080 3080 A180 3080 AB80 020101 0000 {identifier} 0000 0000 0000 0000"))
}

/// The line of a call over such a record.
fn line_over(byte: u8, identifier: &str, number: u64) -> String {
    let record = record(identifier);
    let end = record.len() as u64;
    line_of(&Call::new(byte, vec![Range(record), Number(0), Number(end), Number(number)]))
}

fn line(identifier: &str) -> String {
    line_over(IDENTIFIER, identifier, 1)
}

/// The tags of the twelve kinds that are Textseq-ids.
const TEXT_IDS: [u8; 12] = [0xA4, 0xA5, 0xA6, 0xA7, 0xA9, 0xAC, 0xAD, 0xAF, 0xB0, 0xB1, 0xB2, 0xB3];

#[test]
fn kinds_that_are_numbers_or_names() {
    assert_eq!(line("A080 A080 02012A 0000 0000"), "0 160 0 42");
    assert_eq!(line("A080 A180 1A0141 0000 0000"), "0 160 1 21 1");
    assert_eq!(line("A080 A180 1A00 0000 0000"), "0 160 1 21 0");
    assert_eq!(line("A180 02020100 0000"), "0 161 256");
    assert_eq!(line("A280 0201FF 0000"), "0 162 -1");
    assert_eq!(line("AB80 02088000000000000000 0000"), "0 171 -9223372036854775808");
    assert_eq!(line_over(IDENTIFIER, "A180 020105 0000", 0), "0 171 1");
    assert_eq!(line_over(IDENTIFIER, "A180 020105 0000", 2), "10");
}

#[test]
fn imports() {
    let giim = |fields: &str| line(&format!("A380 3080 {fields} 0000 0000"));
    assert_eq!(giim("A080 020163 0000"), "0 163 99 - -");
    assert_eq!(giim("A080 020163 0000 A180 1A0141 0000"), "0 163 99 30 1 -");
    assert_eq!(giim("A080 020163 0000 A280 1A0141 0000"), "0 163 99 - 30 1");
    assert_eq!(giim("A080 020163 0000 A180 1A0141 0000 A280 1A00 0000"), "0 163 99 30 1 37 0");
}

#[test]
fn text_ids_of_twelve_kinds() {
    for tag in TEXT_IDS {
        let id = |fields: &str| line(&format!("{tag:02X}80 3080 {fields} 0000 0000"));
        assert_eq!(id(""), format!("0 {tag} - - - -"));
        let all = "A080 1A0141 0000 A180 1A024142 0000 A280 1A00 0000 A380 020107 0000";
        assert_eq!(id(all), format!("0 {tag} 23 1 30 2 38 0 7"));
        assert_eq!(id("A080 1A0141 0000"), format!("0 {tag} 23 1 - - -"));
        assert_eq!(id("A180 1A0141 0000"), format!("0 {tag} - 23 1 - -"));
        assert_eq!(id("A280 1A810141 0000"), format!("0 {tag} - - 24 1 -"));
        assert_eq!(id("A380 0201FE 0000"), format!("0 {tag} - - - -2"));
        // Empty is not absent.
        assert_eq!(id("A080 1A00 0000"), format!("0 {tag} 23 0 - - -"));
    }
}

#[test]
fn patents() {
    let patent = |cit: &str| line(&format!("A880 3080 A080 020105 0000 A180 3080 {cit} 0000 0000 0000 0000"));
    let country = "A080 1A025553 0000";
    let number = |tag: &str| format!("A180 {tag}80 1A0139 0000 0000");
    assert_eq!(patent(&format!("{country} {}", number("A0"))), "0 168 5 34 2 0 44 1 -");
    assert_eq!(patent(&format!("{country} {}", number("A1"))), "0 168 5 34 2 1 44 1 -");
    let doc_type = "A280 1A0141 0000";
    assert_eq!(patent(&format!("{country} {} {doc_type}", number("A0"))), "0 168 5 34 2 0 44 1 53 1");
}

#[test]
fn tagged_databases() {
    let general = |tag: &str| line(&format!("AA80 3080 A080 1A0144 0000 A180 {tag} 0000 0000 0000"));
    assert_eq!(general("A080 020105 0000"), "0 170 23 1 0 5");
    assert_eq!(general("A180 1A024142 0000"), "0 170 23 1 1 32 2");
}

#[test]
fn structures_and_their_dates() {
    let pdb = |fields: &str| line(&format!("AE80 3080 A080 1A0431414243 0000 {fields} 0000 0000"));
    assert_eq!(pdb(""), "0 174 23 4 32 -");
    assert_eq!(pdb("A180 020120 0000"), "0 174 23 4 32 -");
    assert_eq!(pdb("A180 020141 0000"), "0 174 23 4 65 -");
    assert_eq!(pdb("A180 020100 0000"), "0 174 23 4 0 -");
    assert_eq!(pdb("A280 A080 1A0141 0000 0000"), "0 174 23 4 32 0 35 1");
    let std = |fields: &str| pdb(&format!("A280 A180 3080 {fields} 0000 0000 0000"));
    let year = "A080 020207CF 0000";
    assert_eq!(std(year), "0 174 23 4 32 1 1999 - - - - - -");
    let all = "A180 020102 0000 A280 020103 0000 A380 1A024142 0000 A480 020104 0000 A580 020105 0000 A680 020106 0000";
    assert_eq!(std(&format!("{year} {all}")), "0 174 23 4 32 1 1999 2 3 61 2 4 5 6");
    for (tag, rest) in [
        ("A1", "7 - - - - -"),
        ("A2", "- 7 - - - -"),
        ("A4", "- - - 7 - -"),
        ("A5", "- - - - 7 -"),
        ("A6", "- - - - - 7"),
    ] {
        assert_eq!(std(&format!("{year} {tag}80 020107 0000")), format!("0 174 23 4 32 1 1999 {rest}"));
    }
    assert_eq!(std(&format!("{year} A380 1A00 0000")), "0 174 23 4 32 1 1999 - - 47 0 - - -");
}

/// Every call over a record with this identifier is 20, whichever number is asked for.
fn refuses(identifier: &str) {
    for number in [0, 1, 9] {
        assert_eq!(line_over(IDENTIFIER, identifier, number), "20", "{identifier}");
        assert_eq!(line_over(WALKER_STEP, identifier, number), "20", "{identifier}");
    }
    let record = record(identifier);
    let mut index = bytes("00000004 00000001 00000000 00000000 00000001 0000000000000000 00000000 00000000");
    index.extend((record.len() as u32).to_be_bytes());
    index.extend(bytes("00000001 00000002"));
    assert_eq!(line_of(&Call::new(LABEL, vec![Range(index), Range(record), Number(0)])), "20 -");
}

#[test]
fn wrong_bodies_of_simple_kinds() {
    for wrong in [
        "020105",
        "1A00",
        "3080 0000",
        "A080 020105 0000",
        "A080 1A00 0000",
        "A080 3080 0000 0000",
        "A080 A080 1A00 0000 0000",
        "A080 A180 020105 0000 0000",
        "A080 A280 020105 0000 0000",
        "A080 A080 A080 020105 0000 0000 0000",
        "A180 1A00 0000",
        "A280 3080 0000 0000",
        "AB80 A080 020105 0000 0000",
    ] {
        refuses(wrong);
    }
}

#[test]
fn wrong_records_of_fields() {
    let (number, text) = ("020105", "1A0141");
    let field = |tag: &str, body: &str| format!("{tag}80 {body} 0000");
    let kind = |tag: &str, fields: &[String]| field(tag, &format!("3080 {} 0000", fields.concat()));
    let [id, db, release] =
        [field("A0", number), field("A1", text), field("A2", text)].map(|one| move || one.clone());
    refuses(&kind("A3", &[]));
    refuses(&kind("A3", &[db(), release()]));
    refuses(&kind("A3", &[id(), id()]));
    refuses(&kind("A3", &[id(), release(), db()]));
    refuses(&kind("A3", &[id(), field("A3", text)]));
    refuses(&kind("A3", &[id(), field("A1", number)]));
    for tag in TEXT_IDS.map(|tag| format!("{tag:02X}")) {
        refuses(&field(&tag, number));
        refuses(&field(&tag, text));
        refuses(&field(&tag, &field("A0", text)));
        refuses(&kind(&tag, &[text.to_string()]));
        refuses(&kind(&tag, &[field("A0", number)]));
        refuses(&kind(&tag, &[field("A3", text)]));
        refuses(&kind(&tag, &[field("A4", number)]));
        refuses(&kind(&tag, &[field("A1", text), field("A0", text)]));
        refuses(&kind(&tag, &[field("A3", number), field("A3", number)]));
    }
}

#[test]
fn wrong_inner_records() {
    let (number, text) = ("020105", "1A0141");
    let field = |tag: &str, body: &str| format!("{tag}80 {body} 0000");
    let list = |fields: &[String]| format!("3080 {} 0000", fields.concat());
    // Patents: no country, no id, an id tagged once, an unknown id, a field behind, no citation, no seqid.
    let (seqid, country) = (field("A0", number), field("A0", text));
    let id = field("A1", &field("A0", text));
    let patent = |cit: &[String]| field("A8", &list(&[field("A0", number), field("A1", &list(cit))]));
    assert_eq!(line(&patent(&[country.clone(), id.clone()])), "0 168 5 34 1 0 43 1 -");
    refuses(&patent(&[id.clone()]));
    refuses(&patent(&[country.clone()]));
    refuses(&patent(&[country.clone(), field("A1", text)]));
    refuses(&patent(&[country.clone(), field("A1", &field("A2", text))]));
    refuses(&patent(&[country.clone(), id.clone(), field("A3", text)]));
    refuses(&field("A8", &list(&[seqid])));
    refuses(&field("A8", &list(&[field("A1", &list(&[country, id]))])));
    // Databases: no db, no tag, a tag tagged once, an unknown tag.
    let db = field("A0", text);
    refuses(&field("AA", &list(&[field("A1", &field("A0", number))])));
    refuses(&field("AA", &list(&[db.clone()])));
    refuses(&field("AA", &list(&[db.clone(), field("A1", number)])));
    refuses(&field("AA", &list(&[db, field("A1", &field("A2", number))])));
    // Structures: no mol, makeblastdb's field A3, a date tagged once, a date without its year or with a field too many.
    let mol = || field("A0", text);
    let released = |date: &str| field("AE", &list(&[mol(), field("A2", date)]));
    assert_eq!(line(&released(&field("A0", text))), "0 174 23 1 32 0 32 1");
    refuses(&field("AE", &list(&[field("A1", number)])));
    refuses(&field("AE", &list(&[mol(), field("A1", number), field("A3", text)])));
    refuses(&released(text));
    refuses(&released(&list(&[field("A0", number)])));
    refuses(&released(&field("A2", text)));
    refuses(&released(&field("A1", &list(&[]))));
    refuses(&released(&field("A1", &list(&[field("A1", number)]))));
    refuses(&released(&field("A1", &list(&[field("A0", number), field("A3", number)]))));
    refuses(&released(&field("A1", &list(&[field("A0", number), field("A7", number)]))));
}

#[test]
fn a_wrong_body_comes_after_the_whole_nesting() {
    let deep = format!("A480 {} 0201 {} 0000", "3080".repeat(11), "0000".repeat(11));
    assert_eq!(line(&format!("AB80 1A00 0000 {deep}")), "21");
    assert_eq!(line("AB80 1A00 0000 AB80 0200 0000"), "20");
}

#[test]
fn names_of_kinds() {
    let names: Vec<&str> = SEQ_ID.iter().map(|kind| kind.name).collect();
    assert_eq!(names, KIND_NAMES);
    let named =
        |kind: u64, room: usize| line_of(&Call::new(KIND_NAME, vec![Number(kind), Output(room, 0xEE)]));
    assert_eq!(named(160, 5), "0 5 6c6f63616c");
    assert_eq!(named(160, 7), "0 5 6c6f63616ceeee");
    assert_eq!(named(160, 4), "13 eeeeeeee");
    assert_eq!(named(171, 2), "0 2 6769");
    assert_eq!(named(179, 17), "0 17 6e616d65642d616e6e6f742d747261636b");
    assert_eq!(named(179, 0), "13 -");
    assert_eq!(named(159, 0), "4 -");
    assert_eq!(named(180, 3), "4 eeeeee");
    assert_eq!(named((1 << 32) + 160, 9), "4 eeeeeeeeeeeeeeeeee");
}

/// An identifier as 001 would print it, in one line. A chain is always printed.
struct Printer<'a> {
    file: &'a [u8],
}

impl Printer<'_> {
    fn text(&self, part: Part) -> String {
        let bytes = &self.file[part.start as usize..(part.start + part.length) as usize];
        format!("\"{}\"", String::from_utf8_lossy(bytes))
    }

    fn object_id(&self, id: ObjectId) -> String {
        match id {
            ObjectId::Number(value) => format!("id {value}"),
            ObjectId::Text(part) => format!("str {}", self.text(part)),
        }
    }

    fn textseq_id(&self, id: TextseqId) -> String {
        let texts = [("name", id.name), ("accession", id.accession), ("release", id.release)];
        let texts = texts.into_iter().filter_map(|(name, part)| Some(format!("{name} {}", self.text(part?))));
        let version = id.version.map(|version| format!("version {version}"));
        texts.chain(version).collect::<Vec<_>>().join(" , ")
    }

    fn body(&self, identifier: Identifier) -> String {
        use Identifier::*;
        match identifier {
            Local(id) => self.object_id(id),
            Gibbsq(value) | Gibbmt(value) | Gi(value) => value.to_string(),
            Giim(import) => format!("{{ id {} }}", import.id),
            Patent(patent) => {
                let PatentNumber::Number(number) = patent.cit.id else { panic!("no real one has this") };
                let (country, number) = (self.text(patent.cit.country), self.text(number));
                format!("{{ seqid {} , cit {{ country {country} , id number {number} }} }}", patent.seqid)
            }
            General(tagged) => {
                format!("{{ db {} , tag {} }}", self.text(tagged.db), self.object_id(tagged.tag))
            }
            Pdb(id) => format!("{{ mol {} , chain {} }}", self.text(id.mol), id.chain),
            Genbank(id) | Embl(id) | Pir(id) | Swissprot(id) | Other(id) | Ddbj(id) | Prf(id) | Tpg(id)
            | Tpe(id) | Tpd(id) | Gpipe(id) | NamedAnnotTrack(id) => format!("{{ {} }}", self.textseq_id(id)),
        }
    }
}

/// The identifiers of a record, each with its kind's name, or the number of the refusal.
fn printed(file: &[u8], start: i128, end: i128) -> Result<Vec<String>, u32> {
    let mut all = Vec::new();
    loop {
        let found = match identifier(file, start, end, all.len() as i128) {
            Ok(found) => found,
            Err(NO_SUCH_NUMBER) => return Ok(all),
            Err(number) => return Err(number),
        };
        let kind: usize = second::values::identifier_values(found)[0].parse().unwrap();
        all.push(format!("{} {}", KIND_NAMES[kind - 0xA0], Printer { file }.body(found)));
    }
}

/// All records of a real volume, each as its identifiers or as the number of its refusal.
fn of_volume(name: &str) -> Vec<String> {
    let volume = common::samples().volumes.into_iter().find(|volume| volume.name == name).unwrap();
    let offsets = read_index(&volume.index).unwrap().header_offsets;
    let record = |two: &[i128]| match printed(&volume.header, two[0], two[1]) {
        Ok(identifiers) => identifiers.join("; "),
        Err(number) => number.to_string(),
    };
    offsets.windows(2).map(record).collect()
}

#[test]
fn identifiers_of_a_real_protein_volume() {
    // Records 2 and 3 have a pdb field A3 that 001 does not list.
    let wanted = [
        r#"gi 6678; swissprot { name "OVAL_CHICK" , accession "P01013" , release "reviewed" , version 2 }"#,
        r#"swissprot { name "HBA_HUMAN" , accession "P69905" , release "reviewed" }"#,
        "20",
        "20",
        r#"pdb { mol "9XYZ" , chain 32 }"#,
        r#"pir { name "A12345" }"#,
        r#"prf { name "1234567A" }"#,
        r#"swissprot { name "Q12345_HUMAN" , accession "Q12345" , release "unreviewed" }"#,
        r#"other { accession "NP_000005" , version 3 }"#,
        r#"genbank { accession "AAA12345" , version 1 }"#,
        r#"general { db "BL_ORD_ID" , tag id 5 }"#,
        "local id 42",
        r#"local str "x-y""#,
        r#"patent { seqid 12 , cit { country "EP" , id number "0123456" } }"#,
        concat!(
            r#"swissprot { name "A" , accession "P00001" , release "reviewed" , version 1 }; "#,
            r#"swissprot { name "B" , accession "P00002" , release "reviewed" , version 1 }; "#,
            r#"gi 77; other { accession "NP_9" , version 1 }"#
        ),
        r#"patent { seqid 13 , cit { country "EP" , id number "0123457" } }"#,
        r#"ddbj { accession "BAA00001" , version 1 }"#,
        r#"embl { accession "CAA00001" , version 1 }"#,
    ];
    assert_eq!(of_volume("mb_protidt"), wanted);
}

#[test]
fn identifiers_of_a_real_dna_volume() {
    // Record 18 has a pdb field A3 that 001 does not list.
    let wanted = [
        r#"gi 129295; genbank { name "LOCUS1" , accession "M12345" , version 1 }"#,
        "local id 12345",
        r#"local str "abc_def""#,
        r#"genbank { accession "U00096" , version 3 }"#,
        r#"embl { accession "X12345" , version 2 }"#,
        r#"ddbj { accession "D00001" , version 1 }"#,
        r#"other { accession "NM_000014" , version 5 }"#,
        r#"general { db "mydb" , tag str "tag1" }"#,
        r#"general { db "mydb" , tag id 77 }"#,
        r#"tpg { accession "BK000001" , version 1 }"#,
        r#"patent { seqid 7 , cit { country "US" , id number "5959038" } }"#,
        "gibbsq 1234",
        "gibbmt 4321",
        "giim { id 99 }",
        r#"tpe { accession "BN000001" , version 1 }"#,
        r#"tpd { accession "BR000001" , version 1 }"#,
        r#"gpipe { accession "GPC_000000001" , version 1 }"#,
        r#"named-annot-track { accession "AT_000000001" , version 1 }"#,
        "20",
        "gi 4294967290",
        r#"local str "plainname""#,
        concat!(
            r#"genbank { name "LOC9" , accession "M99999" , version 1 }; gi 555; "#,
            r#"embl { accession "X99999" , version 4 }; local str "third""#
        ),
        r#"local str "7000000000""#,
        r#"local str "007""#,
        r#"local str "0""#,
        r#"local str "empty_title""#,
        r#"local str "longt""#,
    ];
    assert_eq!(of_volume("mb_nucidt"), wanted);
}

#[test]
fn identifiers_of_other_real_volumes() {
    for name in ["mb_prot", "mb_nuc", "re_nuc0", "re_nuc04", "mb_short", "fd_nuc"] {
        for (k, found) in of_volume(name).iter().enumerate() {
            assert_eq!(*found, format!(r#"general {{ db "BL_ORD_ID" , tag id {k} }}"#), "{name} {k}");
        }
    }
    let titles: Vec<String> = (0..6).map(|k| format!(r#"local str "t{k}""#)).collect();
    assert_eq!(of_volume("fd_titles"), titles);
}

#[test]
fn the_record_that_is_also_there_as_text() {
    let record = common::samples().record;
    let found = printed(&record, 0, record.len() as i128).unwrap();
    let text = include_str!("../../samples/volumes/ctk_defline.txt");
    let text = text.split_whitespace().collect::<Vec<_>>().join(" ");
    // The lists of identifiers in the text, in order.
    let lists: Vec<&str> =
        text.split("seqid { ").skip(1).map(|rest| rest.split(" } , taxid").next().unwrap()).collect();
    let expected: Vec<String> = vec![found[..2].join(" , "), found[2].clone(), found[3].clone()];
    assert_eq!(lists, expected);
}
