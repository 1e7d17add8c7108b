//! The values of an identifier as its line has them: an integer is itself, a text its start and length, `-` stands for an
//! optional field that is absent (CASES.md, call 7).

use crate::identifiers::*;
use crate::index::Part;

/// The kind byte, then the kind's values.
pub fn identifier_values(identifier: Identifier) -> Vec<String> {
    let (kind, values) = match identifier {
        Identifier::Local(id) => (160, object_id(id)),
        Identifier::Gibbsq(value) => (161, integer(value)),
        Identifier::Gibbmt(value) => (162, integer(value)),
        Identifier::Giim(import) => (163, giimport_id(import)),
        Identifier::Genbank(id) => (164, textseq_id(id)),
        Identifier::Embl(id) => (165, textseq_id(id)),
        Identifier::Pir(id) => (166, textseq_id(id)),
        Identifier::Swissprot(id) => (167, textseq_id(id)),
        Identifier::Patent(patent) => (168, patent_seq_id(patent)),
        Identifier::Other(id) => (169, textseq_id(id)),
        Identifier::General(dbtag) => (170, [text(dbtag.db), object_id(dbtag.tag)].concat()),
        Identifier::Gi(value) => (171, integer(value)),
        Identifier::Ddbj(id) => (172, textseq_id(id)),
        Identifier::Prf(id) => (173, textseq_id(id)),
        Identifier::Pdb(id) => (174, [text(id.mol), integer(id.chain), release(id.rel)].concat()),
        Identifier::Tpg(id) => (175, textseq_id(id)),
        Identifier::Tpe(id) => (176, textseq_id(id)),
        Identifier::Tpd(id) => (177, textseq_id(id)),
        Identifier::Gpipe(id) => (178, textseq_id(id)),
        Identifier::NamedAnnotTrack(id) => (179, textseq_id(id)),
    };
    [integer(kind), values].concat()
}

fn integer(value: i128) -> Vec<String> {
    vec![value.to_string()]
}

fn text(part: Part) -> Vec<String> {
    vec![part.start.to_string(), part.length.to_string()]
}

fn absent() -> Vec<String> {
    vec!["-".to_string()]
}

fn integer_or_none(value: Option<i128>) -> Vec<String> {
    value.map_or_else(absent, integer)
}

fn text_or_none(part: Option<Part>) -> Vec<String> {
    part.map_or_else(absent, text)
}

/// `0` and the number, or `1` and the text.
fn object_id(id: ObjectId) -> Vec<String> {
    match id {
        ObjectId::Number(value) => [integer(0), integer(value)].concat(),
        ObjectId::Text(part) => [integer(1), text(part)].concat(),
    }
}

/// id, db, release.
fn giimport_id(import: GiimportId) -> Vec<String> {
    [integer(import.id), text_or_none(import.db), text_or_none(import.release)].concat()
}

/// name, accession, release, version.
fn textseq_id(id: TextseqId) -> Vec<String> {
    let texts = [id.name, id.accession, id.release].map(text_or_none).concat();
    [texts, integer_or_none(id.version)].concat()
}

/// seqid, country, `0` for a number or `1` for an app-number and its text, doc-type.
fn patent_seq_id(patent: PatentSeqId) -> Vec<String> {
    let number = match patent.cit.id {
        PatentNumber::Number(part) => [integer(0), text(part)],
        PatentNumber::AppNumber(part) => [integer(1), text(part)],
    };
    let doc_type = text_or_none(patent.cit.doc_type);
    [integer(patent.seqid), text(patent.cit.country), number.concat(), doc_type].concat()
}

/// `-`, or `0` and the text, or `1` and year, month, day, season, hour, minute, second.
fn release(date: Option<Date>) -> Vec<String> {
    match date {
        None => absent(),
        Some(Date::Text(part)) => [integer(0), text(part)].concat(),
        Some(Date::Std(date)) => {
            let day = [integer(date.year), integer_or_none(date.month), integer_or_none(date.day)];
            let time = [date.hour, date.minute, date.second].map(integer_or_none);
            [integer(1), day.concat(), text_or_none(date.season), time.concat()].concat()
        }
    }
}
