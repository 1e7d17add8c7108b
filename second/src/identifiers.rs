//! The identifiers of source 001 (request 2026-05): its definitions one by one, in its names. A wrong body is 20; what 001
//! says in comments ("4 chars", "month (1-12)") is no rule.

use crate::answers::*;
use crate::elements::Element;
use crate::index::Part;
use crate::shape::{choice, integer, sequence, text};

/// The twenty kinds as 001 writes them. The first has the tag A0, each later one the next.
pub const KIND_NAMES: [&str; 20] = [
    "local",
    "gibbsq",
    "gibbmt",
    "giim",
    "genbank",
    "embl",
    "pir",
    "swissprot",
    "patent",
    "other",
    "general",
    "gi",
    "ddbj",
    "prf",
    "pdb",
    "tpg",
    "tpe",
    "tpd",
    "gpipe",
    "named-annot-track",
];

/// The tag of the first kind.
pub const FIRST_KIND: u8 = 0xA0;

/// Seq-id.
#[derive(Clone, Copy, Debug, PartialEq, Eq)]
pub enum Identifier {
    Local(ObjectId),
    Gibbsq(i128),
    Gibbmt(i128),
    Giim(GiimportId),
    Genbank(TextseqId),
    Embl(TextseqId),
    Pir(TextseqId),
    Swissprot(TextseqId),
    Patent(PatentSeqId),
    Other(TextseqId),
    General(Dbtag),
    Gi(i128),
    Ddbj(TextseqId),
    Prf(TextseqId),
    Pdb(PdbSeqId),
    Tpg(TextseqId),
    Tpe(TextseqId),
    Tpd(TextseqId),
    Gpipe(TextseqId),
    NamedAnnotTrack(TextseqId),
}

pub fn identifier(element: &Element) -> Answer<Identifier> {
    let (tag, body) = choice(element)?;
    Ok(match tag {
        0xA0 => Identifier::Local(object_id(body)?),
        0xA1 => Identifier::Gibbsq(integer(body)?),
        0xA2 => Identifier::Gibbmt(integer(body)?),
        0xA3 => Identifier::Giim(giimport_id(body)?),
        0xA4 => Identifier::Genbank(textseq_id(body)?),
        0xA5 => Identifier::Embl(textseq_id(body)?),
        0xA6 => Identifier::Pir(textseq_id(body)?),
        0xA7 => Identifier::Swissprot(textseq_id(body)?),
        0xA8 => Identifier::Patent(patent_seq_id(body)?),
        0xA9 => Identifier::Other(textseq_id(body)?),
        0xAA => Identifier::General(dbtag(body)?),
        0xAB => Identifier::Gi(integer(body)?),
        0xAC => Identifier::Ddbj(textseq_id(body)?),
        0xAD => Identifier::Prf(textseq_id(body)?),
        0xAE => Identifier::Pdb(pdb_seq_id(body)?),
        0xAF => Identifier::Tpg(textseq_id(body)?),
        0xB0 => Identifier::Tpe(textseq_id(body)?),
        0xB1 => Identifier::Tpd(textseq_id(body)?),
        0xB2 => Identifier::Gpipe(textseq_id(body)?),
        0xB3 => Identifier::NamedAnnotTrack(textseq_id(body)?),
        _ => return Err(BAD_RECORD),
    })
}

/// Dbtag: `db` and `tag`.
#[derive(Clone, Copy, Debug, PartialEq, Eq)]
pub struct Dbtag {
    pub db: Part,
    pub tag: ObjectId,
}

fn dbtag(element: &Element) -> Answer<Dbtag> {
    sequence(element, |fields| {
        Ok(Dbtag { db: fields.required(0xA0, text)?, tag: fields.required(0xA1, object_id)? })
    })
}

/// Object-id: `id` or `str`.
#[derive(Clone, Copy, Debug, PartialEq, Eq)]
pub enum ObjectId {
    Number(i128),
    Text(Part),
}

fn object_id(element: &Element) -> Answer<ObjectId> {
    match choice(element)? {
        (0xA0, body) => Ok(ObjectId::Number(integer(body)?)),
        (0xA1, body) => Ok(ObjectId::Text(text(body)?)),
        _ => Err(BAD_RECORD),
    }
}

/// Patent-seq-id: the number of the sequence in the patent, and the patent.
#[derive(Clone, Copy, Debug, PartialEq, Eq)]
pub struct PatentSeqId {
    pub seqid: i128,
    pub cit: IdPat,
}

fn patent_seq_id(element: &Element) -> Answer<PatentSeqId> {
    sequence(element, |fields| {
        Ok(PatentSeqId { seqid: fields.required(0xA0, integer)?, cit: fields.required(0xA1, id_pat)? })
    })
}

/// Textseq-id. Every field may be absent.
#[derive(Clone, Copy, Debug, PartialEq, Eq)]
pub struct TextseqId {
    pub name: Option<Part>,
    pub accession: Option<Part>,
    pub release: Option<Part>,
    pub version: Option<i128>,
}

fn textseq_id(element: &Element) -> Answer<TextseqId> {
    sequence(element, |fields| {
        Ok(TextseqId {
            name: fields.optional(0xA0, text)?,
            accession: fields.optional(0xA1, text)?,
            release: fields.optional(0xA2, text)?,
            version: fields.optional(0xA3, integer)?,
        })
    })
}

/// Giimport-id.
#[derive(Clone, Copy, Debug, PartialEq, Eq)]
pub struct GiimportId {
    pub id: i128,
    pub db: Option<Part>,
    pub release: Option<Part>,
}

fn giimport_id(element: &Element) -> Answer<GiimportId> {
    sequence(element, |fields| {
        Ok(GiimportId {
            id: fields.required(0xA0, integer)?,
            db: fields.optional(0xA1, text)?,
            release: fields.optional(0xA2, text)?,
        })
    })
}

/// PDB-seq-id. A chain that is absent is 32.
#[derive(Clone, Copy, Debug, PartialEq, Eq)]
pub struct PdbSeqId {
    pub mol: Part,
    pub chain: i128,
    pub rel: Option<Date>,
}

fn pdb_seq_id(element: &Element) -> Answer<PdbSeqId> {
    sequence(element, |fields| {
        Ok(PdbSeqId {
            mol: fields.required(0xA0, text)?,
            chain: fields.optional(0xA1, integer)?.unwrap_or(32),
            rel: fields.optional(0xA2, date)?,
        })
    })
}

/// Id-pat: country, number and type of a patent.
#[derive(Clone, Copy, Debug, PartialEq, Eq)]
pub struct IdPat {
    pub country: Part,
    pub id: PatentNumber,
    pub doc_type: Option<Part>,
}

fn id_pat(element: &Element) -> Answer<IdPat> {
    sequence(element, |fields| {
        Ok(IdPat {
            country: fields.required(0xA0, text)?,
            id: fields.required(0xA1, patent_number)?,
            doc_type: fields.optional(0xA2, text)?,
        })
    })
}

/// The choice inside Id-pat: `number` or `app-number`.
#[derive(Clone, Copy, Debug, PartialEq, Eq)]
pub enum PatentNumber {
    Number(Part),
    AppNumber(Part),
}

fn patent_number(element: &Element) -> Answer<PatentNumber> {
    match choice(element)? {
        (0xA0, body) => Ok(PatentNumber::Number(text(body)?)),
        (0xA1, body) => Ok(PatentNumber::AppNumber(text(body)?)),
        _ => Err(BAD_RECORD),
    }
}

/// Date: `str` or `std`.
#[derive(Clone, Copy, Debug, PartialEq, Eq)]
pub enum Date {
    Text(Part),
    Std(DateStd),
}

fn date(element: &Element) -> Answer<Date> {
    match choice(element)? {
        (0xA0, body) => Ok(Date::Text(text(body)?)),
        (0xA1, body) => Ok(Date::Std(date_std(body)?)),
        _ => Err(BAD_RECORD),
    }
}

/// Date-std. Only the year must be there.
#[derive(Clone, Copy, Debug, PartialEq, Eq)]
pub struct DateStd {
    pub year: i128,
    pub month: Option<i128>,
    pub day: Option<i128>,
    pub season: Option<Part>,
    pub hour: Option<i128>,
    pub minute: Option<i128>,
    pub second: Option<i128>,
}

fn date_std(element: &Element) -> Answer<DateStd> {
    sequence(element, |fields| {
        Ok(DateStd {
            year: fields.required(0xA0, integer)?,
            month: fields.optional(0xA1, integer)?,
            day: fields.optional(0xA2, integer)?,
            season: fields.optional(0xA3, text)?,
            hour: fields.optional(0xA4, integer)?,
            minute: fields.optional(0xA5, integer)?,
            second: fields.optional(0xA6, integer)?,
        })
    })
}

/// The name of a kind into the output's first bytes; gives its length. 4 where there is no such kind, then 13.
pub fn kind_name(kind: i128, output: &mut [u8]) -> Answer<i128> {
    let place = kind - FIRST_KIND as i128;
    ask((0..20).contains(&place), OUT_OF_RANGE)?;
    let name = KIND_NAMES[place as usize].as_bytes();
    ask(output.len() >= name.len(), NO_ROOM)?;
    output[..name.len()].copy_from_slice(name);
    Ok(name.len() as i128)
}
