//! 001's definition of Seq-id as a table, from which bodies of every kind are made, right and wrong.

/// What a definition is. Fields and alternatives have the tags from A0 on.
#[derive(Clone, Copy, Debug)]
pub enum Form {
    Integer,
    Text,
    Choice(&'static [Field]),
    Sequence(&'static [Field]),
}

/// A field of a SEQUENCE, or an alternative of a CHOICE.
#[derive(Clone, Copy, Debug)]
pub struct Field {
    pub name: &'static str,
    pub form: Form,
    pub is_optional: bool,
}

/// The tag at a place of a list.
pub fn tag_at(place: usize) -> u8 {
    0xA0 + place as u8
}

const fn one(name: &'static str, form: Form) -> Field {
    Field { name, form, is_optional: false }
}

const fn maybe(name: &'static str, form: Form) -> Field {
    Field { name, form, is_optional: true }
}

use Form::{Choice, Integer, Sequence, Text};

const OBJECT_ID: &[Field] = &[one("id", Integer), one("str", Text)];

const DBTAG: &[Field] = &[one("db", Text), one("tag", Choice(OBJECT_ID))];

const PATENT_NUMBER: &[Field] = &[one("number", Text), one("app-number", Text)];

const ID_PAT: &[Field] = &[one("country", Text), one("id", Choice(PATENT_NUMBER)), maybe("doc-type", Text)];

const PATENT_SEQ_ID: &[Field] = &[one("seqid", Integer), one("cit", Sequence(ID_PAT))];

const TEXTSEQ_ID: &[Field] =
    &[maybe("name", Text), maybe("accession", Text), maybe("release", Text), maybe("version", Integer)];

const GIIMPORT_ID: &[Field] = &[one("id", Integer), maybe("db", Text), maybe("release", Text)];

const DATE_STD: &[Field] = &[
    one("year", Integer),
    maybe("month", Integer),
    maybe("day", Integer),
    maybe("season", Text),
    maybe("hour", Integer),
    maybe("minute", Integer),
    maybe("second", Integer),
];

const DATE: &[Field] = &[one("str", Text), one("std", Sequence(DATE_STD))];

const PDB_SEQ_ID: &[Field] = &[one("mol", Text), maybe("chain", Integer), maybe("rel", Choice(DATE))];

/// The twenty kinds.
pub const SEQ_ID: &[Field] = &[
    one("local", Choice(OBJECT_ID)),
    one("gibbsq", Integer),
    one("gibbmt", Integer),
    one("giim", Sequence(GIIMPORT_ID)),
    one("genbank", Sequence(TEXTSEQ_ID)),
    one("embl", Sequence(TEXTSEQ_ID)),
    one("pir", Sequence(TEXTSEQ_ID)),
    one("swissprot", Sequence(TEXTSEQ_ID)),
    one("patent", Sequence(PATENT_SEQ_ID)),
    one("other", Sequence(TEXTSEQ_ID)),
    one("general", Sequence(DBTAG)),
    one("gi", Integer),
    one("ddbj", Sequence(TEXTSEQ_ID)),
    one("prf", Sequence(TEXTSEQ_ID)),
    one("pdb", Sequence(PDB_SEQ_ID)),
    one("tpg", Sequence(TEXTSEQ_ID)),
    one("tpe", Sequence(TEXTSEQ_ID)),
    one("tpd", Sequence(TEXTSEQ_ID)),
    one("gpipe", Sequence(TEXTSEQ_ID)),
    one("named-annot-track", Sequence(TEXTSEQ_ID)),
];

/// An identifier of any kind.
pub const IDENTIFIER: Form = Choice(SEQ_ID);
