//! The rules of identifiers in the shape of a record: one for each definition of 001.

use super::definitions::SEQ_ID;
use super::nodes::{choice, Node};
use super::record_faults::in_list;
use super::record_rules::{fields, integer, text, Parts};
use super::rules::{rule, Rule};
use crate::answers::BAD_RECORD;

/// Values by name, each an identifier.
type Values<'a> = &'a [(&'a str, Node)];

/// A rule of identifiers with its values on both sides.
fn identifiers(name: &'static str, good: Values, bad: Values) -> Rule<Parts> {
    fields(rule(BAD_RECORD, name), &lines(good), &lines(bad))
}

/// Each value in a def-line of its own.
fn lines<'a>(values: Values<'a>) -> Vec<(&'a str, Vec<Node>)> {
    values.iter().map(|(value, node)| (*value, in_list(node.clone()))).collect()
}

/// A list of fields, each by its tag.
fn sequence(fields: &[(u8, Node)]) -> Node {
    Node::List(fields.iter().map(|(tag, body)| choice(*tag, body.clone())).collect())
}

pub fn rules() -> Vec<Rule<Parts>> {
    vec![
        seq_id(),
        integers(),
        local(),
        giimport_id(),
        text_ids(),
        textseq_id(),
        patent_seq_id(),
        id_pat(),
        dbtag(),
        pdb_seq_id(),
        date(),
        date_std(),
    ]
}

fn seq_id() -> Rule<Parts> {
    fields(
        rule(BAD_RECORD, "A1 is a list of identifiers"),
        &[
            ("none", vec![choice(0xA1, Node::List(vec![]))]),
            ("two", vec![choice(0xA1, Node::List(vec![choice(0xAB, integer()), choice(0xA1, integer())]))]),
        ],
        &[
            ("no list", vec![choice(0xA1, choice(0xAB, integer()))]),
            ("an integer in the list", in_list(integer())),
            ("a text in the list", in_list(text())),
            ("a list in the list", in_list(Node::List(vec![]))),
        ],
    )
}

fn integers() -> Rule<Parts> {
    identifiers(
        "gibbsq, gibbmt and gi are integers",
        &[
            ("gibbsq", choice(0xA1, integer())),
            ("gibbmt", choice(0xA2, integer())),
            ("gi", choice(0xAB, integer())),
            ("gi of 8 bytes", choice(0xAB, Node::Integer(vec![0x80; 8]))),
        ],
        &[
            ("gibbsq a text", choice(0xA1, text())),
            ("gibbmt a list", choice(0xA2, Node::List(vec![integer()]))),
            ("gi a text", choice(0xAB, text())),
            ("gi in a choice", choice(0xAB, choice(0xA0, integer()))),
        ],
    )
}

fn local() -> Rule<Parts> {
    let local = |body: Node| choice(0xA0, body);
    identifiers(
        "local is an Object-id: A0 with an integer or A1 with a text",
        &[
            ("A0 integer", local(choice(0xA0, integer()))),
            ("A1 text", local(choice(0xA1, text()))),
            ("A1 empty text", local(choice(0xA1, Node::Text(0, vec![])))),
        ],
        &[
            ("A0 text", local(choice(0xA0, text()))),
            ("A1 integer", local(choice(0xA1, integer()))),
            ("A2 integer", local(choice(0xA2, integer()))),
            ("A2 text", local(choice(0xA2, text()))),
            ("an integer without a tag", local(integer())),
            ("a list", local(sequence(&[(0xA0, integer())]))),
        ],
    )
}

fn giimport_id() -> Rule<Parts> {
    let giim = |fields: &[(u8, Node)]| choice(0xA3, sequence(fields));
    let id = || (0xA0, integer());
    let [db, release] = [0xA1, 0xA2].map(|tag| move || (tag, text()));
    identifiers(
        "giim has id, and db and release or not",
        &[
            ("id", giim(&[id()])),
            ("id, release", giim(&[id(), release()])),
            ("id, db, release", giim(&[id(), db(), release()])),
        ],
        &[
            ("none", giim(&[])),
            ("db, release", giim(&[db(), release()])),
            ("id twice", giim(&[id(), id()])),
            ("id, release, db", giim(&[id(), release(), db()])),
            ("id a text", giim(&[(0xA0, text())])),
            ("db an integer", giim(&[id(), (0xA1, integer())])),
            ("A3 behind", giim(&[id(), db(), release(), (0xA3, text())])),
        ],
    )
}

/// The kinds that are Textseq-ids, by their places in 001's list.
const TEXT_IDS: [usize; 12] = [4, 5, 6, 7, 9, 12, 13, 15, 16, 17, 18, 19];

fn text_ids() -> Rule<Parts> {
    let each = |body: &Node| -> Vec<(&'static str, Node)> {
        TEXT_IDS.map(|place| (SEQ_ID[place].name, choice(0xA0 + place as u8, body.clone()))).to_vec()
    };
    let good = each(&sequence(&[(0xA0, text()), (0xA1, text()), (0xA2, text()), (0xA3, integer())]));
    let bad = each(&sequence(&[(0xA0, text()), (0xA1, text()), (0xA2, integer())]));
    identifiers("twelve kinds are Textseq-ids: their release is a text", &good, &bad)
}

fn textseq_id() -> Rule<Parts> {
    let id = |fields: &[(u8, Node)]| choice(0xA4, sequence(fields));
    let [name, accession, release] = [0xA0, 0xA1, 0xA2].map(|tag| move || (tag, text()));
    let version = || (0xA3, integer());
    identifiers(
        "a Textseq-id: three texts and an integer, each there or not",
        &[
            ("none", id(&[])),
            ("name", id(&[name()])),
            ("accession", id(&[accession()])),
            ("release", id(&[release()])),
            ("version", id(&[version()])),
            ("an empty name", id(&[(0xA0, Node::Text(0, vec![]))])),
        ],
        &[
            ("A4 behind", id(&[version(), (0xA4, integer())])),
            ("name twice", id(&[name(), name()])),
            ("version twice", id(&[version(), version()])),
            ("accession, name", id(&[accession(), name()])),
            ("version, release", id(&[version(), release()])),
            ("name an integer", id(&[(0xA0, integer())])),
            ("version a text", id(&[(0xA3, text())])),
            ("a text without a tag", choice(0xA4, Node::List(vec![text()]))),
            ("no list", choice(0xA4, choice(0xA0, text()))),
        ],
    )
}

/// An Id-pat that is right.
fn citation() -> Node {
    sequence(&[(0xA0, text()), (0xA1, choice(0xA0, text()))])
}

fn patent_seq_id() -> Rule<Parts> {
    let patent = |fields: &[(u8, Node)]| choice(0xA8, sequence(fields));
    let seqid = || (0xA0, integer());
    let cit = || (0xA1, citation());
    identifiers(
        "patent has seqid and cit",
        &[("both", patent(&[seqid(), cit()]))],
        &[
            ("seqid", patent(&[seqid()])),
            ("cit", patent(&[cit()])),
            ("cit, seqid", patent(&[cit(), seqid()])),
            ("cit twice", patent(&[seqid(), cit(), cit()])),
            ("seqid a text", patent(&[(0xA0, text()), cit()])),
            ("cit a text", patent(&[seqid(), (0xA1, text())])),
            ("A2 behind", patent(&[seqid(), cit(), (0xA2, text())])),
        ],
    )
}

fn id_pat() -> Rule<Parts> {
    let patent = |cit: &[(u8, Node)]| choice(0xA8, sequence(&[(0xA0, integer()), (0xA1, sequence(cit))]));
    let [country, doc_type] = [0xA0, 0xA2].map(|tag| move || (tag, text()));
    let id = |tag: u8| (0xA1, choice(tag, text()));
    identifiers(
        "cit has country, id, which is a number or an app-number, and doc-type or not",
        &[
            ("number", patent(&[country(), id(0xA0)])),
            ("app-number", patent(&[country(), id(0xA1)])),
            ("number and doc-type", patent(&[country(), id(0xA0), doc_type()])),
        ],
        &[
            ("no country", patent(&[id(0xA0), doc_type()])),
            ("no id", patent(&[country(), doc_type()])),
            ("id tagged once", patent(&[country(), (0xA1, text())])),
            ("id A2", patent(&[country(), id(0xA2)])),
            ("number an integer", patent(&[country(), (0xA1, choice(0xA0, integer()))])),
            ("doc-type, id", patent(&[country(), doc_type(), id(0xA0)])),
            ("doc-type an integer", patent(&[country(), id(0xA0), (0xA2, integer())])),
            ("A3 behind", patent(&[country(), id(0xA0), (0xA3, text())])),
        ],
    )
}

fn dbtag() -> Rule<Parts> {
    let general = |fields: &[(u8, Node)]| choice(0xAA, sequence(fields));
    let db = || (0xA0, text());
    let tag = |tag: u8, body: Node| (0xA1, choice(tag, body));
    identifiers(
        "general has db and tag, which is an Object-id",
        &[
            ("an integer", general(&[db(), tag(0xA0, integer())])),
            ("a text", general(&[db(), tag(0xA1, text())])),
        ],
        &[
            ("no db", general(&[tag(0xA0, integer())])),
            ("no tag", general(&[db()])),
            ("tag tagged once", general(&[db(), (0xA1, integer())])),
            ("tag A0 text", general(&[db(), tag(0xA0, text())])),
            ("tag A2", general(&[db(), tag(0xA2, text())])),
            ("db an integer", general(&[(0xA0, integer()), tag(0xA0, integer())])),
            ("tag, db", general(&[tag(0xA0, integer()), db()])),
            ("A2 behind", general(&[db(), tag(0xA0, integer()), (0xA2, text())])),
        ],
    )
}

fn pdb_seq_id() -> Rule<Parts> {
    let pdb = |fields: &[(u8, Node)]| choice(0xAE, sequence(fields));
    let mol = || (0xA0, text());
    let chain = || (0xA1, integer());
    let rel = || (0xA2, choice(0xA0, text()));
    identifiers(
        "pdb has mol, and chain and rel or not",
        &[
            ("mol", pdb(&[mol()])),
            ("mol, chain", pdb(&[mol(), chain()])),
            ("mol, rel", pdb(&[mol(), rel()])),
            ("all", pdb(&[mol(), chain(), rel()])),
        ],
        &[
            ("no mol", pdb(&[chain(), rel()])),
            ("chain a text", pdb(&[mol(), (0xA1, text())])),
            ("rel, chain", pdb(&[mol(), rel(), chain()])),
            ("chain twice", pdb(&[mol(), chain(), chain()])),
            ("A3 behind, as makeblastdb writes it", pdb(&[mol(), chain(), (0xA3, text())])),
        ],
    )
}

/// A structure released at this date.
fn released(date: Node) -> Node {
    choice(0xAE, sequence(&[(0xA0, text()), (0xA2, date)]))
}

fn date() -> Rule<Parts> {
    let year = || sequence(&[(0xA0, integer())]);
    identifiers(
        "rel is a Date: A0 with a text or A1 with its fields",
        &[("A0 text", released(choice(0xA0, text()))), ("A1 year", released(choice(0xA1, year())))],
        &[
            ("A0 year", released(choice(0xA0, year()))),
            ("A1 text", released(choice(0xA1, text()))),
            ("A2 text", released(choice(0xA2, text()))),
            ("a text tagged once", released(text())),
            ("fields tagged once", released(year())),
        ],
    )
}

fn date_std() -> Rule<Parts> {
    let std = |fields: &[(u8, Node)]| released(choice(0xA1, sequence(fields)));
    let year = || (0xA0, integer());
    let number = |tag: u8| (tag, integer());
    let season = || (0xA3, text());
    let all = [year(), number(0xA1), number(0xA2), season(), number(0xA4), number(0xA5), number(0xA6)];
    let behind = [all.to_vec(), vec![number(0xA7)]].concat();
    identifiers(
        "a date has year, and month, day, season, hour, minute and second or not",
        &[
            ("year", std(&[year()])),
            ("all seven", std(&all)),
            ("year, season", std(&[year(), season()])),
            ("year, second", std(&[year(), number(0xA6)])),
        ],
        &[
            ("none", std(&[])),
            ("all but year", std(&all[1..])),
            ("year a text", std(&[(0xA0, text())])),
            ("season an integer", std(&[year(), number(0xA3)])),
            ("second a text", std(&[year(), (0xA6, text())])),
            ("day, month", std(&[year(), number(0xA2), number(0xA1)])),
            ("hour twice", std(&[year(), number(0xA4), number(0xA4)])),
            ("A7 behind", std(&behind)),
        ],
    )
}
