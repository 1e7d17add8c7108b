//! The rules of a header record: nesting (20) and depth (21) left to right, then shape (20).

use super::identifier_rules;
use super::nodes::{choice, lists, Node};
use super::record_faults::{in_identifier, in_place, malformed, too_deep, wrong_shape};
use super::rules::{rule, Rule};
use crate::answers::*;

/// A record in parts. `loose` stands before the def-lines and `behind` after the record's only element; an empty one
/// has none of it.
#[derive(Clone, Debug)]
pub struct Parts {
    pub is_empty: bool,
    pub loose: Option<Node>,
    pub lines: Vec<Vec<Node>>,
    pub behind: Vec<u8>,
}

impl Parts {
    pub fn new(lines: Vec<Vec<Node>>) -> Parts {
        Parts { is_empty: false, loose: None, lines, behind: vec![] }
    }

    pub fn bytes(&self) -> Vec<u8> {
        if self.is_empty {
            return vec![];
        }
        let lines = self.lines.iter().map(|fields| Node::List(fields.clone()));
        let all = Node::List(self.loose.iter().cloned().chain(lines).collect());
        [all.bytes(), self.behind.clone()].concat()
    }
}

/// What is wrong where in the nesting: whichever stands further left decides.
pub const ARRANGEMENTS: [&str; 2] = ["20 left of 21", "21 left of 20"];

/// The rules of a record in one arrangement. Depth is broken in the second def-line; the nesting in the first or the
/// third; the shape, which comes after both, in the first.
pub fn rules(arrangement: &'static str) -> Vec<Rule<Parts>> {
    let mut rules = Vec::new();
    if arrangement == ARRANGEMENTS[0] {
        rules.push(
            rule(BAD_RECORD, "the record is not empty")
                .passes("as it is", |_: &mut Parts| {})
                .breaks("no byte", |parts| parts.is_empty = true)
                .shuts("an empty record has no element"),
        );
        rules.extend(nesting(0));
        rules.push(depth());
        rules.extend(shape());
    } else {
        rules.push(depth());
        rules.extend(nesting(2));
        rules.push(nothing_behind());
        rules.extend(shape());
    }
    rules
}

/// Puts bytes into a def-line, where 001 has what they begin.
fn inside(line: usize, bytes: Vec<u8>) -> impl Fn(&mut Parts) {
    move |parts| parts.lines[line] = in_place(bytes.clone())
}

/// Adds the sides of a rule of nesting: bytes that pass, and bytes that do not.
fn sides(
    mut rule: Rule<Parts>,
    line: usize,
    good: &[(&str, Vec<u8>)],
    bad: &[(&str, Vec<u8>)],
) -> Rule<Parts> {
    for (value, bytes) in good {
        rule = rule.passes(*value, inside(line, bytes.clone()));
    }
    for (value, bytes) in bad {
        rule = rule.breaks(*value, inside(line, bytes.clone()));
    }
    rule.farther(move |parts, rng| parts.lines[line] = malformed(rng))
}

/// A choice of this tag around these bytes.
fn tagged(tag: u8, inside: &[u8]) -> Vec<u8> {
    [&[tag, 0x80], inside, &[0x00, 0x00]].concat()
}

const INTEGER: [u8; 3] = [0x02, 0x01, 0x05];
const EMPTY_LIST: [u8; 4] = [0x30, 0x80, 0x00, 0x00];

/// The nesting, broken in this def-line.
pub fn nesting(line: usize) -> Vec<Rule<Parts>> {
    let tags = [0x01, 0x03, 0x19, 0x1B, 0x2F, 0x31, 0x80].map(|byte| (format!("{byte:02X}"), vec![byte]));
    let mut bad: Vec<(&str, Vec<u8>)> = tags.iter().map(|(name, bytes)| (&name[..], bytes.clone())).collect();
    bad.extend([("9F", 0x9F), ("B4", 0xB4), ("FF", 0xFF)].map(|(name, tag)| (name, tagged(tag, &INTEGER))));
    let good = [
        ("02", INTEGER.to_vec()),
        ("1A", vec![0x1A, 0x00]),
        ("30", EMPTY_LIST.to_vec()),
        ("A0", tagged(0xA0, &tagged(0xA0, &INTEGER))),
        ("B3", tagged(0xB3, &EMPTY_LIST)),
    ];
    let begins = rule(BAD_RECORD, "an element begins with 02, 1A, 30 or A0 to B3");
    let mut rules = vec![sides(begins, line, &good, &bad)];
    rules.extend(lengths(line));
    rules.extend(brackets(line));
    rules.push(bottom(line));
    rules
}

/// Lengths of integers and texts.
fn lengths(line: usize) -> Vec<Rule<Parts>> {
    let integer = |length: usize| [vec![0x02, length as u8], vec![0x81; length]].concat();
    let text = |form: &[u8], length: usize| [&[0x1A], form, &vec![0x41; length][..]].concat();
    vec![
        sides(
            rule(BAD_RECORD, "an integer has 1 to 8 bytes"),
            line,
            &[("1", integer(1)), ("8", integer(8))],
            &[("0", integer(0)), ("9", integer(9))],
        ),
        shortest(line),
        sides(
            rule(BAD_RECORD, "a text's length is below 128, or 81 to 84 and so many bytes"),
            line,
            &[
                ("00", text(&[0x00], 0)),
                ("7F", text(&[0x7F], 127)),
                ("81 80", text(&[0x81, 0x80], 128)),
                ("81 00", text(&[0x81, 0x00], 0)),
                ("84 00 00 01 2C", text(&[0x84, 0, 0, 1, 44], 300)),
            ],
            &[
                ("80", text(&[0x80], 0)),
                ("85 00 00 00 00 01", text(&[0x85, 0, 0, 0, 0, 1], 1)),
                ("FF", text(&[0xFF], 255)),
            ],
        ),
        sides(
            rule(BAD_RECORD, "a text ends within the record"),
            line,
            &[("83 00 00 02", text(&[0x83, 0, 0, 2], 2))],
            &[
                ("83 01 00 00", text(&[0x83, 1, 0, 0], 2)),
                ("84 80 00 00 00", text(&[0x84, 0x80, 0, 0, 0], 2)),
                ("84 FF FF FF FF", text(&[0x84, 0xFF, 0xFF, 0xFF, 0xFF], 2)),
            ],
        ),
    ]
}

/// Integers of more than one byte, at the edge of the numbers that need so many.
fn shortest(line: usize) -> Rule<Parts> {
    let integer = |value: &[u8]| [&[0x02, value.len() as u8], value].concat();
    let eight = |first: u8, second: u8, rest: u8| integer(&[&[first, second], &[rest; 6][..]].concat());
    sides(
        rule(BAD_RECORD, "the first nine bits of an integer of more than one byte are not all equal"),
        line,
        &[
            ("00", integer(&[0x00])),
            ("FF", integer(&[0xFF])),
            ("00 80", integer(&[0x00, 0x80])),
            ("FF 7F", integer(&[0xFF, 0x7F])),
            ("01 00", integer(&[0x01, 0x00])),
            ("FE FF", integer(&[0xFE, 0xFF])),
            ("00 80 and six 00", eight(0x00, 0x80, 0x00)),
            ("FF 7F and six FF", eight(0xFF, 0x7F, 0xFF)),
        ],
        &[
            ("00 05", integer(&[0x00, 0x05])),
            ("00 00", integer(&[0x00, 0x00])),
            ("00 7F", integer(&[0x00, 0x7F])),
            ("FF 80", integer(&[0xFF, 0x80])),
            ("FF FF", integer(&[0xFF, 0xFF])),
            ("00 7F and six FF", eight(0x00, 0x7F, 0xFF)),
            ("FF 80 and six 00", eight(0xFF, 0x80, 0x00)),
        ],
    )
}

/// How lists and choices begin and end.
fn brackets(line: usize) -> Vec<Rule<Parts>> {
    let gi = |rest: &[u8]| [&[0xAB, 0x80], rest].concat();
    vec![
        sides(
            rule(BAD_RECORD, "80 stands behind 30 and behind A0 to B3"),
            line,
            &[("30 80", EMPTY_LIST.to_vec()), ("AB 80", gi(&[2, 1, 5, 0, 0]))],
            &[
                ("30 7F", vec![0x30, 0x7F, 0, 0]),
                ("30 81", vec![0x30, 0x81, 0, 0]),
                ("AB 7F", vec![0xAB, 0x7F, 2, 1, 5, 0, 0]),
                ("AB 81", vec![0xAB, 0x81, 2, 1, 5, 0, 0]),
            ],
        ),
        sides(
            rule(BAD_RECORD, "a list ends with 00 00"),
            line,
            &[("00 00", vec![0x30, 0x80, 0xA3, 0x80, 2, 1, 5, 0, 0, 0, 0])],
            &[
                ("00 01", vec![0x30, 0x80, 0xA3, 0x80, 2, 1, 5, 0, 0, 0, 1]),
                ("00 FF", vec![0x30, 0x80, 0, 0xFF]),
            ],
        ),
        sides(
            rule(BAD_RECORD, "a choice has one element, then 00 00"),
            line,
            &[("one", gi(&[2, 1, 5, 0, 0]))],
            &[
                ("none", gi(&[0, 0])),
                ("two", gi(&[2, 1, 5, 2, 1, 5, 0, 0])),
                ("one, then 00 01", gi(&[2, 1, 5, 0, 1])),
                ("one, then 01 00", gi(&[2, 1, 5, 1, 0])),
            ],
        ),
    ]
}

/// Lists down to depth 16, and these bytes where depth 17 begins.
fn at_depth_17(bytes: Vec<u8>) -> Vec<Node> {
    in_identifier(lists(10, Node::Raw(bytes)))
}

/// Lists down to depth 15, and a choice at depth 16 around these bytes.
fn in_a_choice(bytes: Vec<u8>) -> Vec<Node> {
    in_identifier(lists(9, choice(0xA4, Node::Raw(bytes))))
}

/// Lists down to depth 15, and this element at depth 16.
fn at_depth_16(node: Node) -> Vec<Node> {
    in_identifier(lists(9, node))
}

/// What is no element is 20 where depth 17 begins, too. 001 has nothing that deep: what passes the nesting has a wrong
/// shape, unless an element at depth 17 follows.
fn bottom(line: usize) -> Rule<Parts> {
    let mut one = rule(BAD_RECORD, "where depth 17 begins, a byte that begins no element is 20").leads_to(
        TOO_DEEP,
        "00 00 ends a list, and 02 follows at depth 17",
        move |parts: &mut Parts| {
            parts.lines[line] = at_depth_17(vec![]);
            parts.lines[line + 1] = at_depth_17(vec![0x02]);
        },
    );
    for byte in [0x01u8, 0x03, 0x80, 0x9F, 0xB4, 0xFF] {
        one = one.breaks(format!("{byte:02X}"), move |parts| parts.lines[line] = at_depth_17(vec![byte]));
    }
    one.breaks("00 01 in a list", move |parts| parts.lines[line] = at_depth_17(vec![0, 1]))
        .breaks("00 in a choice", move |parts| parts.lines[line] = in_a_choice(vec![]))
}

/// An element at depth 16 passes the nesting and has a wrong shape.
fn depth() -> Rule<Parts> {
    let mut one = rule(TOO_DEEP, "no element begins at depth 17");
    let good = [
        ("an integer at depth 16", Node::Integer(vec![5])),
        ("a text at depth 16", Node::Text(0, vec![0x41])),
        ("a list at depth 16", Node::List(vec![])),
    ];
    for (value, node) in good {
        one = one.leads_to(BAD_RECORD, value, move |parts: &mut Parts| {
            parts.lines[1] = at_depth_16(node.clone());
        });
    }
    for byte in [0x02u8, 0x1A, 0x30, 0xA0, 0xB3] {
        one = one
            .breaks(format!("{byte:02X} in a list"), move |parts| parts.lines[1] = at_depth_17(vec![byte]))
            .breaks(format!("{byte:02X} in a choice"), move |parts| parts.lines[1] = in_a_choice(vec![byte]));
    }
    one.leads_to(TOO_DEEP, "an integer at depth 16, and 02 follows at depth 17", |parts| {
        parts.lines[1] = at_depth_16(Node::Integer(vec![5]));
        parts.lines[2] = at_depth_17(vec![0x02]);
    })
    .farther(|parts, rng| parts.lines[1].push(too_deep(3, rng)))
}

fn nothing_behind() -> Rule<Parts> {
    rule(BAD_RECORD, "a record is one element and nothing more")
        .passes("no byte", |_: &mut Parts| {})
        .breaks("one byte", |parts| parts.behind = vec![0])
        .breaks("00 00", |parts| parts.behind = vec![0, 0])
        .breaks("another element", |parts| parts.behind = vec![2, 1, 5])
}

/// Adds the sides of a rule of shape: fields that pass in a def-line, and fields that do not.
pub fn fields(mut rule: Rule<Parts>, good: &[(&str, Vec<Node>)], bad: &[(&str, Vec<Node>)]) -> Rule<Parts> {
    for (value, fields) in good.iter().cloned() {
        rule = rule.passes(value, move |parts: &mut Parts| parts.lines[0] = fields.clone());
    }
    for (value, fields) in bad.iter().cloned() {
        rule = rule.breaks(value, move |parts: &mut Parts| parts.lines[0] = fields.clone());
    }
    rule.farther(|parts, rng| parts.lines[0] = wrong_shape(rng))
}

pub fn integer() -> Node {
    Node::Integer(vec![7])
}

pub fn text() -> Node {
    Node::Text(0, vec![0x41])
}

/// A field of a def-line with an empty body of the right kind.
fn field(tag: u8) -> Node {
    match tag {
        0xA0 => choice(tag, text()),
        0xA2 => choice(tag, integer()),
        _ => choice(tag, Node::List(vec![])),
    }
}

/// The shape, broken before the def-lines or in the first.
pub fn shape() -> Vec<Rule<Parts>> {
    let mut loose = rule(BAD_RECORD, "a record is a list of def-lines").passes("lists", |_: &mut Parts| {});
    for (value, node) in [("an integer", integer()), ("a text", text()), ("a choice", field(0xA0))] {
        loose = loose.breaks(value, move |parts| parts.loose = Some(node.clone()));
    }
    let mut rules = vec![loose];
    rules.extend(field_tags());
    rules.extend(field_bodies());
    rules.extend(identifier_rules::rules());
    rules
}

fn field_tags() -> Vec<Rule<Parts>> {
    let of = |tags: &[u8]| tags.iter().map(|tag| field(*tag)).collect::<Vec<Node>>();
    vec![
        fields(
            rule(BAD_RECORD, "the fields are A0 to A5"),
            &[("none", vec![]), ("all six", of(&[0xA0, 0xA1, 0xA2, 0xA3, 0xA4, 0xA5])), ("A5", of(&[0xA5]))],
            &[
                ("A6", vec![choice(0xA6, integer())]),
                ("A6 with an empty list", vec![choice(0xA6, Node::List(vec![]))]),
                ("B3", of(&[0xB3])),
                ("an integer", vec![integer()]),
                ("a text", vec![text()]),
                ("a list", vec![Node::List(vec![])]),
            ],
        ),
        fields(
            rule(BAD_RECORD, "the fields rise"),
            &[("A0 A5", of(&[0xA0, 0xA5]))],
            &[
                ("A0 A0", of(&[0xA0, 0xA0])),
                ("A5 A5", of(&[0xA5, 0xA5])),
                ("A1 A0", of(&[0xA1, 0xA0])),
                ("A5 A4", of(&[0xA5, 0xA4])),
            ],
        ),
    ]
}

fn field_bodies() -> Vec<Rule<Parts>> {
    let of = |tag: u8, inside: Node| vec![choice(tag, inside)];
    let list = |inside: &[Node]| Node::List(inside.to_vec());
    vec![
        fields(
            rule(BAD_RECORD, "A0 is a text"),
            &[("an empty one", of(0xA0, Node::Text(0, vec![])))],
            &[("an integer", of(0xA0, integer())), ("a list", of(0xA0, list(&[text()])))],
        ),
        fields(
            rule(BAD_RECORD, "A2 is an integer"),
            &[("of 8 bytes", of(0xA2, Node::Integer(vec![0x80; 8])))],
            &[("a text", of(0xA2, text())), ("a list", of(0xA2, list(&[integer()])))],
        ),
        fields(
            rule(BAD_RECORD, "A3 to A5 are lists of integers"),
            &[("none and two", [of(0xA3, list(&[])), of(0xA5, list(&[integer(), integer()]))].concat())],
            &[
                ("A3 an integer", of(0xA3, integer())),
                ("A4 with a text", of(0xA4, list(&[integer(), text()]))),
                ("A5 with a list", of(0xA5, list(&[list(&[])]))),
            ],
        ),
    ]
}
