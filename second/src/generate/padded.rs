//! Padded integers (request 2026-06): more than one byte, the first nine bits all equal. They stand in every place of a
//! record where an integer may stand, alone and with an element at depth 17 on either side; and beside them those that
//! are just not padded.

use super::bodies::{padded, Shown};
use super::definitions::IDENTIFIER;
use super::nodes::{choice, edges, integer, lists, shortest, Node};
use super::record_faults::{in_identifier, in_list, too_deep};
use super::rng::Rng;
use crate::answers::{BAD_RECORD, TOO_DEEP};

/// Padded integers of 2 to 8 bytes, of numbers that are negative and that are not: nearest to 0, farthest from it, and
/// one by chance.
pub fn padded_integers(rng: &mut Rng) -> Vec<Shown> {
    let mut all = Vec::new();
    for (length, sign) in (2..=8).flat_map(|length| [(length, 0x00), (length, 0xFF)]) {
        let near = vec![sign; length];
        let far = [&[sign, sign ^ 0x7F], &vec![!sign; length - 2][..]].concat();
        let mut between = rng.bytes(length);
        (between[0], between[1]) = (sign, sign & 0x80 | between[1] & 0x7F);
        all.extend([near, far, between].map(|value| (format!("{value:02X?}"), Node::Integer(value))));
    }
    all
}

/// A record's def-lines, the number that the record gives, and words for what it shows.
pub struct Record {
    pub words: String,
    pub lines: Vec<Vec<Node>>,
    pub aim: u32,
}

/// Every place with every padded integer. Those in places of 001 stand alone, left of an element at depth 17 and right of
/// one by turns; elsewhere one stands behind, since the place itself is a wrong shape. Then what is at the edge between
/// padded and not.
pub fn records(rng: &mut Rng) -> Vec<Record> {
    let mut all = Vec::new();
    for (k, (words, line)) in in_001(rng).into_iter().enumerate() {
        let deep = in_list(too_deep(5, rng));
        let (side, lines, aim) = match k % 3 {
            0 => ("alone", vec![line], BAD_RECORD),
            1 => ("left of 21", vec![line, deep], BAD_RECORD),
            _ => ("right of 21", vec![deep, line], TOO_DEEP),
        };
        all.push(Record { words: format!("{words}, {side}"), lines, aim });
    }
    for (words, line) in elsewhere(rng) {
        let lines = vec![line, in_list(too_deep(5, rng))];
        all.push(Record { words: format!("{words}, left of 21"), lines, aim: BAD_RECORD });
    }
    all.extend(at_depth_17(rng));
    all.extend(right_fields(rng));
    all.extend(two_bytes());
    all
}

/// Def-lines with a padded integer where 001 has an integer: in identifiers and in the fields behind them.
fn in_001(rng: &mut Rng) -> Vec<(String, Vec<Node>)> {
    let mut all: Vec<_> =
        padded(IDENTIFIER, rng).into_iter().map(|(words, node)| (words, in_list(node))).collect();
    let integers = padded_integers(rng);
    all.extend(in_fields(&integers, rng).into_iter().map(|(words, field)| (words, vec![field])));
    all
}

/// Each integer as a def-line's taxonomy id, and first, between or last in its lists A3 to A5.
fn in_fields(integers: &[Shown], rng: &mut Rng) -> Vec<Shown> {
    let mut all = Vec::new();
    for (words, node) in integers {
        all.push((format!("A2: {words}"), choice(0xA2, node.clone())));
        for (tag, place) in (0xA3..=0xA5).flat_map(|tag| (0..3).map(move |place| (tag, place))) {
            let mut nodes: Vec<Node> = (0..3).map(|_| integer(rng)).collect();
            nodes[place] = node.clone();
            all.push((format!("{tag:02X}, place {place}: {words}"), choice(tag, Node::List(nodes))));
        }
    }
    all
}

/// A def-line with a title and an identifier, and the integers that just need their bytes in the fields behind them. Those
/// in identifiers are among the right bodies.
fn right_fields(rng: &mut Rng) -> Vec<Record> {
    let least = (1..=8).flat_map(edges).map(shortest);
    let integers: Vec<Shown> = least.map(|node| (format!("{:02X?}", node.bytes()), node)).collect();
    let record = |(words, field): Shown| Record { words, lines: vec![titled(vec![gi(&[5]), field])], aim: 0 };
    in_fields(&integers, rng).into_iter().map(record).collect()
}

/// A def-line of a title and these fields.
fn titled(fields: Vec<Node>) -> Vec<Node> {
    [vec![choice(0xA0, Node::Text(0, vec![0x41]))], fields].concat()
}

/// The field of one identifier, a gi number of these bytes.
fn gi(value: &[u8]) -> Node {
    choice(0xA1, Node::List(vec![choice(0xAB, Node::Integer(value.to_vec()))]))
}

/// Def-lines with a padded integer where 001 has none and the nesting alone reads it: down to depth 16.
fn elsewhere(rng: &mut Rng) -> Vec<(String, Vec<Node>)> {
    let mut all = Vec::new();
    for (words, node) in padded_integers(rng) {
        all.push((format!("in a def-line: {words}"), vec![node.clone()]));
        all.push((format!("under A6: {words}"), vec![choice(0xA6, node.clone())]));
        all.push((format!("for a title: {words}"), vec![choice(0xA0, node.clone())]));
        all.push((format!("for an identifier: {words}"), in_list(node.clone())));
        all.push((format!("at depth 16: {words}"), in_identifier(lists(9, node))));
    }
    all
}

/// At depth 17 the byte 02 is 21 at once, whatever integer it begins.
fn at_depth_17(rng: &mut Rng) -> Vec<Record> {
    let record = |(words, node): Shown| Record {
        words: format!("at depth 17: {words}"),
        lines: vec![in_identifier(lists(10, node))],
        aim: TOO_DEEP,
    };
    padded_integers(rng).into_iter().map(record).collect()
}

/// Integers of two bytes with every second byte behind 00 and FF, each a gi number under a title: padded where the number
/// needs one byte.
fn two_bytes() -> Vec<Record> {
    let mut all = Vec::new();
    for (first, second) in (0..=255u8).flat_map(|second| [(0x00, second), (0xFF, second)]) {
        let needs_one = i8::try_from(i16::from_be_bytes([first, second])).is_ok();
        all.push(Record {
            words: format!("02 02 {first:02X} {second:02X}"),
            lines: vec![titled(vec![gi(&[first, second])])],
            aim: if needs_one { BAD_RECORD } else { 0 },
        });
    }
    all
}
