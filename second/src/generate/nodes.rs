//! Header records as trees that can also be malformed, and valid ones by chance.

use super::bodies::by_chance;
use super::definitions::IDENTIFIER;
use super::rng::Rng;
use crate::fields::{big_bytes, big_signed};

/// An element to be written. A text's form is how many bytes its length takes behind 81 to 84, or 0 for the short
/// form; a choice may hold none or several; raw bytes are whatever they are.
#[derive(Clone, Debug)]
pub enum Node {
    Integer(Vec<u8>),
    Text(usize, Vec<u8>),
    List(Vec<Node>),
    Choice(u8, Vec<Node>),
    Raw(Vec<u8>),
}

impl Node {
    pub fn bytes(&self) -> Vec<u8> {
        match self {
            Node::Integer(value) => [&[0x02, value.len() as u8], &value[..]].concat(),
            Node::Text(0, text) => [&[0x1A, text.len() as u8], &text[..]].concat(),
            Node::Text(form, text) => {
                let length = big_bytes(text.len() as i128, *form);
                [&[0x1A, 0x80 + *form as u8], &length[..], text].concat()
            }
            Node::List(inside) => [&[0x30, 0x80], &all_bytes(inside)[..], &[0, 0]].concat(),
            Node::Choice(tag, inside) => [&[*tag, 0x80], &all_bytes(inside)[..], &[0, 0]].concat(),
            Node::Raw(bytes) => bytes.clone(),
        }
    }
}

pub fn all_bytes(nodes: &[Node]) -> Vec<u8> {
    nodes.iter().flat_map(Node::bytes).collect()
}

/// A choice that holds one element.
pub fn choice(tag: u8, inside: Node) -> Node {
    Node::Choice(tag, vec![inside])
}

/// The numbers at the edges of those that need this many bytes: the least and the greatest that are not negative, and
/// the same of those that are.
pub fn edges(length: usize) -> [i128; 4] {
    let beyond = |length: usize| 1i128 << (8 * length - 1);
    let less = if length == 1 { 0 } else { beyond(length - 1) };
    [less, beyond(length) - 1, -less - 1, -beyond(length)]
}

/// A number as an integer in the shortest form: of so few bytes that it is still in the range of their numbers.
pub fn shortest(value: i128) -> Node {
    let length = (1..=8).find(|length| edges(*length)[3] <= value && value <= edges(*length)[1]).unwrap();
    Node::Integer(big_bytes(value, length))
}

/// An integer of one to eight bytes in the shortest form.
pub fn integer(rng: &mut Rng) -> Node {
    let length = rng.between(1, 8);
    shortest(if rng.chance(30) { *rng.pick(&edges(length)) } else { big_signed(&rng.bytes(length)) })
}

/// A text, mostly short, in a form that has room for its length.
pub fn text(rng: &mut Rng) -> Node {
    let length = *rng.pick(&[0, 1, 5, 12, 12, 12, 127, 128, 255, 256, 300]);
    let least = match length {
        0..=127 => 0,
        128..=255 => 1,
        _ => 2,
    };
    let form = if rng.chance(70) { least } else { rng.between(least, 4) };
    Node::Text(form, rng.bytes(length))
}

/// A text of at most 8 bytes.
pub fn short_text(rng: &mut Rng) -> Node {
    let length = rng.below(9);
    Node::Text(0, rng.bytes(length))
}

/// Any tag of a choice.
pub fn tag(rng: &mut Rng) -> u8 {
    rng.between(0xA0, 0xB3) as u8
}

/// Lists and choices one inside the other, as many as said, around an element.
pub fn nested(levels: usize, inside: Node, rng: &mut Rng) -> Node {
    (0..levels)
        .fold(inside, |node, _| if rng.chance(50) { Node::List(vec![node]) } else { choice(tag(rng), node) })
}

/// Lists one inside the other, as many as said, around an element.
pub fn lists(levels: usize, inside: Node) -> Node {
    (0..levels).fold(inside, |node, _| Node::List(vec![node]))
}

/// An identifier of any kind. Its body begins at depth 6 of a record.
pub fn identifier(rng: &mut Rng) -> Node {
    by_chance(IDENTIFIER, rng)
}

/// The fields of a def-line, each there or not.
pub fn fields(rng: &mut Rng) -> Vec<Node> {
    let mut fields = Vec::new();
    if rng.chance(70) {
        fields.push(choice(0xA0, text(rng)));
    }
    if rng.chance(80) {
        let count = rng.below(4);
        fields.push(choice(0xA1, Node::List((0..count).map(|_| identifier(rng)).collect())));
    }
    if rng.chance(60) {
        fields.push(choice(0xA2, integer(rng)));
    }
    for tag in 0xA3..=0xA5 {
        if rng.chance(20) {
            let count = rng.below(4);
            fields.push(choice(tag, Node::List((0..count).map(|_| integer(rng)).collect())));
        }
    }
    fields
}

/// How many titles, or identifiers, the def-lines have. Only for valid ones.
pub fn count_of(lines: &[Vec<Node>], titles: bool) -> usize {
    let mut count = 0;
    for field in lines.iter().flatten() {
        match field {
            Node::Choice(0xA0, _) if titles => count += 1,
            Node::Choice(0xA1, inside) if !titles => {
                if let Some(Node::List(identifiers)) = inside.first() {
                    count += identifiers.len();
                }
            }
            _ => {}
        }
    }
    count
}

/// A record of def-lines.
pub fn record(lines: &[Vec<Node>]) -> Vec<u8> {
    Node::List(lines.iter().map(|fields| Node::List(fields.clone())).collect()).bytes()
}
