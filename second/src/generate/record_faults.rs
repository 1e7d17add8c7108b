//! What can be wrong with a record: its nesting (20), its depth (21), its shape (20).

use super::bodies::wrong;
use super::definitions::IDENTIFIER;
use super::nodes::{choice, identifier, integer, lists, nested, tag, text, Node};
use super::rng::Rng;

/// A def-line with something in a list that is an identifier's body, at depth 7.
pub fn in_identifier(inside: Node) -> Vec<Node> {
    in_list(choice(0xA4, Node::List(vec![inside])))
}

/// A def-line with one identifier.
pub fn in_list(identifier: Node) -> Vec<Node> {
    vec![choice(0xA1, Node::List(vec![identifier]))]
}

/// A def-line with these bytes where 001 has what they begin: gi's integer, a local name's text, genbank's list, or an
/// identifier. If they are malformed, nothing else is wrong.
pub fn in_place(bytes: Vec<u8>) -> Vec<Node> {
    let first = bytes.first().copied();
    let raw = Node::Raw(bytes);
    in_list(match first {
        Some(0x02) => choice(0xAB, raw),
        Some(0x1A) => choice(0xA0, choice(0xA1, raw)),
        Some(0x30) => choice(0xA4, raw),
        _ => raw,
    })
}

/// A def-line with a malformed element.
pub fn malformed(rng: &mut Rng) -> Vec<Node> {
    let all = malformed_lines(rng);
    rng.pick(&all).clone()
}

/// Every malformed element in a def-line of its own: in its place, and where 001 has none.
pub fn malformed_lines(rng: &mut Rng) -> Vec<Vec<Node>> {
    let all = malformed_elements(rng);
    let elsewhere = all.iter().map(|bytes| in_identifier(Node::Raw(bytes.clone())));
    all.iter().cloned().map(in_place).chain(elsewhere).collect()
}

/// Bytes that are no element, wherever one may begin. Nothing behind them can mend it.
fn malformed_elements(rng: &mut Rng) -> Vec<Vec<u8>> {
    // A kind of identifier whose body is an integer.
    let tag = *rng.pick(&[0xA1, 0xA2, 0xAB]);
    vec![
        vec![0x02, 0x00],
        vec![0x02, 0x09, 1, 2, 3, 4, 5, 6, 7, 8, 9],
        vec![0x02, 0x80],
        vec![0x02, 0x81, 0x01, 0x05],
        vec![0x02, 0x02, 0x00, 0x05],
        vec![0x02, 0x02, 0xFF, 0x80],
        vec![0x1A, 0x80],
        vec![0x1A, 0x85, 0, 0, 0, 0, 1, 65],
        vec![0x1A, 0xFF],
        vec![0x1A, 0x82, 0x40, 0x00],
        vec![0x1A, 0x83, 0x01, 0x00, 0x00],
        vec![0x1A, 0x84, 0xFF, 0xFF, 0xFF, 0xFF],
        vec![0x1A, 0x84, 0x80, 0x00, 0x00, 0x00],
        vec![0x30, 0x00],
        vec![0x30, 0x81],
        vec![0x30, 0x81, 0x00, 0x00],
        vec![tag, 0x00],
        vec![tag, 0x81],
        vec![tag, 0x81, 0x02, 0x01, 0x05, 0x00, 0x00],
        vec![tag, 0x80, 0x00, 0x00],
        vec![tag, 0x80, 0x02, 0x01, 0x05, 0x00, 0x01],
        vec![tag, 0x80, 0x02, 0x01, 0x05, 0x02, 0x01, 0x05, 0x00, 0x00],
        vec![0x00, 0x01],
        vec![*rng.pick(&[0x01, 0x03, 0x1B, 0x19, 0x31, 0x80, 0x9F, 0xB4, 0xFF])],
        vec![0xB4, 0x80, 0x02, 0x01, 0x05, 0x00, 0x00],
        vec![0x9F, 0x80, 0x02, 0x01, 0x05, 0x00, 0x00],
    ]
}

/// An element at this depth with something inside it that begins at depth 17; what follows is never read.
pub fn too_deep(depth: usize, rng: &mut Rng) -> Node {
    let begins = [0x02, 0x1A, 0x30, 0xA0, 0xB3, tag(rng)];
    let mut inside = vec![*rng.pick(&begins)];
    if rng.chance(50) {
        let length = rng.below(4);
        inside.extend(rng.bytes(length));
    }
    nested(17 - depth, Node::Raw(inside), rng)
}

/// A field list that is well formed as elements but no def-line.
pub fn wrong_shape(rng: &mut Rng) -> Vec<Node> {
    if rng.chance(70) {
        let all = wrong(IDENTIFIER, rng);
        return in_list(rng.pick(&all).1.clone());
    }
    let all = wrong_shapes(rng);
    rng.pick(&all).clone()
}

/// Every kind of them but for what is wrong inside identifiers.
pub fn wrong_shapes(rng: &mut Rng) -> Vec<Vec<Node>> {
    let later = rng.between(0xA6, 0xB3) as u8;
    vec![
        vec![integer(rng)],
        vec![text(rng)],
        vec![Node::List(vec![])],
        vec![choice(later, integer(rng))],
        vec![choice(0xA6, Node::List(vec![]))],
        vec![choice(0xA0, text(rng)), choice(0xA0, text(rng))],
        vec![choice(0xA2, integer(rng)), choice(0xA2, integer(rng))],
        vec![choice(0xA2, integer(rng)), choice(0xA0, text(rng))],
        vec![choice(0xA5, Node::List(vec![])), choice(0xA4, Node::List(vec![]))],
        vec![choice(0xA0, integer(rng))],
        vec![choice(0xA0, Node::List(vec![text(rng)]))],
        vec![choice(0xA1, text(rng))],
        vec![choice(0xA1, choice(0xAB, integer(rng)))],
        vec![choice(0xA1, integer(rng))],
        in_list(Node::List(vec![identifier(rng)])),
        vec![choice(0xA2, text(rng))],
        vec![choice(0xA2, Node::List(vec![integer(rng)]))],
        vec![choice(0xA3, integer(rng))],
        vec![choice(0xA4, Node::List(vec![integer(rng), text(rng)]))],
        vec![choice(0xA5, Node::List(vec![choice(0xA0, integer(rng))]))],
    ]
}

/// Whole records whose outermost elements have the wrong shape.
pub fn wrong_records(rng: &mut Rng) -> Vec<Vec<u8>> {
    let nodes = [
        integer(rng),
        text(rng),
        choice(0xA0, text(rng)),
        choice(0xA0, Node::List(vec![])),
        Node::List(vec![integer(rng)]),
        Node::List(vec![choice(0xA0, text(rng))]),
        Node::List(vec![Node::List(vec![]), text(rng)]),
        Node::List(vec![Node::List(vec![Node::List(vec![])])]),
        lists(15, Node::List(vec![])),
        lists(15, integer(rng)),
    ];
    nodes.iter().map(Node::bytes).collect()
}
