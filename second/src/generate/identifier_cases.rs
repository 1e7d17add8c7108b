//! Records with an identifier of every kind, right or wrong, in the places where identifiers stand.

use super::bodies::{right, wrong, Shown};
use super::definitions::IDENTIFIER;
use super::nodes::{choice, identifier, integer, text, Node};
use super::rng::Rng;

/// Def-lines with an identifier that is shown, and its number in the record.
pub struct Placed {
    pub words: String,
    pub lines: Vec<Vec<Node>>,
    pub number: u64,
}

/// Every identifier that must pass.
pub fn right_ones(rng: &mut Rng) -> Vec<Placed> {
    let all = right(IDENTIFIER, rng);
    all.into_iter().enumerate().map(|(k, shown)| placed(shown, k, rng)).collect()
}

/// Every identifier that must not.
pub fn wrong_ones(rng: &mut Rng) -> Vec<Placed> {
    let all = wrong(IDENTIFIER, rng);
    all.into_iter().enumerate().map(|(k, shown)| placed(shown, k, rng)).collect()
}

/// The identifier in the first def-line or in the second, as the first or a later one. There is always a title, in the
/// first def-line, and another identifier behind the one that is shown.
fn placed((words, shown): Shown, k: usize, rng: &mut Rng) -> Placed {
    let (is_second, before) = (k % 2 == 1, k / 2 % 3);
    let mut own: Vec<Node> = (0..before).map(|_| identifier(rng)).collect();
    own.push(shown);
    let other = vec![identifier(rng)];
    let (first, second) = if is_second { (other, own) } else { (own, other) };
    let lines = vec![
        vec![choice(0xA0, text(rng)), choice(0xA1, Node::List(first)), choice(0xA2, integer(rng))],
        vec![choice(0xA1, Node::List(second))],
    ];
    Placed { words, lines, number: (is_second as usize + before) as u64 }
}
