//! The tables of rules: LIMITS.md shows all of them, each rule has values on both sides, and the numbers come in document
//! 01's order. The orders are written out here once more, from the document and the requests.

use second::call::*;
use second::generate::order::Order;
use second::generate::{orders, GENERATED};
use second::limits::page;
use second::line::line_of;
use second::worked;

/// An index: its fields in order, each short and then of a wrong value; last the tables and what follows them.
const INDEX: [u32; 18] = [1, 2, 1, 3, 1, 4, 1, 4, 1, 5, 1, 4, 1, 4, 1, 4, 1, 6];

/// The numbers of an order, each as often as it is asked anew.
fn numbers(order: &Order) -> Vec<u32> {
    let mut numbers: Vec<u32> = order.rows.iter().map(|row| row.number).collect();
    numbers.dedup();
    numbers
}

/// What document 01 says of a call's order, by the title of our tables.
fn document(byte: u8, title: &str) -> Vec<u32> {
    let index = |behind: &[u32]| [&INDEX, behind].concat();
    match (byte, title) {
        (VOLUME_CHECK, "DNA") => index(&[7, 9]),
        (VOLUME_CHECK, "protein") => index(&[7, 8, 9]),
        (VOLUME_CHECK, "DNA, no sequences") => vec![7, 9],
        (VOLUME_CHECK, "protein, no sequences") => vec![7, 8, 9],
        (CONSOLE_VOLUME_CHECK, title) => [document(VOLUME_CHECK, title), vec![13]].concat(),
        (DECODE, "DNA") => index(&[10, 7, 12, 13]),
        (DECODE, "protein") => index(&[10, 7, 8, 11, 13]),
        (PAGE, "DNA, the first item" | "DNA, an item between" | "DNA, the last item") => {
            [vec![13], index(&[10, 7, 12, 13])].concat()
        }
        (PAGE, "protein, the first item" | "protein, an item between" | "protein, the last item") => {
            [vec![13], index(&[10, 7, 8, 11, 13])].concat()
        }
        (PACK | CONSOLE_PACK, _) => vec![3, 18, 13],
        // Between the two stands the second 22, which no range of the protocol reaches.
        (WRITE_NUCLEOTIDES, "bases alone" | "with a table") => vec![18, 13],
        (BASES_OF_CODE, _) => vec![18],
        (KIND_NAME, _) => vec![4, 13],
        (UNPACK, _) => vec![3, 17, 13],
        (CONSOLE_UNPACK, _) => vec![1, 3, 17, 13],
        (SET_CHECK, _) => vec![1, 14, 1, 14, 1, 14, 15, 3, 4, 1, 6, 1, 7, 17, 19, 9],
        (LOOKUP, _) => vec![4, 1, 6, 10, 7],
        (IDENTIFIER | WALKER_STEP, "20 left of 21") => vec![1, 20, 21, 20, 10],
        (IDENTIFIER | WALKER_STEP, "21 left of 20") => vec![1, 21, 20, 10],
        (LABEL, "DNA, 20 left of 21") => index(&[10, 7, 20, 21, 20]),
        (LABEL, "protein, 21 left of 20") => index(&[10, 7, 21, 20]),
        (byte, title) => panic!("no order of call {byte} is called {title}"),
    }
}

#[test]
fn the_numbers_come_in_the_documents_order() {
    for order in GENERATED.into_iter().flat_map(orders) {
        assert_eq!(numbers(&order), document(order.byte, order.title), "{} {}", order.byte, order.title);
    }
}

#[test]
fn every_number_of_a_call_has_a_rule() {
    for signature in &SIGNATURES {
        let ruled: Vec<u32> = orders(signature.byte).iter().flat_map(numbers).collect();
        for number in signature.numbers.iter().filter(|number| ![0, 22].contains(*number)) {
            assert!(ruled.contains(number), "call {}, number {number}", signature.byte);
        }
        assert!(ruled.iter().all(|number| signature.numbers.contains(number)));
    }
}

#[test]
fn every_rule_has_both_sides_and_a_name_of_its_own() {
    for order in GENERATED.into_iter().flat_map(orders) {
        for (k, row) in order.rows.iter().enumerate() {
            assert!(!row.last.is_empty() && !row.first.is_empty(), "{}", row.name);
            assert!(order.rows[..k].iter().all(|other| other.name != row.name), "{}", row.name);
        }
    }
}

#[test]
fn the_page_of_limits_shows_every_rule() {
    let written = include_str!("../LIMITS.md");
    assert!(page() == written, "LIMITS.md is not what `limits` prints: a rule was added, changed or lost");
}

#[test]
fn our_answers_are_the_documents() {
    for row in worked::rows() {
        assert_eq!(line_of(&row.call), row.line, "{}", row.words);
    }
}
