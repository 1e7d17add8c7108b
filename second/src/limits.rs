//! The page of limits: every rule of every call in the order of its refusals, with the last values that pass and the
//! first that do not. LIMITS.md is this page, and a test holds the two together.

use crate::call::{signature, LABEL};
use crate::generate::order::{Order, Row};
use crate::generate::rules::{order, Rule};
use crate::generate::{index_rules, orders, record_rules, set_rules, GENERATED};
use crate::table::impossible;

/// Rules that several calls share, told once.
struct Shared {
    name: String,
    rows: Vec<Row>,
}

/// What is told before the calls.
fn shared() -> Vec<Shared> {
    fn part<P>(name: &str, rules: &[Rule<P>]) -> Shared {
        Shared { name: name.to_string(), rows: order(LABEL, "", rules).rows }
    }
    vec![
        part("a volume's index up to the sequence offsets", &index_rules::up_to_the_sequence_offsets()),
        part("the files, header and ends of a set", &set_rules::before_runs()),
        part("the metadata and totals of a set", &set_rules::behind_runs()),
        part("the nesting of a header record", &record_rules::nesting(0)),
        part("the shape of a header record", &record_rules::shape()),
    ]
}

/// The whole page.
pub fn page() -> String {
    let mut text = String::from(HEAD);
    let mut told = shared();
    for part in &told {
        text.push_str(&format!("\n## Shared: {}\n\n{TABLE}", part.name));
        for row in &part.rows {
            text.push_str(&line(row));
        }
    }
    for byte in GENERATED {
        let name = signature(byte).map_or("", |signature| signature.name);
        text.push_str(&format!("\n## {byte} {name}\n\n{TABLE}"));
        for order in orders(byte) {
            text.push_str(&lines(&order, &told));
            told.push(Shared { name: format!("{byte} {name}, {}", order.title), rows: order.rows });
        }
    }
    text.push_str("\n## Pairs that cannot be\n\n```\n");
    text.push_str(&impossible(GENERATED.into_iter().flat_map(orders).collect()));
    text.push_str("```\n");
    text
}

const HEAD: &str = "# Limits

Every rule of every call, in the order of its refusals, with values at its edge: the last that pass and the first that do not. Each
value is a case of `compare`; each rule is also broken together with every rule of the number that is asked next, and the earlier one must
win. A number in brackets is what a value that passes the rule then meets. This page is what `limits` prints; a test compares the two.

Number 22 stands before all of them: no input range over 2,147,483,647 bytes, no input packet range over 536,870,912 packets. The
ranges of `compare` are too small for it; its table says, call by call, whether `face` shows it or the contract alone promises it.
Call 14 asks 22 once more, between 18 and 13: no more than 2,147,483,647 bytes of output are needed. `face` shows that too.

Calls 3 and 11 pack besides, at every length from 0 to 200 and for every sort of codes, into exactly the packets that the run takes, and
into one fewer (13).
";

const TABLE: &str = "| No. | rule | last that pass | first that do not |\n|---|---|---|---|\n";

/// One order. What has been told is named and not told again.
fn lines(order: &Order, told: &[Shared]) -> String {
    let mut text = format!("| | **{}** | | |\n", order.title);
    let mut rows = &order.rows[..];
    while let Some(row) = rows.first() {
        let known = told.iter().filter(|part| rows.starts_with(&part.rows));
        match known.max_by_key(|part| part.rows.len()) {
            Some(part) => {
                text.push_str(&format!("| | {}: see above | | |\n", part.name));
                rows = &rows[part.rows.len()..];
            }
            None => {
                text.push_str(&line(row));
                rows = &rows[1..];
            }
        }
    }
    text
}

fn line(row: &Row) -> String {
    let values = |sides: &[(String, u32)], own: u32| {
        let value = |(value, gives): &(String, u32)| {
            if *gives == own {
                value.clone()
            } else {
                format!("{value} ({gives})")
            }
        };
        sides.iter().map(value).collect::<Vec<_>>().join("; ")
    };
    let (last, first) = (values(&row.last, 0), values(&row.first, row.number));
    format!("| {} | {} | {last} | {first} |\n", row.number, row.name)
}
