//! Cases for the lookup in an opened set, in both byte orders.

use super::order::Order;
use super::rng::Rng;
use super::rules::{by_chance, order, rule, sides_and_pairs, Damaged, Rule};
use super::samples::Samples;
use super::Case;
use crate::answers::*;
use crate::call::*;
use crate::dsqdata::MAGIC;
use crate::fields::ByteOrder;
use crate::lookup::LAST_END;

/// A record with the number for its byte order, an index and a number. `ends` are metadata and packet ends of each sequence,
/// written in `byte_order`.
#[derive(Clone, Debug)]
struct Plan {
    record: Vec<u64>,
    order_number: u64,
    header: Vec<u8>,
    byte_order: ByteOrder,
    ends: Vec<[i128; 2]>,
    behind: Vec<u8>,
    length: Option<usize>,
    number: u64,
}

/// Where the record has its count, and where a lookup has its index.
const COUNT: usize = 8;
const INDEX: usize = 11;

/// Numbers for the byte order: the first says little, any other big.
const ORDER_NUMBERS: [u64; 9] = [0, 1, 2, 255, 256, 1 << 32, 1 << 56, 1 << 63, u64::MAX];

/// The first number for a byte order, or any.
fn order_number(byte_order: ByteOrder, rng: &mut Rng) -> u64 {
    match byte_order {
        ByteOrder::Little => 0,
        ByteOrder::Big if rng.chance(50) => 1,
        ByteOrder::Big => *rng.pick(&ORDER_NUMBERS[1..]),
    }
}

impl Plan {
    /// A lookup that finds something. Of record and header only the count and the byte order must be right.
    fn by_chance(n: usize, byte_order: ByteOrder, rng: &mut Rng) -> Plan {
        let mut record: Vec<u64> = (0..10).map(|_| rng.number()).collect();
        record[COUNT] = n as u64;
        let mut ends = Vec::new();
        let mut before = [-1, -1];
        for _ in 0..n {
            before = before.map(|end| end + rng.between(1, 300) as i128);
            ends.push(before);
        }
        Plan {
            record,
            order_number: order_number(byte_order, rng),
            header: rng.bytes(52),
            byte_order,
            ends,
            behind: vec![],
            length: None,
            number: rng.below(n.max(1)) as u64,
        }
    }

    fn call(&self) -> Call {
        let mut index = self.header.clone();
        index.extend(self.ends.iter().flatten().flat_map(|end| self.byte_order.bytes(*end, 8)));
        index.extend(&self.behind);
        index.truncate(self.length.unwrap_or(index.len()));
        call_on(&self.record, self.order_number, index, self.number)
    }
}

fn call_on(record: &[u64], order_number: u64, index: Vec<u8>, number: u64) -> Call {
    let numbers = record.iter().chain([&order_number]);
    let mut arguments: Vec<Argument> = numbers.map(|number| Argument::Number(*number)).collect();
    arguments.extend([Argument::Range(index), Argument::Number(number)]);
    Call::new(LOOKUP, arguments)
}

/// A number of several sequences, not the first, so that there are ends before its own.
fn to_damage(byte_order: ByteOrder, rng: &mut Rng) -> Plan {
    let n = rng.between(2, 6);
    let mut plan = Plan::by_chance(n, byte_order, rng);
    plan.number = rng.between(1, n - 1) as u64;
    plan
}

/// The rules in the order of the refusals.
fn rules() -> Vec<Rule<Plan>> {
    let mut rules = vec![
        rule(OUT_OF_RANGE, "the record's count is at most 134,217,728")
            .leads_to(ENDS_TOO_EARLY, "134,217,728", |plan: &mut Plan| plan.record[COUNT] = 134_217_728)
            .breaks("134,217,729", |plan| plan.record[COUNT] = 134_217_729)
            .breaks("2^63", |plan| plan.record[COUNT] = 1 << 63)
            .farther(|plan, rng| {
                plan.record[COUNT] = *rng.pick(&[1 << 32, 1 << 60, (1 << 60) + 2, u64::MAX]);
            }),
        rule(ENDS_TOO_EARLY, "the index has every end")
            .passes("every byte", |_: &mut Plan| {})
            .breaks("one byte less", |plan| plan.length = Some(51 + 16 * plan.ends.len()))
            .breaks("one more in the record", |plan| plan.record[COUNT] = plan.ends.len() as u64 + 1)
            .farther(|plan, rng| plan.length = Some(rng.below(52 + 16 * plan.ends.len())))
            .shuts("an index that is short has nothing left over"),
        rule(LEFT_OVER, "nothing follows the ends")
            .passes("no byte", |_: &mut Plan| {})
            .breaks("one byte", |plan| plan.behind = vec![0])
            .breaks("one less in the record", |plan| plan.record[COUNT] = plan.ends.len() as u64 - 1)
            .farther(|plan, rng| {
                let length = *rng.pick(&[8, 15, 16]);
                plan.behind = rng.bytes(length);
            }),
        rule(NO_SUCH_NUMBER, "the number is below the count")
            .passes("count - 1", |plan: &mut Plan| plan.number = plan.ends.len() as u64 - 1)
            .breaks("count", |plan| plan.number = plan.ends.len() as u64)
            .farther(|plan, rng| {
                let n = plan.ends.len() as u64;
                plan.number = *rng.pick(&[n + 1, (1 << 32) + plan.number, (1 << 60) + plan.number, u64::MAX]);
            })
            .shuts("a sequence that is not there has no ends"),
    ];
    for column in 0..2 {
        rules.extend(end_rules(column));
    }
    rules
}

/// The ends of metadata, or of packets: the chosen one and the one before.
fn end_rules(column: usize) -> Vec<Rule<Plan>> {
    let of = |metadata: &'static str, packets: &'static str| [metadata, packets][column];
    let set = move |plan: &mut Plan, before: i128, own: i128| {
        plan.number = plan.number.max(1);
        let at = plan.number as usize;
        (plan.ends[at - 1][column], plan.ends[at][column]) = (before, own);
    };
    let first = move |plan: &mut Plan, own: i128| {
        plan.number = 0;
        plan.ends[0][column] = own;
    };
    vec![
        rule(BAD_OFFSETS, of("the first metadata end is above -1", "the first packet end is above -1"))
            .passes("0", move |plan: &mut Plan| first(plan, 0))
            .breaks("-1", move |plan| first(plan, -1)),
        rule(
            BAD_OFFSETS,
            of("the metadata end is above the one before", "the packet end is above the one before"),
        )
        .passes("one above", move |plan: &mut Plan| set(plan, 5, 6))
        .breaks("the same", move |plan| set(plan, 5, 5))
        .breaks("one below", move |plan| set(plan, 5, 4))
        .breaks("-1 after -1", move |plan| set(plan, -1, -1)),
        rule(
            BAD_OFFSETS,
            of("the metadata end before is at least -1", "the packet end before is at least -1"),
        )
        .passes("-1", move |plan: &mut Plan| set(plan, -1, 7))
        .breaks("-2", move |plan| set(plan, -2, 7))
        .breaks("-2^63", move |plan| set(plan, -(1 << 63), (1 << 63) - 1)),
        rule(
            BAD_OFFSETS,
            of("the metadata end is at most 2,147,483,646", "the packet end is at most 2,147,483,646"),
        )
        .passes("2,147,483,646", move |plan: &mut Plan| set(plan, 5, LAST_END))
        .passes("2,147,483,646 after -1", move |plan| set(plan, -1, LAST_END))
        .breaks("2,147,483,647", move |plan| set(plan, 5, LAST_END + 1))
        .breaks("2^32 + 700", move |plan| set(plan, 5, (1 << 32) + 700)),
    ]
}

/// The byte orders, and what their rules are called.
const BYTE_ORDERS: [(ByteOrder, &str); 2] =
    [(ByteOrder::Little, "little-endian"), (ByteOrder::Big, "big-endian")];

pub fn orders() -> Vec<Order> {
    BYTE_ORDERS.map(|(_, title)| order(LOOKUP, title, &rules())).to_vec()
}

/// How many cases of each byte order come by chance, whatever the count.
const BY_CHANCE: usize = 250;

pub fn planned(rng: &mut Rng, samples: &Samples) -> Vec<Case> {
    let mut cases = Vec::new();
    for (byte_order, title) in BYTE_ORDERS {
        for _ in 0..2 {
            let valid = |rng: &mut Rng| to_damage(byte_order, rng);
            cases.extend(sides_and_pairs(title, &rules(), rng, valid, |plan, _| plan.call()));
        }
        cases.extend(limits(byte_order, rng));
        cases.extend(first_ones(byte_order, rng));
        cases.extend(elsewhere(byte_order, rng));
        cases.extend(sizes(byte_order, rng));
        cases.extend(magics(byte_order, rng));
        cases.extend(same_in_both(byte_order, rng));
        cases.extend(unturned(byte_order, rng));
        cases.extend(real(byte_order, samples));
        cases.extend((0..BY_CHANCE).map(|_| random_in(byte_order, rng)));
    }
    cases
}

/// Every number for the byte order, over ends of one, behind either magic or none: the record alone says how to read.
fn magics(byte_order: ByteOrder, rng: &mut Rng) -> Vec<Case> {
    let mut cases = Vec::new();
    for (number, magic) in ORDER_NUMBERS
        .into_iter()
        .flat_map(|number| [None, Some(ByteOrder::Little), Some(ByteOrder::Big)].map(|magic| (number, magic)))
    {
        let mut plan = to_damage(byte_order, rng);
        plan.order_number = number;
        if let Some(other) = magic {
            plan.header[..4].copy_from_slice(&other.bytes(MAGIC, 4));
        }
        // An end above 0 that is read in the other byte order is too large or negative.
        let aim = if ByteOrder::of_number(number as i128) == byte_order { 0 } else { BAD_OFFSETS };
        let note = format!("ends {byte_order:?}, magic {magic:?}, order {number}");
        cases.push(Case::aimed(plan.call(), aim, note));
    }
    cases
}

/// Ends that every order number reads alike: 0 alone, and 0 after -1.
fn same_in_both(byte_order: ByteOrder, rng: &mut Rng) -> Vec<Case> {
    let mut cases = Vec::new();
    for (number, order_number) in [0, 1].into_iter().flat_map(|k| ORDER_NUMBERS.map(|one| (k, one))) {
        let mut plan = to_damage(byte_order, rng);
        plan.ends[number] = [0, 0];
        plan.ends[..number].fill([-1, -1]);
        (plan.number, plan.order_number) = (number as u64, order_number);
        cases.push(Case::aimed(plan.call(), 0, format!("ends of 0, order {order_number}")));
    }
    cases
}

/// One end alone in the other byte order: the one before or the own one, of metadata or of packets.
fn unturned(byte_order: ByteOrder, rng: &mut Rng) -> Vec<Case> {
    let mut cases = Vec::new();
    for (back, column) in [(1, 0), (1, 1), (0, 0), (0, 1)] {
        for end in [1, 127, 128, 255, 256, 65_535, LAST_END - 1] {
            let mut plan = to_damage(byte_order, rng);
            let at = plan.number as usize;
            (plan.ends[at - 1][column], plan.ends[at][column]) =
                if back == 1 { (end, end + 1) } else { (0, end) };
            let mut call = plan.call();
            let place = 52 + 16 * (at - back) + 8 * column;
            if let Argument::Range(index) = &mut call.arguments[INDEX] {
                index[place..place + 8].reverse();
            }
            let note = format!("{byte_order:?}, {end} turned, {back} before, column {column}");
            cases.push(Case::aimed(call, BAD_OFFSETS, note));
        }
    }
    cases
}

/// The ends before at -1 and -2, the own ones at the last and one above, in each column.
fn limits(byte_order: ByteOrder, rng: &mut Rng) -> Vec<Case> {
    let mut cases = Vec::new();
    for column in 0..2 {
        for (before, here) in [(-1, 0), (-1, LAST_END), (0, 1), (0, LAST_END), (LAST_END - 1, LAST_END)] {
            let mut plan = to_damage(byte_order, rng);
            let at = plan.number as usize;
            (plan.ends[at - 1][column], plan.ends[at][column]) = (before, here);
            cases.push(Case::aimed(plan.call(), 0, format!("ends {before} and {here}")));
        }
        for (before, here) in [
            (-2, 0),
            (-1, -1),
            (-2, -1),
            (0, LAST_END + 1),
            (LAST_END, LAST_END),
            (LAST_END, LAST_END + 1),
            (5, 4),
            (5, 5),
            (-(1 << 63), (1 << 63) - 1),
        ] {
            let mut plan = to_damage(byte_order, rng);
            let at = plan.number as usize;
            (plan.ends[at - 1][column], plan.ends[at][column]) = (before, here);
            cases.push(Case::aimed(plan.call(), BAD_OFFSETS, format!("ends {before} and {here}")));
        }
    }
    cases
}

/// The first sequence, before which stands -1.
fn first_ones(byte_order: ByteOrder, rng: &mut Rng) -> Vec<Case> {
    let mut cases = Vec::new();
    for (end, aim) in
        [(-2, BAD_OFFSETS), (-1, BAD_OFFSETS), (0, 0), (LAST_END, 0), (LAST_END + 1, BAD_OFFSETS)]
    {
        for column in 0..2 {
            let n = rng.between(1, 3);
            let mut plan = Plan::by_chance(n, byte_order, rng);
            plan.number = 0;
            plan.ends[0][column] = end;
            cases.push(Case::aimed(plan.call(), aim, format!("a first end of {end}")));
        }
    }
    cases
}

/// Ends of other sequences do not matter.
fn elsewhere(byte_order: ByteOrder, rng: &mut Rng) -> Vec<Case> {
    let mut cases = Vec::new();
    for _ in 0..20 {
        let mut plan = Plan::by_chance(6, byte_order, rng);
        for at in (0..6).filter(|at| *at as u64 != plan.number && *at as u64 + 1 != plan.number) {
            plan.ends[at] = [-7, (1 << 63) - 1];
        }
        cases.push(Case::aimed(plan.call(), 0, "other ends wrong"));
    }
    cases
}

/// Every count and number of small sets, the longest index of the protocol, and each length around the right one.
fn sizes(byte_order: ByteOrder, rng: &mut Rng) -> Vec<Case> {
    let mut cases = Vec::new();
    for (n, length) in (0..4).flat_map(|n| (0..52 + 16 * n + 20).map(move |length| (n, length))) {
        let mut plan = Plan::by_chance(n, byte_order, rng);
        plan.behind = rng.bytes(20);
        plan.length = Some(length);
        cases.push(Case::free(plan.call(), format!("an index of {length} bytes for {n}")));
    }
    for n in [0, 1, 2, 3, 1020] {
        let mut plan = Plan::by_chance(n, byte_order, rng);
        for number in [0, 1, 2, 1019, n as u64, n as u64 + 1, u64::MAX] {
            plan.number = number;
            let aim = if number < n as u64 { 0 } else { NO_SUCH_NUMBER };
            cases.push(Case::aimed(plan.call(), aim, format!("number {number} of {n}")));
        }
    }
    cases
}

/// Every sequence of the real sets, with the record as the index has it, and with the other byte order.
fn real(byte_order: ByteOrder, samples: &Samples) -> Vec<Case> {
    let mut cases = Vec::new();
    for set in &samples.sets {
        let [index, ..] = set.files_in(byte_order);
        let fours = (0..7).map(|k| &index[4 * k..4 * k + 4]);
        let eights = (0..3).map(|k| &index[28 + 8 * k..36 + 8 * k]);
        let record: Vec<u64> = fours.chain(eights).map(|field| byte_order.unsigned(field) as u64).collect();
        for (number, order) in
            (0..=record[COUNT]).flat_map(|number| ByteOrder::BOTH.map(|order| (number, order)))
        {
            let call = call_on(&record, order.number() as u64, index.clone(), number);
            let note = format!("{}, {byte_order:?}, number {number}, read {order:?}", set.name);
            cases.push(Case::free(call, note));
        }
    }
    cases
}

pub fn random(rng: &mut Rng) -> Case {
    let byte_order = *rng.pick(&ByteOrder::BOTH);
    random_in(byte_order, rng)
}

fn random_in(byte_order: ByteOrder, rng: &mut Rng) -> Case {
    match rng.below(10) {
        0..=3 => {
            let n = rng.between(1, 20);
            Case::aimed(Plan::by_chance(n, byte_order, rng).call(), 0, "valid")
        }
        4..=6 => {
            let plan = to_damage(byte_order, rng);
            let Damaged { plan, number, note } = by_chance(&rules(), rng, plan);
            Case::aimed(plan.call(), number, note)
        }
        _ => {
            let n = rng.between(1, 3);
            let call = Plan::by_chance(n, byte_order, rng).call();
            Case::free(super::spoiled(call, &[INDEX], rng), "a byte changed")
        }
    }
}
