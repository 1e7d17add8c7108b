//! Writing nucleotides beyond the protocol: sequences on both sides of the length that asks for 64-bit entries, whole; and
//! both numbers 22.

use crate::large::{case, large_buffer};
use crate::nucleotides::{write, Ranges};
use second::call::{Call, WRITE_NUCLEOTIDES};
use second::generate::large::*;
use second::generate::nucleotide_codes::alternating;
use second::generate::Case;
use second::nucleotides::{write_nucleotides, MOST_NARROW};
use second::outcome::Outcome;

/// All that the protocol has no room for.
pub fn large(outcome: &mut Outcome, large: &[u8]) -> Result<(), String> {
    for length in [MOST_NARROW, MOST_NARROW + 1] {
        let codes = stretches(length);
        let needed = needed(&codes);
        for (room, aim) in [(needed, 0), (needed + 9, 0), (needed - 1, 13), (0, 13)] {
            whole(outcome, &codes, room, aim);
        }
        whole(outcome, &vec![3; length], length / 4 + 1, 0);
        whole(outcome, &[&codes[..length - 1], &[16]].concat(), needed, 18);
    }
    first_22(outcome, large)?;
    second_22(outcome)
}

/// A case that only face has.
fn plain_case(aim: u32, note: String) -> Case {
    Case::aimed(Call::new(WRITE_NUCLEOTIDES, vec![]), aim, note)
}

/// So many codes: bases in turn and among them stretches of every code of 4 or more, around 16 and around 4,096, apart and
/// touching; one at the start, one at the very end.
fn stretches(length: usize) -> Vec<u8> {
    let mut codes: Vec<u8> = (0..length).map(|k| (k % 7 % 4) as u8).collect();
    let mut at = 0;
    for (k, stretch) in [16, 17, 4096, 4097, 15, 1, 8192, 8193, 32, 33].into_iter().enumerate() {
        for code in 4..=15 {
            codes[at..at + stretch].fill(code);
            at += stretch + k % 3;
        }
    }
    codes[length / 2..length / 2 + 70_000].fill(15);
    codes[length - 4097..length - 17].fill(4);
    codes[length - 17..].fill(5);
    codes
}

/// The bytes that codes need, by our own reading.
fn needed(codes: &[u8]) -> usize {
    let mut output = vec![0; 5 * codes.len()];
    let sizes = write_nucleotides(codes, &mut output).expect("codes that can be written");
    (sizes.two_bit + sizes.table) as usize
}

/// Writes codes into so much room, and looks at every byte of it.
fn whole(outcome: &mut Outcome, codes: &[u8], room: usize, aim: u32) {
    let mut output = vec![0x5A; room];
    let mut lent = Ranges::new(codes, &output, 16, room);
    let expected = match write_nucleotides(codes, &mut output) {
        Ok(sizes) => format!("0 {} {}", sizes.two_bit, sizes.table),
        Err(number) => number.to_string(),
    };
    let number = lent.write();
    let mut fields = lent.answer(number);
    let differs = output.iter().zip(lent.output.inside()).position(|(ours, theirs)| ours != theirs);
    if let Some(place) = differs {
        fields.push(format!("and byte {place} is another"));
    }
    fields.extend(lent.faults(number));
    let note = format!("{} codes in {room} bytes", codes.len());
    outcome.count(&plain_case(aim, note), &expected, fields.join(" "));
}

/// A refusal, of which nothing but its number may be seen. Of a large output both ends are looked at.
fn refused(outcome: &mut Outcome, case: Case, codes: &[u8], output: &mut [u8]) {
    let expected = write_nucleotides(codes, output).err().unwrap_or(0);
    let mut results = [5; 16];
    let number = write(codes, output, &mut results);
    let near = output.len().min(1 << 16);
    let ends = output[..near].iter().chain(&output[output.len() - near..]);
    let is_untouched = results == [5; 16] && ends.into_iter().all(|byte| *byte == 0);
    let touched = if is_untouched { "" } else { " and bytes lent for writing were changed" };
    outcome.count(&case, &expected.to_string(), format!("{number}{touched}"));
}

/// The first 22: so many codes, all A, in no output or in one with room for them; and with a code above 15, asked next.
fn first_22(outcome: &mut Outcome, large: &[u8]) -> Result<(), String> {
    let [range] = ranges(WRITE_NUCLEOTIDES) else { return Err("one range".to_string()) };
    let aimed = |aim, shows| case(WRITE_NUCLEOTIDES, aim, shows);
    let output = large_buffer(MOST / 4 + 2)?;
    refused(outcome, aimed(13, last(range)), &large[..MOST], &mut []);
    refused(outcome, aimed(22, first(range)), &large[..MOST + 1], output);
    let codes = large_buffer(MOST + 1)?;
    for place in [MOST - 1, 0] {
        codes[place] = 16;
        refused(outcome, aimed(22, pair(range)), codes, output);
        refused(outcome, aimed(22, pair(range)), codes, &mut []);
        let note = format!("16 at {place} of 2,147,483,647 codes");
        refused(outcome, plain_case(18, note), &codes[..MOST], &mut []);
    }
    Ok(())
}

/// Codes in turn have an entry of eight bytes each: so many of them are the last that need no more than 2,147,483,647
/// bytes, 2,147,483,642. With 17 bases behind them they need all of these, and with 21 one more.
const LAST_IN_TURN: usize = 260_301_047;

/// The second 22: on both sides of its limit, with 18 before it, and with 13 behind.
fn second_22(outcome: &mut Outcome) -> Result<(), String> {
    let aimed = |aim, shows| case(WRITE_NUCLEOTIDES, aim, shows);
    let mut codes = alternating(4, 5, LAST_IN_TURN + 1);
    refused(outcome, plain_case(13, "the last in turn".to_string()), &codes[..LAST_IN_TURN], &mut []);
    refused(outcome, aimed(22, needed_and_room()), &codes, &mut []);
    codes[LAST_IN_TURN] = 16;
    refused(outcome, aimed(18, code_and_needed()), &codes, &mut []);
    codes.truncate(LAST_IN_TURN);
    codes.resize(LAST_IN_TURN + 21, 3);
    let output = large_buffer(MOST + 1)?;
    refused(outcome, aimed(13, needed_last()), &codes[..LAST_IN_TURN + 17], &mut output[..MOST - 1]);
    refused(outcome, aimed(22, needed_first()), &codes, output);
    Ok(())
}
