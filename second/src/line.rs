//! The line that a call must give, by this program's own reading of document 01.

use crate::answers::Answer;
use crate::call::*;
use crate::console::{console_check_volume, console_pack, console_unpack};
use crate::dsqdata::check_set;
use crate::fields::ByteOrder;
use crate::identifiers::kind_name;
use crate::lookup::lookup;
use crate::nucleotides::{bases_of_code, write_nucleotides};
use crate::page::fetch_page;
use crate::records::{identifier, label, label_bytes, walker_step};
use crate::runs::{pack, unpack, RunSize};
use crate::sequence::decode;
use crate::stream::{hex, number_hex, packet_hex};
use crate::values::identifier_values;
use crate::volume::check_volume;

/// The answer number, the results on success, and every output after the call.
pub fn line_of(call: &Call) -> String {
    match call.byte {
        VOLUME_CHECK => volume_check_line(call),
        DECODE => decode_line(call),
        PACK => pack_line(call),
        UNPACK => unpack_line(call),
        SET_CHECK => set_check_line(call),
        LOOKUP => lookup_line(call),
        IDENTIFIER => identifier_line(call),
        WALKER_STEP => walker_step_line(call),
        LABEL => label_line(call),
        CONSOLE_VOLUME_CHECK => console_volume_check_line(call),
        CONSOLE_PACK => console_pack_line(call),
        CONSOLE_UNPACK => console_unpack_line(call),
        PAGE => page_line(call),
        WRITE_NUCLEOTIDES => write_nucleotides_line(call),
        BASES_OF_CODE => bases_of_code_line(call),
        KIND_NAME => kind_name_line(call),
        other => panic!("no line for call {other}"),
    }
}

/// The answer number that a line begins with.
pub fn number_of(line: &str) -> Option<u32> {
    line.split(' ').next()?.parse().ok()
}

/// How many items a page's line says were done: its second field.
pub fn done_of(line: &str) -> Option<usize> {
    line.split(' ').nth(1)?.parse().ok()
}

/// Fields by one space: the number, the results where there are any, the outputs.
fn join(answer: Answer<Vec<i128>>, outputs: &[String]) -> String {
    join_words(answer.map(|values| values.iter().map(i128::to_string).collect()), outputs)
}

/// The same where a result may be a word.
fn join_words(answer: Answer<Vec<String>>, outputs: &[String]) -> String {
    let mut fields = match answer {
        Ok(values) => [vec!["0".to_string()], values].concat(),
        Err(number) => vec![number.to_string()],
    };
    fields.extend(outputs.iter().cloned());
    fields.join(" ")
}

fn run_values(size: RunSize) -> Vec<i128> {
    vec![size.packets, size.residues]
}

fn volume_check_line(call: &Call) -> String {
    let answer = check_volume(call.range(0), call.range(1), call.range(2));
    join(answer.map(|record| record.values()), &[])
}

fn decode_line(call: &Call) -> String {
    let mut output = call.output(3);
    let answer = decode(call.range(0), call.range(1), call.number(2), &mut output);
    join(answer.map(|length| vec![length]), &[hex(&output)])
}

fn pack_line(call: &Call) -> String {
    let mut buffer = call.packet_output(3);
    let answer = pack(call.number(0), call.range(1), call.number(2), &mut buffer);
    join(answer.map(run_values), &[packet_hex(&buffer)])
}

fn unpack_line(call: &Call) -> String {
    let mut output = call.output(2);
    let answer = unpack(call.number(0), call.packets(1), &mut output);
    join(answer.map(run_values), &[hex(&output)])
}

fn set_check_line(call: &Call) -> String {
    let answer = check_set(call.range(0), call.range(1), call.range(2));
    join(answer.map(|record| record.values()), &[])
}

/// The record's count is its ninth field, and its byte order stands behind its tenth.
fn lookup_line(call: &Call) -> String {
    let byte_order = ByteOrder::of_number(call.number(10));
    let answer = lookup(call.number(8), byte_order, call.range(11), call.number(12));
    join(answer.map(|found| found.values()), &[])
}

fn identifier_line(call: &Call) -> String {
    let answer = identifier(call.range(0), call.number(1), call.number(2), call.number(3));
    join_words(answer.map(identifier_values), &[])
}

fn walker_step_line(call: &Call) -> String {
    let answer = walker_step(call.range(0), call.number(1), call.number(2), call.number(3));
    join(answer.map(|title| vec![title.start, title.length]), &[])
}

/// The part stands behind the number, on a refusal too.
fn label_line(call: &Call) -> String {
    let answer = label(call.range(0), call.range(1), call.number(2));
    let part = label_bytes(call.range(0), call.range(1), answer);
    join(answer.map(|_| vec![]), &[hex(part)])
}

fn console_volume_check_line(call: &Call) -> String {
    let mut results = call.output(3);
    let answer = console_check_volume(call.range(0), call.range(1), call.range(2), &mut results);
    join(answer.map(|()| vec![]), &[hex(&results)])
}

fn console_pack_line(call: &Call) -> String {
    let mut buffer = call.output(2);
    let mut results = call.output(4);
    let answer = console_pack(call.number(0), call.range(1), &mut buffer, call.number(3), &mut results);
    join(answer.map(|()| vec![]), &[hex(&buffer), hex(&results)])
}

fn console_unpack_line(call: &Call) -> String {
    let mut output = call.output(2);
    let mut results = call.output(3);
    let answer = console_unpack(call.number(0), call.range(1), &mut output, &mut results);
    join(answer.map(|()| vec![]), &[hex(&output), hex(&results)])
}

/// How many were done stands right behind the number, on a refusal too.
fn page_line(call: &Call) -> String {
    let mut output = call.output(3);
    let mut ends = call.number_output(4);
    let page = fetch_page(call.range(0), call.range(1), call.numbers(2), &mut output, &mut ends);
    join(page.answer.map(|()| vec![]), &[page.done.to_string(), hex(&output), number_hex(&ends)])
}

fn write_nucleotides_line(call: &Call) -> String {
    let mut output = call.output(1);
    let answer = write_nucleotides(call.range(0), &mut output);
    join(answer.map(|sizes| vec![sizes.two_bit, sizes.table]), &[hex(&output)])
}

fn bases_of_code_line(call: &Call) -> String {
    join(bases_of_code(call.number(0)).map(|bases| vec![bases]), &[])
}

fn kind_name_line(call: &Call) -> String {
    let mut output = call.output(1);
    let answer = kind_name(call.number(0), &mut output);
    join(answer.map(|length| vec![length]), &[hex(&output)])
}
