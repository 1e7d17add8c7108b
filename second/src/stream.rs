//! A call as bytes of the stream, and as text for people.

use crate::call::{Argument, Call};

/// The bytes of a call in the stream: its byte, then its arguments.
pub fn stream_of(call: &Call) -> Vec<u8> {
    let mut bytes = vec![call.byte];
    for argument in &call.arguments {
        write_argument(&mut bytes, argument);
    }
    bytes
}

fn write_argument(bytes: &mut Vec<u8>, argument: &Argument) {
    match argument {
        Argument::Number(value) => bytes.extend(value.to_le_bytes()),
        Argument::Range(range) => {
            bytes.extend((range.len() as u32).to_le_bytes());
            bytes.extend(range);
        }
        Argument::Output(length, fill) => {
            bytes.extend((*length as u32).to_le_bytes());
            bytes.push(*fill);
        }
        Argument::PacketRange(packets) => {
            bytes.extend((packets.len() as u32).to_le_bytes());
            for packet in packets {
                bytes.extend(packet.to_le_bytes());
            }
        }
        Argument::PacketOutput(count, fill) => {
            bytes.extend((*count as u32).to_le_bytes());
            bytes.extend(fill.to_le_bytes());
        }
        Argument::NumberList(numbers) => {
            bytes.extend((numbers.len() as u32).to_le_bytes());
            for number in numbers {
                bytes.extend(number.to_le_bytes());
            }
        }
        Argument::NumberOutput(count, fill) => {
            bytes.extend((*count as u32).to_le_bytes());
            bytes.extend(fill.to_le_bytes());
        }
    }
}

/// Bytes in hex, two digits each, `-` where there is none.
pub fn hex(bytes: &[u8]) -> String {
    if bytes.is_empty() {
        return "-".to_string();
    }
    bytes.iter().map(|byte| format!("{byte:02x}")).collect()
}

/// Packets in hex, eight digits each, `-` where there is none.
pub fn packet_hex(packets: &[u32]) -> String {
    if packets.is_empty() {
        return "-".to_string();
    }
    packets.iter().map(|packet| format!("{packet:08x}")).collect()
}

/// Numbers in hex, sixteen digits each, `-` where there is none.
pub fn number_hex(numbers: &[u64]) -> String {
    if numbers.is_empty() {
        return "-".to_string();
    }
    numbers.iter().map(|number| format!("{number:016x}")).collect()
}

/// An argument for people, in hex.
pub fn describe(argument: &Argument) -> String {
    match argument {
        Argument::Number(value) => format!("number {value:#x}"),
        Argument::Range(range) => format!("range of {}: {}", range.len(), hex(range)),
        Argument::Output(length, fill) => format!("output of {length}, filled with {fill:02x}"),
        Argument::PacketRange(packets) => {
            format!("packet range of {}: {}", packets.len(), packet_hex(packets))
        }
        Argument::PacketOutput(count, fill) => format!("packet output of {count}, filled with {fill:08x}"),
        Argument::NumberList(numbers) => {
            format!("number list of {}: {}", numbers.len(), number_hex(numbers))
        }
        Argument::NumberOutput(count, fill) => format!("number output of {count}, filled with {fill:016x}"),
    }
}
