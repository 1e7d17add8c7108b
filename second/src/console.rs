//! The console's calls, on numbers and byte ranges. Results go into a lent range as eight-byte little-endian
//! numbers; a results range that is too short is 13, after every other refusal.

use crate::answers::*;
use crate::fields::{little_bytes, ByteOrder};
use crate::residues::Alphabet;
use crate::runs::{residues_for, run_for};
use crate::volume::check_volume;

/// Room for as many results of eight bytes.
fn ask_results(results: &[u8], count: usize) -> Answer<()> {
    ask(results.len() as i128 >= 8 * count as i128, NO_ROOM)
}

/// The results as eight-byte little-endian numbers; bytes behind them stay.
fn write_results(results: &mut [u8], values: &[i128]) {
    for (k, value) in values.iter().enumerate() {
        results[8 * k..8 * k + 8].copy_from_slice(&little_bytes(*value, 8));
    }
}

/// The volume check with its eight results.
pub fn console_check_volume(index: &[u8], sequence: &[u8], header: &[u8], results: &mut [u8]) -> Answer<()> {
    let record = check_volume(index, sequence, header)?;
    ask_results(results, 8)?;
    write_results(results, &record.values());
    Ok(())
}

/// Packing into a buffer of little-endian bytes; bytes past its last whole packet are unused.
pub fn console_pack(
    alphabet: i128,
    codes: &[u8],
    buffer: &mut [u8],
    place: i128,
    results: &mut [u8],
) -> Answer<()> {
    let run = run_for(alphabet, codes, place, buffer.len() as i128 / 4)?;
    ask_results(results, 2)?;
    for (k, packet) in run.iter().enumerate() {
        let start = 4 * (place as usize + k);
        buffer[start..start + 4].copy_from_slice(&little_bytes(*packet as i128, 4));
    }
    write_results(results, &[run.len() as i128, codes.len() as i128]);
    Ok(())
}

/// Unpacking from little-endian bytes: 22, 1 for an input not a multiple of 4, 3, 17, 13.
pub fn console_unpack(alphabet: i128, packets: &[u8], output: &mut [u8], results: &mut [u8]) -> Answer<()> {
    ask_sizes(&[packets])?;
    ask(packets.len() as i128 % 4 == 0, ENDS_TOO_EARLY)?;
    let alphabet = Alphabet::of_number(alphabet)?;
    let run = packets_of_bytes(packets, ByteOrder::Little);
    let residues = residues_for(alphabet, &run, output.len() as i128)?;
    ask_results(results, 2)?;
    output[..residues.len()].copy_from_slice(&residues);
    write_results(results, &[run.len() as i128, residues.len() as i128]);
    Ok(())
}

/// Packets out of bytes, whole ones only.
pub fn packets_of_bytes(bytes: &[u8], byte_order: ByteOrder) -> Vec<u32> {
    bytes.chunks_exact(4).map(|four| byte_order.unsigned(four) as u32).collect()
}

/// The bytes of one run of codes, with all the room it needs.
pub fn packed(alphabet: i128, codes: &[u8]) -> Answer<Vec<u8>> {
    let run = run_for(alphabet, codes, 0, codes.len() as i128 + 1)?;
    Ok(run.iter().flat_map(|packet| little_bytes(*packet as i128, 4)).collect())
}

/// The codes of one run of bytes, with all the room it needs.
pub fn unpacked(alphabet: i128, packets: &[u8]) -> Answer<Vec<u8>> {
    ask_sizes(&[packets])?;
    ask(packets.len() as i128 % 4 == 0, ENDS_TOO_EARLY)?;
    let alphabet = Alphabet::of_number(alphabet)?;
    let run = packets_of_bytes(packets, ByteOrder::Little);
    residues_for(alphabet, &run, 15 * packets.len() as i128)
}
