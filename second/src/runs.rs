//! The calls on packets: packing at a place in a lent buffer, and unpacking.

use crate::answers::*;
use crate::packets::{is_well_formed, residues_of, run_of};
use crate::residues::Alphabet;

/// "They return the run's packets and L."
#[derive(Clone, Copy, Debug, PartialEq, Eq)]
pub struct RunSize {
    pub packets: i128,
    pub residues: i128,
}

/// Packing appends one run at a place, counted in packets; every other packet stays.
pub fn pack(alphabet: i128, codes: &[u8], place: i128, buffer: &mut [u32]) -> Answer<RunSize> {
    let run = run_for(alphabet, codes, place, buffer.len() as i128)?;
    for (k, packet) in run.iter().enumerate() {
        buffer[place as usize + k] = *packet;
    }
    Ok(RunSize { packets: run.len() as i128, residues: codes.len() as i128 })
}

/// The run that packing will write, after all its rules: 22, 3, 18, 13.
pub fn run_for(alphabet: i128, codes: &[u8], place: i128, room: i128) -> Answer<Vec<u32>> {
    ask_sizes(&[codes])?;
    let alphabet = Alphabet::of_number(alphabet)?;
    ask(codes.iter().all(|code| alphabet.is_code(*code)), BAD_CODE)?;
    let run = run_of(alphabet, codes);
    ask(place >= 0 && place + run.len() as i128 <= room, NO_ROOM)?;
    Ok(run)
}

/// Unpacking takes any well-formed run and writes the first L bytes of its output: 22, 3, 17, 13.
pub fn unpack(alphabet: i128, packets: &[u32], output: &mut [u8]) -> Answer<RunSize> {
    ask(packets.len() as i128 <= MOST_PACKETS, TOO_LARGE)?;
    let alphabet = Alphabet::of_number(alphabet)?;
    let residues = residues_for(alphabet, packets, output.len() as i128)?;
    output[..residues.len()].copy_from_slice(&residues);
    Ok(RunSize { packets: packets.len() as i128, residues: residues.len() as i128 })
}

/// The residues that unpacking will write, after 17 and 13.
pub fn residues_for(alphabet: Alphabet, packets: &[u32], room: i128) -> Answer<Vec<u8>> {
    ask(is_well_formed(alphabet, packets), BAD_RUN)?;
    let residues = residues_of(packets);
    ask(residues.len() as i128 <= room, NO_ROOM)?;
    Ok(residues)
}
