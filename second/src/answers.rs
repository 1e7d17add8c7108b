//! Document 01's answer numbers under the name of their cause, and the limits that several calls share.

/// What a call answers: its values, or the number of the refusal. A refusal writes nowhere.
pub type Answer<T> = Result<T, u32>;

pub const ENDS_TOO_EARLY: u32 = 1;
pub const WRONG_VERSION: u32 = 2;
pub const WRONG_TYPE: u32 = 3;
pub const OUT_OF_RANGE: u32 = 4;
pub const MISALIGNED: u32 = 5;
pub const LEFT_OVER: u32 = 6;
pub const BAD_OFFSETS: u32 = 7;
pub const NO_SEPARATOR: u32 = 8;
pub const WRONG_TOTALS: u32 = 9;
pub const NO_SUCH_NUMBER: u32 = 10;
pub const BAD_PROTEIN_BYTE: u32 = 11;
pub const BAD_AMBIGUITY_TABLE: u32 = 12;
pub const NO_ROOM: u32 = 13;
pub const WRONG_MAGIC: u32 = 14;
pub const TAGS_DIFFER: u32 = 15;
pub const BAD_RUN: u32 = 17;
pub const BAD_CODE: u32 = 18;
pub const BAD_METADATA: u32 = 19;
pub const BAD_RECORD: u32 = 20;
pub const TOO_DEEP: u32 = 21;
pub const TOO_LARGE: u32 = 22;

/// The largest input byte range, the largest input packet range, and the most sequences of an index.
pub const MOST_BYTES: i128 = 2_147_483_647;
pub const MOST_PACKETS: i128 = 536_870_912;
pub const MOST_SEQUENCES: i128 = 134_217_728;

/// One rule: it holds, or the call is refused with this number.
pub fn ask(holds: bool, number: u32) -> Answer<()> {
    if holds {
        Ok(())
    } else {
        Err(number)
    }
}

/// Number 22 for a list of input byte ranges.
pub fn ask_sizes(ranges: &[&[u8]]) -> Answer<()> {
    for range in ranges {
        ask(range.len() as i128 <= MOST_BYTES, TOO_LARGE)?;
    }
    Ok(())
}
