//! The lookup of one sequence in an opened set: where its metadata and its run stand.

use crate::answers::*;
use crate::dsqdata::{read_ends, Ends};
use crate::fields::ByteOrder;
use crate::index::Part;

/// The last end that a lookup takes.
pub const LAST_END: i128 = 2_147_483_646;

/// Start and length, for metadata in bytes and for the run in packets, counted in the bodies.
#[derive(Clone, Copy, Debug, PartialEq, Eq)]
pub struct Found {
    pub metadata: Part,
    pub run: Part,
}

impl Found {
    pub fn values(&self) -> Vec<i128> {
        vec![self.metadata.start, self.metadata.length, self.run.start, self.run.length]
    }
}

/// Its own checks in order: 22, 4, 1, 6, 10, 7. Of the record only the count and the byte order are looked at, and of the
/// index only its ends: its own magic is not asked.
pub fn lookup(count: i128, byte_order: ByteOrder, index: &[u8], number: i128) -> Answer<Found> {
    ask_sizes(&[index])?;
    ask(count <= MOST_SEQUENCES, OUT_OF_RANGE)?;
    ask(index.len() as i128 >= 52 + 16 * count, ENDS_TOO_EARLY)?;
    ask(index.len() as i128 == 52 + 16 * count, LEFT_OVER)?;
    ask((0..count).contains(&number), NO_SUCH_NUMBER)?;
    let ends = read_ends(index, byte_order);
    let here = ends[number as usize];
    let before = if number == 0 { Ends { metadata: -1, packets: -1 } } else { ends[number as usize - 1] };
    ask(end_holds(before.metadata, here.metadata), BAD_OFFSETS)?;
    ask(end_holds(before.packets, here.packets), BAD_OFFSETS)?;
    Ok(Found {
        metadata: Part { start: before.metadata + 1, length: here.metadata - before.metadata },
        run: Part { start: before.packets + 1, length: here.packets - before.packets },
    })
}

/// "both ends are above the ones before, those at least -1, and at most 2,147,483,646".
fn end_holds(before: i128, here: i128) -> bool {
    here > before && before >= -1 && here <= LAST_END
}
