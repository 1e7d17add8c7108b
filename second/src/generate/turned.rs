//! A set turned into the other byte order: every integer of it by its place, text not. An integer may be left as it was.

use crate::dsqdata::read_ends;
use crate::fields::ByteOrder;

/// The index, the metadata file and the sequence file.
pub type Files = [Vec<u8>; 3];

/// What an integer of a set is: the magic or the tag of a file, a later field of the index's header, and so on.
#[derive(Clone, Copy, Debug, PartialEq, Eq)]
pub enum Integer {
    Magic(usize),
    Tag(usize),
    Field(usize),
    MetadataEnd,
    PacketEnd,
    TaxonomyId,
    Packet,
}

/// Where an integer stands: its file, its first byte, and how many it has.
struct Place {
    integer: Integer,
    file: usize,
    start: usize,
    width: usize,
}

/// The same files in the other byte order, but for the integers that are left as they were. The ends must be good.
pub fn turned(files: &Files, byte_order: ByteOrder, is_left: impl Fn(Integer) -> bool) -> Files {
    let mut turned = files.clone();
    for place in places(files, byte_order).into_iter().filter(|place| !is_left(place.integer)) {
        turned[place.file][place.start..place.start + place.width].reverse();
    }
    turned
}

/// The same files in the other byte order.
pub fn wholly_turned(files: &Files, byte_order: ByteOrder) -> Files {
    turned(files, byte_order, |_| false)
}

/// Every integer of a set in a byte order.
fn places(files: &Files, byte_order: ByteOrder) -> Vec<Place> {
    let place = |integer, file, start, width| Place { integer, file, start, width };
    let mut places = Vec::new();
    for file in 0..3 {
        places.push(place(Integer::Magic(file), file, 0, 4));
        places.push(place(Integer::Tag(file), file, 4, 4));
    }
    places.extend((2..7).map(|k| place(Integer::Field(k), 0, 4 * k, 4)));
    places.extend((7..10).map(|k| place(Integer::Field(k), 0, 28 + 8 * (k - 7), 8)));
    for (k, ends) in read_ends(&files[0], byte_order).iter().enumerate() {
        places.push(place(Integer::MetadataEnd, 0, 52 + 16 * k, 8));
        places.push(place(Integer::PacketEnd, 0, 60 + 16 * k, 8));
        // The end is the last byte of the taxonomy id, counted behind the file's header of eight.
        places.push(place(Integer::TaxonomyId, 1, 8 + ends.metadata as usize - 3, 4));
    }
    places.extend((8..files[2].len()).step_by(4).map(|start| place(Integer::Packet, 2, start, 4)));
    places
}
