//! One metadata record: name, accession and description, each closed by NUL, and the taxonomy id.

use crate::fields::ByteOrder;

#[derive(Clone, Debug, PartialEq, Eq)]
pub struct Metadata {
    pub name: Vec<u8>,
    pub accession: Vec<u8>,
    pub description: Vec<u8>,
    pub taxonomy_id: i128,
}

/// The record that these bytes are, where they are a good one and nothing more. Text has no byte order.
pub fn read_metadata(bytes: &[u8], byte_order: ByteOrder) -> Option<Metadata> {
    let (name, rest) = text(bytes)?;
    let (accession, rest) = text(rest)?;
    let (description, rest) = text(rest)?;
    if rest.len() != 4 {
        return None;
    }
    let metadata = Metadata { name, accession, description, taxonomy_id: byte_order.signed(rest) };
    is_good(&metadata).then_some(metadata)
}

/// A text up to its NUL, and what stands behind the NUL.
fn text(bytes: &[u8]) -> Option<(Vec<u8>, &[u8])> {
    let nul = bytes.iter().position(|byte| *byte == 0)?;
    Some((bytes[..nul].to_vec(), &bytes[nul + 1..]))
}

/// "name (not empty) and accession without bytes 9 to 13 or 32, description without byte 10, .. a signed taxonomy
/// id, -1 for unset or at least 1".
fn is_good(metadata: &Metadata) -> bool {
    let is_word = |text: &[u8]| !text.iter().any(|byte| (9..=13).contains(byte) || *byte == 32);
    !metadata.name.is_empty()
        && is_word(&metadata.name)
        && is_word(&metadata.accession)
        && !metadata.description.contains(&10)
        && (metadata.taxonomy_id == -1 || metadata.taxonomy_id >= 1)
}
