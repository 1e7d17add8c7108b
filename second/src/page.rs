//! A whole page (request 2026-02): one call with a list of numbers, an output and a list for ends. It is single fetches in
//! the list's order, each appended after the last.

use crate::answers::*;
use crate::sequence::decode;

/// How a page came out: all of it, or up to an item that was refused with this number; and how many items were done.
#[derive(Clone, Copy, Debug, PartialEq, Eq)]
pub struct Page {
    pub answer: Answer<()>,
    pub done: usize,
}

/// 22, then 13 for a list of ends that is shorter than the numbers, before any work; then each item's own numbers, with
/// how many were done before it. What was done stays, the refused item changes nothing, and without items nothing is read.
pub fn fetch_page(
    index: &[u8],
    sequence: &[u8],
    numbers: &[u64],
    output: &mut [u8],
    ends: &mut [u64],
) -> Page {
    let asked = ask_sizes(&[index, sequence]).and_then(|()| ask(ends.len() >= numbers.len(), NO_ROOM));
    if asked.is_err() {
        return Page { answer: asked, done: 0 };
    }
    let mut filled = 0;
    for (done, number) in numbers.iter().enumerate() {
        match decode(index, sequence, *number as i128, &mut output[filled..]) {
            Ok(length) => filled += length as usize,
            Err(refusal) => return Page { answer: Err(refusal), done },
        }
        ends[done] = filled as u64;
    }
    Page { answer: Ok(()), done: numbers.len() }
}
