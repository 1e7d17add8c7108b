//! The calls on header records: the walker's step, the identifier, and the label.

use crate::answers::*;
use crate::elements::read_record;
use crate::headers::{def_lines, DefLine};
use crate::identifiers::Identifier;
use crate::index::{read_index, Part};

/// The def-lines of a record: 1 if it does not fit the file, then 20 or 21.
fn check_record(header: &[u8], start: i128, end: i128) -> Answer<Vec<DefLine>> {
    ask(0 <= start && start <= end && end <= header.len() as i128, ENDS_TOO_EARLY)?;
    let record = read_record(header, start as usize, end as usize)?;
    def_lines(&record)
}

/// The next title of a record: 22, 1, 20 or 21, and 10 when none is left.
pub fn walker_step(header: &[u8], start: i128, end: i128, given: i128) -> Answer<Part> {
    ask_sizes(&[header])?;
    let lines = check_record(header, start, end)?;
    let titles: Vec<Part> = lines.iter().filter_map(|line| line.title).collect();
    nth(&titles, given)
}

/// An identifier by number, from 0 over all def-lines; it refuses as a walker step does.
pub fn identifier(header: &[u8], start: i128, end: i128, number: i128) -> Answer<Identifier> {
    ask_sizes(&[header])?;
    let lines = check_record(header, start, end)?;
    let all: Vec<Identifier> = lines.iter().flat_map(|line| line.identifiers.clone()).collect();
    nth(&all, number)
}

/// The entry of a list by number, or 10.
fn nth<T: Copy>(list: &[T], number: i128) -> Answer<T> {
    ask((0..list.len() as i128).contains(&number), NO_SUCH_NUMBER)?;
    Ok(list[number as usize])
}

/// A label is a part of the header file, or of the index.
#[derive(Clone, Copy, Debug, PartialEq, Eq)]
pub enum Label {
    InHeader(Part),
    InIndex(Part),
}

/// The first def-line's title, or the volume title where there is none: 22, 1 to 6, 10, 7, 20 or 21.
pub fn label(index: &[u8], header: &[u8], number: i128) -> Answer<Label> {
    ask_sizes(&[index, header])?;
    let index = read_index(index)?;
    ask((0..index.sequences).contains(&number), NO_SUCH_NUMBER)?;
    let start = index.header_offsets[number as usize];
    let end = index.header_offsets[number as usize + 1];
    ask(0 <= start && start <= end && end <= header.len() as i128, BAD_OFFSETS)?;
    let lines = check_record(header, start, end)?;
    match lines.first().and_then(|line| line.title) {
        Some(title) => Ok(Label::InHeader(title)),
        None => Ok(Label::InIndex(index.title)),
    }
}

/// The bytes of the label; on a refusal the empty start of the index.
pub fn label_bytes<'a>(index: &'a [u8], header: &'a [u8], answer: Answer<Label>) -> &'a [u8] {
    let (file, part) = match answer {
        Ok(Label::InHeader(part)) => (header, part),
        Ok(Label::InIndex(part)) => (index, part),
        Err(_) => (index, Part { start: 0, length: 0 }),
    };
    &file[part.start as usize..(part.start + part.length) as usize]
}
