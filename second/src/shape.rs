//! What 001's definitions are made of, read from elements: INTEGER, VisibleString, CHOICE, SEQUENCE OF and SEQUENCE.
//! Anything else is a wrong shape (20).

use crate::answers::*;
use crate::elements::Element;
use crate::index::Part;

pub fn integer(element: &Element) -> Answer<i128> {
    match element {
        Element::Integer(value) => Ok(*value),
        _ => Err(BAD_RECORD),
    }
}

pub fn text(element: &Element) -> Answer<Part> {
    match element {
        Element::Text(part) => Ok(*part),
        _ => Err(BAD_RECORD),
    }
}

/// The alternative that a CHOICE has: its tag and its body.
pub fn choice(element: &Element) -> Answer<(u8, &Element)> {
    match element {
        Element::Choice(tag, body) => Ok((*tag, body)),
        _ => Err(BAD_RECORD),
    }
}

fn list(element: &Element) -> Answer<&[Element]> {
    match element {
        Element::List(elements) => Ok(elements),
        _ => Err(BAD_RECORD),
    }
}

/// A SEQUENCE OF: a list, each of whose elements is read.
pub fn list_of<T>(element: &Element, read: fn(&Element) -> Answer<T>) -> Answer<Vec<T>> {
    list(element)?.iter().map(read).collect()
}

/// The fields of a SEQUENCE that are not read yet. They are asked for in 001's order; one that is unknown, stands twice
/// or comes too late is never asked for, and is left over at the end.
pub struct Fields<'a> {
    rest: &'a [Element],
}

/// A SEQUENCE: its fields as `read` asks for them, and no other.
pub fn sequence<T>(element: &Element, read: impl FnOnce(&mut Fields) -> Answer<T>) -> Answer<T> {
    let mut fields = Fields { rest: list(element)? };
    let value = read(&mut fields)?;
    ask(fields.rest.is_empty(), BAD_RECORD)?;
    Ok(value)
}

impl Fields<'_> {
    /// The field of this tag, where it is the next.
    pub fn optional<T>(&mut self, tag: u8, read: fn(&Element) -> Answer<T>) -> Answer<Option<T>> {
        match self.rest.split_first() {
            Some((Element::Choice(found, body), behind)) if *found == tag => {
                self.rest = behind;
                Ok(Some(read(body)?))
            }
            _ => Ok(None),
        }
    }

    pub fn required<T>(&mut self, tag: u8, read: fn(&Element) -> Answer<T>) -> Answer<T> {
        self.optional(tag, read)?.ok_or(BAD_RECORD)
    }
}
