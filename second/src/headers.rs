//! The shape of a record in source 001: a set of def-lines, each with fields A0 to A5 that rise.

use crate::answers::*;
use crate::elements::Element;
use crate::identifiers::{identifier, Identifier};
use crate::index::Part;
use crate::shape::{integer, list_of, sequence, text};

/// What the calls need of a def-line.
#[derive(Clone, Debug, PartialEq, Eq)]
pub struct DefLine {
    pub title: Option<Part>,
    pub identifiers: Vec<Identifier>,
}

/// The def-lines of a record, or 20.
pub fn def_lines(record: &Element) -> Answer<Vec<DefLine>> {
    list_of(record, def_line)
}

/// A Blast-def-line: title, identifiers, taxonomy id, memberships, links, other information. Each may be absent.
fn def_line(element: &Element) -> Answer<DefLine> {
    let integers = |body: &Element| list_of(body, integer);
    sequence(element, |fields| {
        let title = fields.optional(0xA0, text)?;
        let identifiers = fields.optional(0xA1, |body| list_of(body, identifier))?;
        fields.optional(0xA2, integer)?;
        fields.optional(0xA3, integers)?;
        fields.optional(0xA4, integers)?;
        fields.optional(0xA5, integers)?;
        Ok(DefLine { title, identifiers: identifiers.unwrap_or_default() })
    })
}
