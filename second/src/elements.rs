//! Header elements: the nesting of a record, read left to right into a tree (20 or 21).

use crate::answers::*;
use crate::fields::{big_signed, big_unsigned};
use crate::index::Part;

/// The last depth that an element may have; the outermost has depth 1.
pub const LAST_DEPTH: i128 = 16;

/// An element with what is inside it. A text is a part of the header file.
#[derive(Clone, Debug, PartialEq, Eq)]
pub enum Element {
    Integer(i128),
    Text(Part),
    List(Vec<Element>),
    Choice(u8, Box<Element>),
}

/// "A record is one element and nothing more": the bytes of a file from a start up to an end.
pub fn read_record(file: &[u8], start: usize, end: usize) -> Answer<Element> {
    let mut reader = Reader { file: &file[..end], at: start };
    let element = reader.element(1)?;
    ask(reader.at == end, BAD_RECORD)?;
    Ok(element)
}

/// Of two bytes or more. The first bit is the highest of the first byte.
fn first_nine_bits_are_equal(bytes: &[u8]) -> bool {
    let bit = |place: usize| bytes[place / 8] >> (7 - place % 8) & 1;
    (0..9).all(|place| bit(place) == bit(0))
}

/// The file up to the record's end, and how far it is read.
struct Reader<'a> {
    file: &'a [u8],
    at: usize,
}

impl Reader<'_> {
    /// The element that begins here, at this depth.
    fn element(&mut self, depth: i128) -> Answer<Element> {
        let tag = self.byte()?;
        let begins = matches!(tag, 0x02 | 0x1A | 0x30 | 0xA0..=0xB3);
        // At depth 17 such a byte is 21 at once, another wrong byte is 20.
        ask(begins, BAD_RECORD)?;
        ask(depth <= LAST_DEPTH, TOO_DEEP)?;
        match tag {
            0x02 => self.integer(),
            0x1A => self.text(),
            0x30 => self.list(depth),
            _ => self.choice(tag, depth),
        }
    }

    /// "02, a length 1 to 8, a two's complement integer"; and "An integer whose first nine bits are all equal, when it has
    /// more than one byte, is refused" (request 2026-06).
    fn integer(&mut self) -> Answer<Element> {
        let length = self.byte()? as i128;
        ask((1..=8).contains(&length), BAD_RECORD)?;
        let part = self.take(length)?;
        let bytes = self.bytes(part);
        ask(length == 1 || !first_nine_bits_are_equal(bytes), BAD_RECORD)?;
        Ok(Element::Integer(big_signed(bytes)))
    }

    /// "1A, a length (below 128 in one byte, or 81 to 84 and that many bytes), text".
    fn text(&mut self) -> Answer<Element> {
        let first = self.byte()?;
        let length = match first {
            0x00..=0x7F => first as i128,
            0x81..=0x84 => {
                let part = self.take(first as i128 - 0x80)?;
                big_unsigned(self.bytes(part))
            }
            _ => return Err(BAD_RECORD),
        };
        Ok(Element::Text(self.take(length)?))
    }

    /// "30 80, elements, 00 00".
    fn list(&mut self, depth: i128) -> Answer<Element> {
        self.expect(0x80)?;
        let mut elements = Vec::new();
        while self.peek()? != 0x00 {
            elements.push(self.element(depth + 1)?);
        }
        self.close()?;
        Ok(Element::List(elements))
    }

    /// "A0 to B3 then 80, one element, 00 00".
    fn choice(&mut self, tag: u8, depth: i128) -> Answer<Element> {
        self.expect(0x80)?;
        let inside = self.element(depth + 1)?;
        self.close()?;
        Ok(Element::Choice(tag, Box::new(inside)))
    }

    fn close(&mut self) -> Answer<()> {
        self.expect(0x00)?;
        self.expect(0x00)
    }

    fn expect(&mut self, wanted: u8) -> Answer<()> {
        let byte = self.byte()?;
        ask(byte == wanted, BAD_RECORD)
    }

    fn peek(&self) -> Answer<u8> {
        self.file.get(self.at).copied().ok_or(BAD_RECORD)
    }

    fn byte(&mut self) -> Answer<u8> {
        let byte = self.peek()?;
        self.at += 1;
        Ok(byte)
    }

    /// The part of the next bytes; 20 where the record ends before.
    fn take(&mut self, length: i128) -> Answer<Part> {
        ask(self.at as i128 + length <= self.file.len() as i128, BAD_RECORD)?;
        let start = self.at as i128;
        self.at += length as usize;
        Ok(Part { start, length })
    }

    fn bytes(&self, part: Part) -> &[u8] {
        &self.file[part.start as usize..(part.start + part.length) as usize]
    }
}
