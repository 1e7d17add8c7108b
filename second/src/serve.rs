//! The protocol from the other side: reads a stream and answers it from this program's own reading. It lets
//! the comparison be tried without the library.

use crate::call::*;
use crate::line::line_of;

/// What a stream can end with inside a case, as the line that then stands last.
#[derive(Clone, Copy, Debug, PartialEq, Eq)]
enum Stop {
    Cut,
    TooLong,
    Unknown,
}

struct Reader<'a> {
    bytes: &'a [u8],
    at: usize,
}

impl Reader<'_> {
    fn take(&mut self, length: usize) -> Result<&[u8], Stop> {
        if self.bytes.len() - self.at < length {
            return Err(Stop::Cut);
        }
        self.at += length;
        Ok(&self.bytes[self.at - length..self.at])
    }

    fn four(&mut self) -> Result<u32, Stop> {
        let bytes = self.take(4)?;
        Ok(u32::from_le_bytes([bytes[0], bytes[1], bytes[2], bytes[3]]))
    }

    fn eight(&mut self) -> Result<u64, Stop> {
        let low = self.four()? as u64;
        Ok(low + ((self.four()? as u64) << 32))
    }

    fn length(&mut self, most: usize) -> Result<usize, Stop> {
        let length = self.four()? as usize;
        if length > most {
            return Err(Stop::TooLong);
        }
        Ok(length)
    }

    fn argument(&mut self, kind: Kind) -> Result<Argument, Stop> {
        Ok(match kind {
            Kind::Number => Argument::Number(self.eight()?),
            Kind::Range => {
                let length = self.length(MOST_RANGE)?;
                Argument::Range(self.take(length)?.to_vec())
            }
            Kind::Output => Argument::Output(self.length(MOST_RANGE)?, self.take(1)?[0]),
            Kind::PacketRange => {
                let count = self.length(MOST_RUN)?;
                Argument::PacketRange((0..count).map(|_| self.four()).collect::<Result<_, _>>()?)
            }
            Kind::PacketOutput => Argument::PacketOutput(self.length(MOST_RUN)?, self.four()?),
            Kind::NumberList => {
                let count = self.length(MOST_NUMBERS)?;
                Argument::NumberList((0..count).map(|_| self.eight()).collect::<Result<_, _>>()?)
            }
            Kind::NumberOutput => Argument::NumberOutput(self.length(MOST_NUMBERS)?, self.eight()?),
        })
    }

    fn call(&mut self) -> Result<Call, Stop> {
        let byte = self.take(1)?[0];
        let signature = signature(byte).ok_or(Stop::Unknown)?;
        let arguments = signature.kinds.iter().map(|kind| self.argument(*kind)).collect::<Result<_, _>>()?;
        Ok(Call { byte, arguments })
    }
}

/// The lines of a whole stream.
pub fn lines_of(stream: &[u8]) -> Vec<String> {
    let mut reader = Reader { bytes: stream, at: 0 };
    let mut lines = Vec::new();
    while reader.at < stream.len() {
        match reader.call() {
            Ok(call) => lines.push(line_of(&call)),
            Err(stop) => {
                lines.push(stop_line(stop).to_string());
                break;
            }
        }
    }
    lines
}

fn stop_line(stop: Stop) -> &'static str {
    match stop {
        Stop::Cut => "cut",
        Stop::TooLong => "too long",
        Stop::Unknown => "unknown",
    }
}
