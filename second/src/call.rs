//! One call of the protocol in CASES.md: its byte, its arguments, and what each argument is.

/// The kinds of arguments, as CASES.md names them.
#[derive(Clone, Copy, Debug, PartialEq, Eq)]
pub enum Kind {
    Number,
    Range,
    Output,
    PacketRange,
    PacketOutput,
    NumberList,
    NumberOutput,
}

/// An argument: an output is its length and the byte (or packet, or number) it is filled with.
#[derive(Clone, Debug, PartialEq, Eq)]
pub enum Argument {
    Number(u64),
    Range(Vec<u8>),
    Output(usize, u8),
    PacketRange(Vec<u32>),
    PacketOutput(usize, u32),
    NumberList(Vec<u64>),
    NumberOutput(usize, u64),
}

/// A call byte with its arguments in order.
#[derive(Clone, Debug, PartialEq, Eq)]
pub struct Call {
    pub byte: u8,
    pub arguments: Vec<Argument>,
}

/// The longest range or output, in bytes, the longest packet range or output, in packets, and the longest number list or
/// output, in numbers.
pub const MOST_RANGE: usize = 16_384;
pub const MOST_RUN: usize = 4_096;
pub const MOST_NUMBERS: usize = 2_048;

pub const VOLUME_CHECK: u8 = 1;
pub const DECODE: u8 = 2;
pub const PACK: u8 = 3;
pub const UNPACK: u8 = 4;
pub const SET_CHECK: u8 = 5;
pub const LOOKUP: u8 = 6;
pub const IDENTIFIER: u8 = 7;
pub const WALKER_STEP: u8 = 8;
pub const LABEL: u8 = 9;
pub const CONSOLE_VOLUME_CHECK: u8 = 10;
pub const CONSOLE_PACK: u8 = 11;
pub const CONSOLE_UNPACK: u8 = 12;
pub const PAGE: u8 = 13;
pub const WRITE_NUCLEOTIDES: u8 = 14;
pub const BASES_OF_CODE: u8 = 15;
// 16 to 22 are kept for later requests.
pub const KIND_NAME: u8 = 23;

/// How a call's 22 is shown to come: ranges in the protocol are too small for it.
#[derive(Clone, Copy, Debug, PartialEq, Eq)]
pub enum Large {
    CFunction,
    Timing,
    Contract,
    NoInput,
}

impl Large {
    pub fn words(self) -> &'static str {
        match self {
            Large::CFunction => "in face, through the C function",
            Large::Timing => "in face, through the timing library",
            Large::Contract => "by contract only",
            Large::NoInput => "cannot be: no input range",
        }
    }
}

/// The calls by byte: name, arguments in order, the numbers that document 01 or a request lets the call give, and how 22
/// is shown.
pub struct Signature {
    pub byte: u8,
    pub name: &'static str,
    pub kinds: &'static [Kind],
    pub numbers: &'static [u32],
    pub large: Large,
}

use Kind::{Number, NumberList, NumberOutput, Output, PacketOutput, PacketRange, Range};

pub const SIGNATURES: [Signature; 16] = [
    Signature {
        byte: VOLUME_CHECK,
        name: "volume check",
        kinds: &[Range, Range, Range],
        numbers: &[0, 1, 2, 3, 4, 5, 6, 7, 8, 9, 22],
        large: Large::Contract,
    },
    Signature {
        byte: DECODE,
        name: "decode",
        kinds: &[Range, Range, Number, Output],
        numbers: &[0, 1, 2, 3, 4, 5, 6, 7, 8, 10, 11, 12, 13, 22],
        large: Large::Timing,
    },
    Signature {
        byte: PACK,
        name: "pack",
        kinds: &[Number, Range, Number, PacketOutput],
        numbers: &[0, 3, 13, 18, 22],
        large: Large::Contract,
    },
    Signature {
        byte: UNPACK,
        name: "unpack",
        kinds: &[Number, PacketRange, Output],
        numbers: &[0, 3, 13, 17, 22],
        large: Large::Contract,
    },
    Signature {
        byte: SET_CHECK,
        name: "set check",
        kinds: &[Range, Range, Range],
        numbers: &[0, 1, 3, 4, 6, 7, 9, 14, 15, 17, 19, 22],
        large: Large::Timing,
    },
    Signature {
        byte: LOOKUP,
        name: "lookup",
        kinds: &[
            Number, Number, Number, Number, Number, Number, Number, Number, Number, Number, Number, Range,
            Number,
        ],
        numbers: &[0, 1, 4, 6, 7, 10, 22],
        large: Large::Contract,
    },
    Signature {
        byte: IDENTIFIER,
        name: "identifier",
        kinds: &[Range, Number, Number, Number],
        numbers: &[0, 1, 10, 20, 21, 22],
        large: Large::Contract,
    },
    Signature {
        byte: WALKER_STEP,
        name: "walker step",
        kinds: &[Range, Number, Number, Number],
        numbers: &[0, 1, 10, 20, 21, 22],
        large: Large::Contract,
    },
    Signature {
        byte: LABEL,
        name: "label",
        kinds: &[Range, Range, Number],
        numbers: &[0, 1, 2, 3, 4, 5, 6, 7, 10, 20, 21, 22],
        large: Large::Contract,
    },
    Signature {
        byte: CONSOLE_VOLUME_CHECK,
        name: "console volume check",
        kinds: &[Range, Range, Range, Output],
        numbers: &[0, 1, 2, 3, 4, 5, 6, 7, 8, 9, 13, 22],
        large: Large::CFunction,
    },
    Signature {
        byte: CONSOLE_PACK,
        name: "console pack",
        kinds: &[Number, Range, Output, Number, Output],
        numbers: &[0, 3, 13, 18, 22],
        large: Large::CFunction,
    },
    Signature {
        byte: CONSOLE_UNPACK,
        name: "console unpack",
        kinds: &[Number, Range, Output, Output],
        numbers: &[0, 1, 3, 13, 17, 22],
        large: Large::CFunction,
    },
    Signature {
        byte: PAGE,
        name: "page",
        kinds: &[Range, Range, NumberList, Output, NumberOutput],
        numbers: &[0, 1, 2, 3, 4, 5, 6, 7, 8, 10, 11, 12, 13, 22],
        large: Large::Timing,
    },
    Signature {
        byte: WRITE_NUCLEOTIDES,
        name: "write nucleotides",
        kinds: &[Range, Output],
        numbers: &[0, 13, 18, 22],
        large: Large::Timing,
    },
    Signature {
        byte: BASES_OF_CODE,
        name: "bases of a code",
        kinds: &[Number],
        numbers: &[0, 18],
        large: Large::NoInput,
    },
    Signature {
        byte: KIND_NAME,
        name: "kind name",
        kinds: &[Number, Output],
        numbers: &[0, 4, 13],
        large: Large::NoInput,
    },
];

/// The signature of a call byte.
pub fn signature(byte: u8) -> Option<&'static Signature> {
    SIGNATURES.iter().find(|signature| signature.byte == byte)
}

impl Call {
    pub fn new(byte: u8, arguments: Vec<Argument>) -> Call {
        Call { byte, arguments }
    }

    pub fn number(&self, k: usize) -> i128 {
        match &self.arguments[k] {
            Argument::Number(value) => *value as i128,
            other => panic!("argument {k} is {other:?}, not a number"),
        }
    }

    pub fn range(&self, k: usize) -> &[u8] {
        match &self.arguments[k] {
            Argument::Range(bytes) => bytes,
            other => panic!("argument {k} is {other:?}, not a range"),
        }
    }

    /// A lent output, filled as the argument says.
    pub fn output(&self, k: usize) -> Vec<u8> {
        match &self.arguments[k] {
            Argument::Output(length, fill) => vec![*fill; *length],
            other => panic!("argument {k} is {other:?}, not an output"),
        }
    }

    pub fn packets(&self, k: usize) -> &[u32] {
        match &self.arguments[k] {
            Argument::PacketRange(packets) => packets,
            other => panic!("argument {k} is {other:?}, not a packet range"),
        }
    }

    pub fn packet_output(&self, k: usize) -> Vec<u32> {
        match &self.arguments[k] {
            Argument::PacketOutput(count, fill) => vec![*fill; *count],
            other => panic!("argument {k} is {other:?}, not a packet output"),
        }
    }

    pub fn numbers(&self, k: usize) -> &[u64] {
        match &self.arguments[k] {
            Argument::NumberList(numbers) => numbers,
            other => panic!("argument {k} is {other:?}, not a number list"),
        }
    }

    pub fn number_output(&self, k: usize) -> Vec<u64> {
        match &self.arguments[k] {
            Argument::NumberOutput(count, fill) => vec![*fill; *count],
            other => panic!("argument {k} is {other:?}, not a number output"),
        }
    }

    /// Whether the protocol takes every argument.
    pub fn fits_protocol(&self) -> bool {
        self.arguments.iter().all(|argument| match argument {
            Argument::Number(_) => true,
            Argument::Range(bytes) => bytes.len() <= MOST_RANGE,
            Argument::Output(length, _) => *length <= MOST_RANGE,
            Argument::PacketRange(packets) => packets.len() <= MOST_RUN,
            Argument::PacketOutput(count, _) => *count <= MOST_RUN,
            Argument::NumberList(numbers) => numbers.len() <= MOST_NUMBERS,
            Argument::NumberOutput(count, _) => *count <= MOST_NUMBERS,
        })
    }
}
