//! Integers out of bytes and back, in both byte orders, with and without a sign.

/// Whether the least significant byte of an integer stands first, or the most significant.
#[derive(Clone, Copy, Debug, PartialEq, Eq)]
pub enum ByteOrder {
    Little,
    Big,
}

impl ByteOrder {
    pub const BOTH: [ByteOrder; 2] = [ByteOrder::Little, ByteOrder::Big];

    /// "a number for the order (0 little, any other big)" (CASES.md, call 6).
    pub fn of_number(number: i128) -> ByteOrder {
        if number == 0 {
            ByteOrder::Little
        } else {
            ByteOrder::Big
        }
    }

    /// "the order: 0 little, 1 big" (CASES.md, call 5).
    pub fn number(self) -> i128 {
        match self {
            ByteOrder::Little => 0,
            ByteOrder::Big => 1,
        }
    }

    pub fn other(self) -> ByteOrder {
        match self {
            ByteOrder::Little => ByteOrder::Big,
            ByteOrder::Big => ByteOrder::Little,
        }
    }

    /// The number that bytes give.
    pub fn unsigned(self, bytes: &[u8]) -> i128 {
        match self {
            ByteOrder::Little => little_unsigned(bytes),
            ByteOrder::Big => big_unsigned(bytes),
        }
    }

    /// Two's complement.
    pub fn signed(self, bytes: &[u8]) -> i128 {
        match self {
            ByteOrder::Little => little_signed(bytes),
            ByteOrder::Big => big_signed(bytes),
        }
    }

    /// A number as bytes, in two's complement where it is negative.
    pub fn bytes(self, value: i128, width: usize) -> Vec<u8> {
        match self {
            ByteOrder::Little => little_bytes(value, width),
            ByteOrder::Big => big_bytes(value, width),
        }
    }
}

/// The number that bytes give, most significant first.
pub fn big_unsigned(bytes: &[u8]) -> i128 {
    let mut value: i128 = 0;
    for byte in bytes {
        value = value * 256 + *byte as i128;
    }
    value
}

/// The number that bytes give, least significant first.
pub fn little_unsigned(bytes: &[u8]) -> i128 {
    let turned: Vec<u8> = bytes.iter().rev().copied().collect();
    big_unsigned(&turned)
}

/// Two's complement, most significant first.
pub fn big_signed(bytes: &[u8]) -> i128 {
    let value = big_unsigned(bytes);
    let span = 1i128 << (8 * bytes.len());
    if value >= span / 2 {
        value - span
    } else {
        value
    }
}

/// Two's complement, least significant first.
pub fn little_signed(bytes: &[u8]) -> i128 {
    let turned: Vec<u8> = bytes.iter().rev().copied().collect();
    big_signed(&turned)
}

/// A number as bytes, least significant first, in two's complement where it is negative.
pub fn little_bytes(value: i128, width: usize) -> Vec<u8> {
    (0..width).map(|k| ((value >> (8 * k)) & 255) as u8).collect()
}

/// A number as bytes, most significant first.
pub fn big_bytes(value: i128, width: usize) -> Vec<u8> {
    let mut bytes = little_bytes(value, width);
    bytes.reverse();
    bytes
}
