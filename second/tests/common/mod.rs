//! What the tests share: the samples folder beside this program, and hex.

use second::generate::samples::{load, Samples};
use std::path::Path;

pub fn samples() -> Samples {
    load(&Path::new(env!("CARGO_MANIFEST_DIR")).join("../samples")).expect("the samples are there")
}

#[allow(dead_code)]
pub fn bytes(hex: &str) -> Vec<u8> {
    let digits: Vec<u8> =
        hex.chars().filter(|c| !c.is_whitespace()).map(|c| c.to_digit(16).unwrap() as u8).collect();
    digits.chunks(2).map(|two| two[0] * 16 + two[1]).collect()
}
