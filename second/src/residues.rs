//! Alphabets and code tables. Every table is made from letters: a value has a letter in source 001, and the
//! letter has a code in document 01.

use crate::answers::{ask, Answer, WRONG_TYPE};

/// Document 01's Easel codes: the code of a letter is its place here.
pub const NUCLEIC_LETTERS: &str = "ACGT-RYMKSWHBVDN";
pub const AMINO_LETTERS: &str = "ACDEFGHIKLMNPQRSTVWY-BJZOUX*";

/// Source 001's values: the letter of a value stands at that place. Value 3 of a protein is C: 001 prints a V
/// there by mistake, and V again at 19; document 01 and source 000 have C.
pub const TWO_BIT_LETTERS: &str = "ACGT";
pub const AMBIGUITY_LETTERS: &str = "-ACMGRSVTWYHKDBN";
pub const PROTEIN_LETTERS: &str = "-ABCDEFGHIKLMNPQRSTVWXYZU*OJ";

/// What an alphabet number means for codes and packets.
#[derive(Clone, Copy, Debug, PartialEq, Eq)]
pub enum Alphabet {
    Nucleic,
    Amino,
}

impl Alphabet {
    /// 1 and 2 (RNA and DNA) are nucleic, 3 is amino; any other number is refused with 3.
    pub fn of_number(number: i128) -> Answer<Alphabet> {
        ask((1..=3).contains(&number), WRONG_TYPE)?;
        if number == 3 {
            Ok(Alphabet::Amino)
        } else {
            Ok(Alphabet::Nucleic)
        }
    }

    pub fn letters(self) -> &'static str {
        match self {
            Alphabet::Nucleic => NUCLEIC_LETTERS,
            Alphabet::Amino => AMINO_LETTERS,
        }
    }

    /// "Other codes aren't valid."
    pub fn is_code(self, code: u8) -> bool {
        (code as usize) < self.letters().len()
    }

    /// The code of a letter, where the alphabet has it.
    pub fn code_of(self, letter: char) -> Option<u8> {
        self.letters().chars().position(|l| l == letter).map(|k| k as u8)
    }

    /// The letters of a list of valid codes.
    pub fn text_of(self, codes: &[u8]) -> String {
        codes.iter().map(|code| letter_at(self.letters(), *code)).collect()
    }

    /// The codes of a text in this alphabet's letters.
    pub fn codes_of(self, text: &str) -> Option<Vec<u8>> {
        text.chars().map(|letter| self.code_of(letter)).collect()
    }
}

fn letter_at(letters: &str, value: u8) -> char {
    letters.as_bytes()[value as usize] as char
}

/// The code of a two-bit base.
pub fn two_bit_code(value: u8) -> u8 {
    Alphabet::Nucleic.code_of(letter_at(TWO_BIT_LETTERS, value)).expect("a base is nucleic")
}

/// The code of a four-bit ambiguity value.
pub fn ambiguity_code(value: u8) -> u8 {
    Alphabet::Nucleic.code_of(letter_at(AMBIGUITY_LETTERS, value)).expect("an ambiguity letter is nucleic")
}

/// The ambiguity value of a valid nucleic code.
pub fn ambiguity_value(code: u8) -> u8 {
    let letter = letter_at(NUCLEIC_LETTERS, code);
    AMBIGUITY_LETTERS.find(letter).expect("a nucleic letter is an ambiguity letter") as u8
}

/// The code of a protein byte, where it is one of 0 to 27.
pub fn protein_code(value: u8) -> Option<u8> {
    if (value as usize) < PROTEIN_LETTERS.len() {
        Alphabet::Amino.code_of(letter_at(PROTEIN_LETTERS, value))
    } else {
        None
    }
}
