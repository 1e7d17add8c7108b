//! The code tables, made from letters, against the number lists that document 01 prints.

use second::residues::*;

#[test]
fn ambiguity_values_become_document_01s_codes() {
    let codes: Vec<u8> = (0..16).map(ambiguity_code).collect();
    assert_eq!(codes, [4, 0, 1, 7, 2, 5, 9, 13, 3, 10, 6, 11, 8, 14, 12, 15]);
}

#[test]
fn protein_values_become_document_01s_codes() {
    let codes: Vec<u8> = (0..28).map(|value| protein_code(value).unwrap()).collect();
    let listed = [
        20, 0, 21, 1, 2, 3, 4, 5, 6, 7, 8, 9, 10, 11, 12, 13, 14, 15, 16, 17, 18, 26, 19, 23, 25, 27, 24, 22,
    ];
    assert_eq!(codes, listed);
    assert!((28..=255).all(|value| protein_code(value).is_none()));
}

#[test]
fn two_bit_bases_are_0_to_3() {
    let codes: Vec<u8> = (0..4).map(two_bit_code).collect();
    assert_eq!(codes, [0, 1, 2, 3]);
}

#[test]
fn an_ambiguity_value_is_the_set_of_its_bases() {
    // 001 writes M (A|C), and so on; A, C, G, T are 1, 2, 4, 8.
    let sets =
        ["", "A", "C", "AC", "G", "AG", "CG", "ACG", "T", "AT", "CT", "ACT", "GT", "AGT", "CGT", "ACGT"];
    for (value, set) in sets.iter().enumerate() {
        let sum: usize = set.chars().map(|base| 1 << TWO_BIT_LETTERS.find(base).unwrap()).sum();
        assert_eq!(sum, value, "{set}");
    }
}

#[test]
fn valid_codes_end_at_15_and_27() {
    assert!(Alphabet::Nucleic.is_code(15) && !Alphabet::Nucleic.is_code(16));
    assert!(Alphabet::Amino.is_code(27) && !Alphabet::Amino.is_code(28));
}
