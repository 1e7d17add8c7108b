//! Header records: document 01's rows, real records, and the refusals.

mod common;

use common::bytes;
use second::answers::*;
use second::elements::{read_record, Element};
use second::identifiers::{Identifier, ObjectId, PdbSeqId, TextseqId};
use second::index::Part;
use second::records::{identifier, label, label_bytes, walker_step, Label};

fn read(hex: &str) -> Result<Element, u32> {
    let bytes = bytes(hex);
    read_record(&bytes, 0, bytes.len())
}

/// This many lists, one inside the other, and something in the innermost.
fn nested(lists: usize, inside: &str) -> String {
    format!("{}{inside}{}", "3080".repeat(lists), "0000".repeat(lists))
}

#[test]
fn integers_of_the_table_for_the_desk() {
    assert_eq!(read("02 01 FF"), Ok(Element::Integer(-1)));
    assert_eq!(read("02 02 00 80"), Ok(Element::Integer(128)));
    assert_eq!(read("02 08 80 00 00 00 00 00 00 00"), Ok(Element::Integer(-(1 << 63))));
}

#[test]
fn padded_integers_are_refused() {
    for (hex, value) in [("02 02 00 80", 128), ("02 01 00", 0), ("02 02 FF 7F", -129)] {
        assert_eq!(read(hex), Ok(Element::Integer(value)), "{hex}");
    }
    for hex in ["02 02 00 05", "02 02 FF 80", "02 02 00 00", "02 03 00 00 80", "02 08 00 7F FFFFFFFFFFFF"] {
        assert_eq!(read(hex), Err(BAD_RECORD), "{hex}");
    }
    // Of two bytes exactly those are left that write a number which one byte cannot.
    for value in i16::MIN..=i16::MAX {
        let two = [&[0x02, 0x02], &value.to_be_bytes()[..]].concat();
        let wanted =
            if i8::try_from(value).is_ok() { Err(BAD_RECORD) } else { Ok(Element::Integer(value as i128)) };
        assert_eq!(read_record(&two, 0, 4), wanted, "{value}");
    }
}

#[test]
fn a_number_has_one_integer_of_those_that_write_it() {
    for length in 1..=8usize {
        let beyond = 1i128 << (8 * length - 1);
        for value in [0, 1, beyond - 1, -1, -beyond, beyond / 2, -beyond / 2 - 1] {
            let forms: Vec<Vec<u8>> = (1..=8usize)
                .filter(|bytes| (-(1i128 << (8 * bytes - 1))..1 << (8 * bytes - 1)).contains(&value))
                .map(|bytes| [&[0x02, bytes as u8], &value.to_be_bytes()[16 - bytes..]].concat())
                .collect();
            let read: Vec<_> = forms.iter().map(|form| read_record(form, 0, form.len())).collect();
            assert_eq!(read[0], Ok(Element::Integer(value)), "{value}");
            assert!(read[1..].iter().all(|answer| *answer == Err(BAD_RECORD)), "{value}");
        }
    }
}

#[test]
fn a_padded_integer_is_met_in_the_nesting_pass() {
    let deep = format!("{}02{}", "A580".repeat(15), "0000".repeat(15));
    assert_eq!(read(&format!("3080 02020005 {deep} 0000")), Err(BAD_RECORD));
    assert_eq!(read(&format!("3080 {deep} 02020005 0000")), Err(TOO_DEEP));
    assert_eq!(read(&nested(15, "02020005")), Err(BAD_RECORD));
    assert_eq!(read(&nested(16, "02020005")), Err(TOO_DEEP));
    // A length in the long form is no integer, and a byte in a text is none.
    assert_eq!(read("1A 84 00 00 00 02 00 05"), Ok(Element::Text(Part { start: 6, length: 2 })));
    assert_eq!(read("1A 04 02 02 00 05"), Ok(Element::Text(Part { start: 2, length: 4 })));
}

#[test]
fn depth_16_passes_and_17_is_21() {
    assert!(read(&nested(16, "")).is_ok());
    assert!(read(&nested(15, "020101")).is_ok());
    for begins in ["02", "1A", "30", "A0", "B3", "020101", "3080"] {
        assert_eq!(read(&nested(16, begins)), Err(TOO_DEEP), "{begins}");
        assert_eq!(read(&format!("{}{begins}", "A580".repeat(16))), Err(TOO_DEEP), "{begins}");
    }
    for wrong in ["01", "B4", "80", "0001"] {
        assert_eq!(read(&nested(16, wrong)), Err(BAD_RECORD), "{wrong}");
    }
    assert_eq!(read(&format!("{}{}", "A080".repeat(16), "0000".repeat(16))), Err(BAD_RECORD));
}

#[test]
fn elements_that_are_malformed() {
    for hex in [
        "",
        "00",
        "0000",
        "01",
        "02",
        "0200",
        "0209010203040506070809",
        "02810105",
        "0202FF",
        "020101 00",
        "1A",
        "1A80",
        "1A85",
        "1AFF",
        "1A01",
        "1A84FFFFFFFF",
        "1A8100 00",
        "30",
        "3000",
        "3080",
        "308000",
        "30800001",
        "3080020101",
        "A000",
        "A0800000",
        "A0800201010201010000",
        "A08002010100",
        "B48002010100 00",
        "9F80020101",
    ] {
        assert_eq!(read(hex), Err(BAD_RECORD), "{hex}");
    }
}

#[test]
fn texts_in_every_form_of_length() {
    for (hex, start) in [("1A02", 2), ("1A8102", 3), ("1A820002", 4), ("1A83000002", 5), ("1A8400000002", 6)]
    {
        assert_eq!(read(&format!("{hex}4142")), Ok(Element::Text(Part { start, length: 2 })));
    }
}

#[test]
fn the_record_with_every_field() {
    let record = common::samples().record;
    let end = record.len() as i128;
    let title = |given| walker_step(&record, 0, end, given);
    assert_eq!(title(0).map(|part| part.length), Ok(16));
    assert_eq!(title(1).map(|part| part.length), Ok(0));
    assert_eq!(title(2), Err(NO_SUCH_NUMBER));
    let found = |number| identifier(&record, 0, end, number);
    assert_eq!(found(0), Ok(Identifier::Gi(77)));
    let [name, accession] = [Part { start: 45, length: 3 }, Part { start: 54, length: 6 }].map(Some);
    let genbank = TextseqId { name, accession, release: None, version: Some(1) };
    assert_eq!(found(1), Ok(Identifier::Genbank(genbank)));
    let mol = Part { start: 148, length: 4 };
    assert_eq!(found(2), Ok(Identifier::Pdb(PdbSeqId { mol, chain: 65, rel: None })));
    assert_eq!(found(3), Ok(Identifier::Local(ObjectId::Number(42))));
    assert_eq!(found(4), Err(NO_SUCH_NUMBER));
}

#[test]
fn every_real_record_is_good_but_three() {
    // makeblastdb writes a pdb field A3, which 001 does not list.
    let bad = [("mb_protidt", 2), ("mb_protidt", 3), ("mb_nucidt", 18)];
    for volume in common::samples().volumes.into_iter().filter(|volume| !volume.lines.is_empty()) {
        for number in 0..volume.lines.len() {
            let answer = label(&volume.index, &volume.header, number as i128);
            if bad.contains(&(&volume.name[..], number)) {
                assert_eq!(answer, Err(BAD_RECORD), "{} {number}", volume.name);
                continue;
            }
            let in_index = matches!(answer.unwrap(), Label::InIndex(_));
            assert_eq!(in_index, volume.name == "fd_titles" && number == 0, "{} {number}", volume.name);
        }
    }
}

#[test]
fn the_label_without_a_title_is_the_volume_title() {
    let volume = common::samples().volumes.into_iter().find(|volume| volume.name == "fd_titles").unwrap();
    let answer = label(&volume.index, &volume.header, 0);
    let length = volume.index[11] as usize;
    assert_eq!(label_bytes(&volume.index, &volume.header, answer), &volume.index[12..12 + length]);
    let refused = label(&volume.index, &volume.header, 99);
    assert_eq!(refused, Err(NO_SUCH_NUMBER));
    assert!(label_bytes(&volume.index, &volume.header, refused).is_empty());
}

/// A walker step over a record given in hex.
fn step(hex: &str, given: i128) -> Result<Part, u32> {
    let bytes = bytes(hex);
    walker_step(&bytes, 0, bytes.len() as i128, given)
}

#[test]
fn shapes_that_are_good_or_bad() {
    let line = |fields: &str| step(&format!("30803080{fields}00000000"), 0);
    for good in [
        "",
        "A180308000000000",
        "A18030 80 A08 0A08 002012A 0000 0000 0000 0000",
        "A28002010 50000",
        "A380308000000000",
        "A3803080 020105 00000000 A5803080 0201FF 00000000",
    ] {
        assert_eq!(line(good), Err(NO_SUCH_NUMBER), "{good}");
    }
    assert_eq!(line("A0801A01410000"), Ok(Part { start: 8, length: 1 }));
    for bad in [
        "020101",
        "A0800201010000",
        "A0801A00 0000 A0801A00 0000",
        "A2800201050000 A0801A00 0000",
        "A6800201050000",
        "A680308000000000",
        "A1801A000000",
        "A1803080 020101 00000000",
        "A1803080 A080 020105 0000 00000000",
        "A1803080 A080 A280 020105 0000 0000 00000000",
        "A1803080 A080 A080 1A00 0000 0000 00000000",
        "A1803080 A080 A180 020105 0000 0000 00000000",
        "A1803080 AB80 1A00 0000 00000000",
        "A2801A000000",
        "A3800201050000",
        "A3803080 1A00 00000000",
    ] {
        assert_eq!(line(bad), Err(BAD_RECORD), "{bad}");
    }
    assert_eq!(step("30800000", 0), Err(NO_SUCH_NUMBER));
    assert_eq!(step("020101", 0), Err(BAD_RECORD));
    assert_eq!(step("3080 020101 0000", 0), Err(BAD_RECORD));
}

#[test]
fn places_of_a_record_in_the_file() {
    let file = bytes("30800000");
    assert_eq!(walker_step(&file, 0, 5, 0), Err(ENDS_TOO_EARLY));
    assert_eq!(walker_step(&file, 3, 2, 0), Err(ENDS_TOO_EARLY));
    assert_eq!(walker_step(&file, 4, 4, 0), Err(BAD_RECORD));
    assert_eq!(walker_step(&file, 0, 4, 0), Err(NO_SUCH_NUMBER));
    assert_eq!(identifier(&file, 5, 5, 0), Err(ENDS_TOO_EARLY));
}

#[test]
fn number_22_comes_first_and_at_its_limit() {
    let large = vec![0u8; 2_147_483_648];
    assert_eq!(walker_step(&large, 9, 5, 0), Err(TOO_LARGE));
    assert_eq!(walker_step(&large[1..], 9, 5, 0), Err(ENDS_TOO_EARLY));
    assert_eq!(identifier(&large, 9, 5, 0), Err(TOO_LARGE));
    assert_eq!(identifier(&large[1..], 9, 5, 0), Err(ENDS_TOO_EARLY));
    assert_eq!(label(&large, &[], 0), Err(TOO_LARGE));
    assert_eq!(label(&[], &large, 0), Err(TOO_LARGE));
    assert_eq!(label(&large[1..], &large[1..], 0), Err(WRONG_VERSION));
}
