//! Request 2026-08: no well-formed run of the same residues is shorter than the one that packing gives. Every run of a
//! sequence is searched, built as packets and unpacked again; that the search leaves none out is tested too.

use second::every_run::{every_run, search, Found};
use second::generate::nucleotide_codes::mixed;
use second::generate::rng::Rng;
use second::generate::runs::{codes, numbers, run};
use second::packets::{five_bit_packet, is_well_formed, residues_of, two_bit_packet, Packet, NO_RESIDUE};
use second::residues::Alphabet;
use second::runs::{pack, unpack, RunSize};

/// How many sequences were searched, how many have several runs, and how many several that are the shortest.
#[derive(Debug, Default, PartialEq, Eq)]
struct Searched {
    sequences: usize,
    with_several: usize,
    with_several_shortest: usize,
}

impl Searched {
    /// Searches the runs of residues: each unpacks to them, and the shortest are as long as packing's own, which is one of
    /// them.
    fn search(&mut self, number: i128, codes: &[u8]) {
        let alphabet = Alphabet::of_number(number).unwrap();
        let runs = every_run(alphabet, codes);
        for run in &runs {
            assert_unpacks(number, run, codes);
        }
        let fewest = runs.iter().map(Vec::len).min().unwrap();
        assert_eq!(search(alphabet, codes), Found { runs: runs.len(), fewest }, "{codes:?}");
        let packed = packed(number, codes);
        assert_eq!(packed.len(), fewest, "packing does not give the shortest run of {codes:?}");
        assert!(runs.contains(&packed), "the run of packing was not found: {codes:?}");
        let shortest = runs.iter().filter(|run| run.len() == fewest).count();
        self.sequences += 1;
        self.with_several += (runs.len() > 1) as usize;
        self.with_several_shortest += (shortest > 1) as usize;
    }
}

/// A run is well formed, and has these residues and no more.
fn assert_unpacks(number: i128, run: &[u32], codes: &[u8]) {
    let mut output = vec![99; codes.len()];
    let size = RunSize { packets: run.len() as i128, residues: codes.len() as i128 };
    assert_eq!(unpack(number, run, &mut output), Ok(size), "{run:08X?} of {codes:?}");
    assert_eq!(output, codes);
}

/// Packs codes; gives as many packets as are reported, behind which nothing is written.
fn packed(number: i128, codes: &[u8]) -> Vec<u32> {
    let mut buffer = vec![0x1234_5678; codes.len() + 2];
    let size = pack(number, codes, 0, &mut buffer).unwrap();
    let behind = buffer.split_off(size.packets as usize);
    assert!(behind.iter().all(|packet| *packet == 0x1234_5678));
    buffer
}

/// How many residues each packet of a run holds.
fn shape(run: &[u32]) -> Vec<usize> {
    run.iter().map(|packet| Packet::of_number(*packet).residues().len()).collect()
}

/// The shapes of every run of a text.
fn shapes(number: i128, text: &str) -> Vec<Vec<usize>> {
    let alphabet = Alphabet::of_number(number).unwrap();
    let codes = alphabet.codes_of(text).unwrap();
    Searched::default().search(number, &codes);
    let mut shapes: Vec<Vec<usize>> = every_run(alphabet, &codes).iter().map(|run| shape(run)).collect();
    shapes.sort();
    shapes
}

/// A text of so many A's.
fn a(count: usize) -> String {
    "A".repeat(count)
}

#[test]
fn fifteen_bases_have_two_runs() {
    let runs = every_run(Alphabet::Nucleic, &[0; 15]);
    assert_eq!(runs, [vec![0x4000_0000, 0x4000_0000, 0xC000_7FFF], vec![0x8000_0000]]);
    assert_eq!(every_run(Alphabet::Amino, &[0; 15]), [[0x4000_0000, 0x4000_0000, 0xC000_7FFF]]);
    assert_eq!(every_run(Alphabet::Nucleic, &[]), [[0xFFFF_FFFF]]);
    assert_eq!(every_run(Alphabet::Amino, &[]), [[0xFFFF_FFFF]]);
}

#[test]
fn runs_by_hand() {
    for number in 1..=3 {
        assert_eq!(shapes(number, ""), [[0]]);
        assert_eq!(shapes(number, &a(6)), [[6]]);
        assert_eq!(shapes(number, &a(7)), [[6, 1]]);
        assert_eq!(shapes(number, &a(14)), [[6, 6, 2]]);
    }
    assert_eq!(shapes(3, &a(30)), [[6; 5]]);
    for number in 1..=2 {
        let shapes = |text: &str| shapes(number, text);
        assert_eq!(shapes(&a(16)), [vec![6, 6, 4], vec![15, 1]]);
        assert_eq!(shapes(&a(21)), [vec![6, 6, 6, 3], vec![6, 15], vec![15, 6]]);
        // An N keeps the fifteen bases from standing over it.
        assert_eq!(shapes(&(a(20) + "N")), [vec![6, 6, 6, 3], vec![15, 6]]);
        assert_eq!(shapes(&("N".to_string() + &a(20))), [vec![6, 6, 6, 3], vec![6, 15]]);
        assert_eq!(shapes(&(a(14) + "N")), [[6, 6, 3]]);
        // Two of three runs are the shortest.
        let behind = [vec![6, 6, 6, 4], vec![6, 15, 1], vec![15, 6, 1]];
        assert_eq!(shapes(&(a(21) + "N")), behind);
        // One run is by two packets shorter than any other.
        let thirty = [vec![6; 5], vec![6, 6, 15, 3], vec![6, 15, 6, 3], vec![15, 6, 6, 3], vec![15, 15]];
        assert_eq!(shapes(&a(30)), thirty);
    }
}

#[test]
fn of_runs_that_are_as_short_packing_gives_the_one_whose_2_bit_packets_come_first() {
    for number in 1..=2 {
        assert_eq!(shape(&packed(number, &[0; 21])), [15, 6]);
        assert_eq!(shape(&packed(number, &[3; 27])), [15, 6, 6]);
        assert_eq!(shape(&packed(number, &[1; 36])), [15, 15, 6]);
        assert_eq!(shape(&packed(number, &[&[2; 21][..], &[15]].concat())), [15, 6, 1]);
    }
}

/// All lists of up to so many packets that hold the residues in order, well formed or not.
fn lists(rest: &[u8], most: usize) -> Vec<Vec<Packet>> {
    let mut all = if rest.is_empty() { vec![vec![]] } else { vec![] };
    if most == 0 {
        return all;
    }
    for held in (0..=6).chain([15]).filter(|held| *held <= rest.len()) {
        let taken = &rest[..held];
        let packet = if held <= 6 { five_bit_packet(taken) } else { two_bit_packet(taken) };
        for behind in lists(&rest[held..], most - 1) {
            all.push([vec![packet.clone()], behind].concat());
        }
    }
    all
}

/// The search finds all that is well formed among the lists of up to five packets.
fn assert_none_left_out(alphabet: Alphabet, codes: &[u8]) {
    let mut expected = Vec::new();
    for mut list in lists(codes, 5) {
        if let Some(last) = list.last_mut() {
            last.ends_run = true;
        }
        let run = numbers(&list);
        if is_well_formed(alphabet, &run) && residues_of(&run) == codes {
            expected.push(run);
        }
    }
    let mut found = every_run(alphabet, codes);
    found.retain(|run| run.len() <= 5);
    expected.sort();
    found.sort();
    assert_eq!(found, expected, "{codes:?}");
}

#[test]
fn no_run_of_up_to_five_packets_is_left_out() {
    for (length, bits) in (0..=8).flat_map(|length| (0..1 << length).map(move |bits| (length, bits))) {
        assert_none_left_out(Alphabet::Nucleic, &two_codes(length, bits));
    }
    for length in 9..=30 {
        for place in 0..=length {
            let mut codes = vec![3; length + 1];
            codes[place] = 4;
            assert_none_left_out(Alphabet::Nucleic, &codes[..length]);
        }
        assert_none_left_out(Alphabet::Amino, &vec![3; length]);
    }
}

/// A well-formed run of up to six packets, not only such as packing makes; most of its codes are below 4.
fn run_by_chance(alphabet: Alphabet, rng: &mut Rng) -> Vec<u32> {
    let count = rng.between(1, 6);
    let mut packets = run(alphabet, count, rng);
    for packet in &mut packets {
        if rng.chance(80) {
            packet.fields.iter_mut().filter(|field| **field != NO_RESIDUE).for_each(|field| *field %= 4);
        }
    }
    numbers(&packets)
}

#[test]
fn runs_by_chance_are_found() {
    let mut rng = Rng::new(8);
    let mut longer = 0;
    for number in (1..=3).cycle().take(6000) {
        let alphabet = Alphabet::of_number(number).unwrap();
        let run = run_by_chance(alphabet, &mut rng);
        let codes = residues_of(&run);
        assert!(every_run(alphabet, &codes).contains(&run), "{run:08X?}");
        let packets = packed(number, &codes).len();
        assert!(packets <= run.len(), "{run:08X?} is shorter than packing's");
        longer += (packets < run.len()) as usize;
    }
    assert!(longer >= 500, "{longer} of the runs are longer than packing's");
}

/// So many A's and N's, by the bits of a number.
fn two_codes(length: usize, bits: usize) -> Vec<u8> {
    (0..length).map(|k| if bits >> k & 1 == 1 { 15 } else { 0 }).collect()
}

#[test]
fn every_sequence_of_up_to_16_as_and_ns() {
    for number in 1..=2 {
        let mut searched = Searched::default();
        for (length, bits) in (0..=16).flat_map(|length| (0..1 << length).map(move |bits| (length, bits))) {
            searched.search(number, &two_codes(length, bits));
        }
        // Several runs have 15 A's, 16 A's, and 15 A's and an N.
        let expected = Searched { sequences: 131_071, with_several: 3, with_several_shortest: 0 };
        assert_eq!(searched, expected);
    }
}

#[test]
fn every_sequence_of_up_to_60_with_at_most_two_ns() {
    let mut searched = Searched::default();
    for length in 0..=60 {
        searched.search(2, &vec![0; length]);
        // Where the second stands behind the last residue, there is one.
        for (first, second) in (0..length).flat_map(|first| (first + 1..=length).map(move |k| (first, k))) {
            let mut codes = vec![0; length + 1];
            (codes[first], codes[second]) = (15, 15);
            searched.search(2, &codes[..length]);
        }
    }
    let expected = Searched { sequences: 37_881, with_several: 32_905, with_several_shortest: 19_527 };
    assert_eq!(searched, expected);
}

#[test]
fn nucleic_sequences_by_chance() {
    let mut rng = Rng::new(2026);
    let mut searched = Searched::default();
    for number in [1, 2].into_iter().cycle().take(6000) {
        let (length, percent) = (rng.between(0, 60), *rng.pick(&[2, 10, 25, 40]));
        searched.search(number, &mixed(length, percent, &mut rng));
    }
    assert!(searched.with_several >= 3000 && searched.with_several_shortest >= 1500, "{searched:?}");
}

#[test]
fn amino_sequences_have_one_run() {
    let mut rng = Rng::new(3);
    let mut searched = Searched::default();
    for _ in 0..3000 {
        let length = rng.between(0, 60);
        searched.search(3, &codes(Alphabet::Amino, length, &mut rng));
    }
    assert_eq!(searched, Searched { sequences: 3000, with_several: 0, with_several_shortest: 0 });
}
