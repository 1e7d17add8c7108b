//! Decoding beyond the protocol: DNA sequences of 16,384 to more than a million residues, with guards around every range.

use crate::lent::Lent;
use crate::timing::time_decode;
use second::call::{Call, DECODE};
use second::generate::dna::{ambiguity_range, two_bit};
use second::generate::rng::Rng;
use second::generate::volumes::{Plan, Stored};
use second::generate::Case;
use second::outcome::Outcome;
use second::sequence::decode;

/// Lengths around the powers of two, with 0 to 3 residues in the last byte; each into room for it, and into one byte less.
pub fn long(outcome: &mut Outcome, seed: u64) {
    let mut rng = Rng::new(seed);
    for power in 12..=18 {
        for whole in (1 << power) - 9..=(1 << power) + 9 {
            let plan = chromosome(whole, &mut rng);
            let length = plan.lengths[1];
            for (room, aim) in [(length, 0), (length + 1 + rng.below(40), 0), (length - 1, 13)] {
                one(outcome, &plan, room, aim, rng.below(8));
            }
        }
    }
}

/// A volume whose second sequence has so many whole bytes. They count on from a value, so that every byte stands among them,
/// or are drawn; it begins at any place, and may have corrections.
fn chromosome(whole: usize, rng: &mut Rng) -> Plan {
    let before = rng.below(200);
    let first = Stored { residues: before, bytes: two_bit(before, rng), range: vec![] };
    let residues = 4 * whole + rng.below(4);
    let mut bytes = two_bit(residues, rng);
    if rng.chance(50) {
        let from = rng.below(256);
        for (k, byte) in bytes[..whole].iter_mut().enumerate() {
            *byte = (from + k) as u8;
        }
    }
    let second = Stored { residues, bytes, range: ambiguity_range(residues, rng) };
    let mut plan = Plan::new(0, &[first, second], &[vec![], vec![]], rng);
    plan.number = 1;
    plan
}

/// Decodes it into so much room, and looks at every byte of that and around it.
fn one(outcome: &mut Outcome, plan: &Plan, room: usize, aim: u32, shift: usize) {
    let mut output = vec![0x5A; room];
    let files = [plan.index(), plan.sequence.clone()].map(|file| Lent::new(&file, shift));
    let mut lent = Lent::new(&output, shift + 3);
    let found = time_decode(files[0].inside(), files[1].inside(), plan.number, lent.inside_mut());
    let expected =
        decode(files[0].inside(), files[1].inside(), plan.number as i128, &mut output).err().unwrap_or(0);
    let mut fields = vec![found.to_string()];
    let differs = output.iter().zip(lent.inside()).position(|(ours, theirs)| ours != theirs);
    if let Some(place) = differs {
        fields.push(format!("and byte {place} is another"));
    }
    if !lent.is_guarded() || !files.iter().all(|file| file.is_guarded() && file.is_as_lent()) {
        fields.push("and bytes outside the output were changed".to_string());
    }
    let note = format!("{} residues in {room} bytes", plan.lengths[1]);
    let case = Case::aimed(Call::new(DECODE, vec![]), aim, note);
    outcome.count(&case, &expected.to_string(), fields.join(" "));
}
