//! How many packets a run takes, in the words of request 2026-08.

/// "Protein takes the larger of 1 and L/6 rounded up. Nucleic takes at most that."
pub fn most_packets(residues: usize) -> usize {
    residues.div_ceil(6).max(1)
}

/// "Nucleic codes all below 4, L above 0, take exactly L/15 rounded down plus (L mod 15)/6 rounded up"; none take one
/// packet, as every run has one.
pub fn packets_of_bases(bases: usize) -> usize {
    if bases == 0 {
        return 1;
    }
    bases / 15 + (bases % 15).div_ceil(6)
}
