//! The three functions of the static library, as its C header declares them.

#[link(name = "gullcordage", kind = "static")]
extern "C" {
    fn gull_pack(
        alphabet: u32,
        codes: *const u8,
        codes_len: usize,
        packets: *mut u8,
        packets_len: usize,
        place: u64,
        results: *mut u8,
        results_len: usize,
    ) -> u32;

    fn gull_unpack(
        alphabet: u32,
        packets: *const u8,
        packets_len: usize,
        codes: *mut u8,
        codes_len: usize,
        results: *mut u8,
        results_len: usize,
    ) -> u32;

    fn gull_check_volume(
        index: *const u8,
        index_len: usize,
        sequence: *const u8,
        sequence_len: usize,
        header: *const u8,
        header_len: usize,
        results: *mut u8,
        results_len: usize,
    ) -> u32;
}

/// Packing. Every range is lent for the call alone, and none shares a byte with another.
pub fn pack(alphabet: u32, codes: &[u8], packets: &mut [u8], place: u64, results: &mut [u8]) -> u32 {
    let (to, to_len) = (packets.as_mut_ptr(), packets.len());
    unsafe {
        gull_pack(
            alphabet,
            codes.as_ptr(),
            codes.len(),
            to,
            to_len,
            place,
            results.as_mut_ptr(),
            results.len(),
        )
    }
}

/// Unpacking, with the same promises about its ranges.
pub fn unpack(alphabet: u32, packets: &[u8], codes: &mut [u8], results: &mut [u8]) -> u32 {
    let (to, to_len) = (codes.as_mut_ptr(), codes.len());
    unsafe {
        gull_unpack(
            alphabet,
            packets.as_ptr(),
            packets.len(),
            to,
            to_len,
            results.as_mut_ptr(),
            results.len(),
        )
    }
}

/// The volume check, with the same promises about its ranges.
pub fn check_volume(index: &[u8], sequence: &[u8], header: &[u8], results: &mut [u8]) -> u32 {
    unsafe {
        gull_check_volume(
            index.as_ptr(),
            index.len(),
            sequence.as_ptr(),
            sequence.len(),
            header.as_ptr(),
            header.len(),
            results.as_mut_ptr(),
            results.len(),
        )
    }
}
