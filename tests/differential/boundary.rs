//! The library's two functions for C, as safe ones.

mod c {
    extern "C" {
        pub fn calmuredda_decode(
            bytes: *const u8,
            bytes_len: usize,
            va: u64,
            big: u8,
            wide: u8,
            record: *mut u8,
            record_len: usize,
        ) -> u8;
        pub fn calmuredda_encode(record: *const u8, record_len: usize, va: u64, wide: u8) -> u64;
    }
}

/// The number that `calmuredda_decode` answers; the record is written to the slice.
pub fn decode(bytes: &[u8], va: u64, big: u8, wide: u8, record: &mut [u8]) -> u8 {
    // Sound: each pointer goes with the length of its slice, which outlives the call,
    // and the library keeps neither. A slice that is lent for writing overlaps no other.
    unsafe {
        let (from, to) = (bytes.as_ptr(), record.as_mut_ptr());
        c::calmuredda_decode(from, bytes.len(), va, big, wide, to, record.len())
    }
}

/// What `calmuredda_encode` answers: the refusal number times 2^32, and the word.
pub fn encode(record: &[u8], va: u64, wide: u8) -> u64 {
    // Sound: the pointer goes with the length of the slice, which outlives the call;
    // the library reads it only and does not keep it.
    unsafe { c::calmuredda_encode(record.as_ptr(), record.len(), va, wide) }
}
