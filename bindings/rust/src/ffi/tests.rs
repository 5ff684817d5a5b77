//! Tests of calls, and of refusals, to which no other module comes.

use super::*;
use crate::merklehash::compute_data_hash;

#[test]
fn the_library_has_the_version_of_the_crate() {
    let number = env!("CARGO_PKG_VERSION").trim_end_matches("-dev");
    let (mut room, mut length) = ([0; 32], 0);
    // SAFETY: a room of the length that goes with it, and a length to write to.
    let status = unsafe { yurewha_version(room.as_mut_ptr().cast(), room.len(), &mut length) };
    assert_eq!((status, &room[..length]), (YUREWHA_DONE, number.as_bytes()));
}

#[test]
fn many_chunks_are_hashed_in_one_call() {
    let mut hashes = [yurewha_hash::default(); 2];
    let mut hashed = |offsets: &[usize]| {
        let (count, out) = (hashes.len(), hashes.as_mut_ptr());
        // SAFETY: bytes, offsets and hashes of their numbers.
        let status = unsafe { yurewha_data_hashes(b"abcd".as_ptr(), 4, offsets.as_ptr(), offsets.len(), out, count) };
        (status, hashes.map(|hash| hash.words))
    };
    let expected = [&b"abc"[..], b"d"].map(|chunk| *compute_data_hash(chunk));
    assert_eq!(hashed(&[0, 3, 4]), (YUREWHA_DONE, expected));
    for offsets in [&[][..], &[0, 3], &[0, 3, 2], &[0, 3, 5], &[0, 1, 2, 3]] {
        assert_eq!(hashed(offsets), (YUREWHA_ARGUMENTS, expected));
    }
}
