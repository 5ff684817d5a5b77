//! Roots and file hashes of lists.

use crate::definitions;
use crate::draws::{hash, numbered, reference, with_cuts, Draws};
use std::panic::catch_unwind;
use yurewha::error::CoreError;
use yurewha::merklehash::{file_hash, file_hash_with_salt, xorb_hash, DataHash, HMACKey};
use yurewha::own::{try_file_hash, try_file_hash_with_salt, try_xorb_hash, Node};

#[test]
fn the_least_lists_have_their_hashes() {
    assert_eq!(xorb_hash(&[]), DataHash::default());
    assert_eq!(file_hash(&[]), DataHash::default());
    assert_eq!(file_hash_with_salt(&[], &[7; 32]), DataHash::default());
    let empty = (DataHash::default(), 0);
    assert_eq!(xorb_hash(&[empty]), DataHash::default());
    assert_eq!(
        file_hash(&[empty]),
        hash("638a6bc391964a85939d48f008e8bdbae6a7975e7ca2d87a3ce2492f4e4d8a4c")
    );
    assert_eq!(xorb_hash(&reference(&[1])), DataHash::random_from_seed(1));
}

#[test]
fn longer_lists_have_the_roots_of_the_rust_crate() {
    assert_eq!(
        xorb_hash(&numbered(0..28)),
        hash("b1026a806e25e14a5a9d00c9400b8b5b92e81027e1c574046edb37f500fcdeae")
    );
    let cuts: Vec<u64> = (0..10).collect();
    assert_eq!(
        xorb_hash(&with_cuts(1000, &[])),
        hash("57b8c4f35a46f3aa852fd11c0982fc63e516b770a0262fc05003bdda513b24cf")
    );
    assert_eq!(
        xorb_hash(&with_cuts(10, &cuts)),
        hash("267290865ec50d15a40c85a0a3a576930d9997fcc5ecfb744ba1ed6d300aeeeb")
    );
}

#[test]
fn drawn_lists_have_the_roots_of_the_definition() {
    let mut draws = Draws(2);
    for _ in 0..300 {
        let count = draws.below(120);
        let nodes = draws.nodes(count);
        let salt = <[u8; 32]>::from(DataHash::random_from_seed(draws.number()));
        let root = definitions::root(&nodes);
        let file = |key: HMACKey| {
            if nodes.is_empty() {
                DataHash::default()
            } else {
                root.hmac(key)
            }
        };
        assert_eq!(xorb_hash(&nodes), root);
        assert_eq!(file_hash(&nodes), file(HMACKey::default()));
        assert_eq!(file_hash_with_salt(&nodes, &salt), file(salt.into()));
        assert_eq!(try_xorb_hash(&nodes), Ok(xorb_hash(&nodes)));
        assert_eq!(try_file_hash(&nodes), Ok(file_hash(&nodes)));
        assert_eq!(
            try_file_hash_with_salt(&nodes, &salt),
            Ok(file_hash_with_salt(&nodes, &salt))
        );
    }
}

// Two chunks whose sizes are `u64::MAX` and this.
fn great(size: u64) -> [Node; 2] {
    [(DataHash::marker(), u64::MAX), (DataHash::default(), size)]
}

#[test]
fn sizes_that_only_just_fit_are_taken() {
    assert_eq!(xorb_hash(&great(0)), definitions::root(&great(0)));
    assert_eq!(xorb_hash(&great(0)[..1]), DataHash::marker());
}

#[test]
fn sizes_that_do_not_fit_are_refused() {
    let chunks = great(1);
    assert_eq!(try_xorb_hash(&chunks), Err(CoreError::SizeOverflow));
    assert_eq!(try_file_hash(&chunks), Err(CoreError::SizeOverflow));
    assert_eq!(try_file_hash_with_salt(&chunks, &[0; 32]), Err(CoreError::SizeOverflow));
}

// The message of the panic of a call.
fn panic_of(call: fn() -> DataHash) -> String {
    *catch_unwind(call).unwrap_err().downcast().unwrap()
}

#[test]
fn calls_without_a_result_name_call_and_cause_in_a_panic() {
    assert_eq!(panic_of(|| xorb_hash(&great(1))), "xorb_hash: size overflow");
    assert_eq!(panic_of(|| file_hash(&great(1))), "file_hash: size overflow");
    assert_eq!(
        panic_of(|| file_hash_with_salt(&great(1), &[0; 32])),
        "file_hash_with_salt: size overflow"
    );
}
