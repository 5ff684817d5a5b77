//! The traits of the crate `digest`.

use digest::crypto_common::KeyInit;
use digest::{Digest, FixedOutputReset};
use yurewha::merklehash::{compute_data_hash, DataHash};
use yurewha::own::Hasher;

// What code for any hasher calls.
fn of_any<D: Digest + FixedOutputReset>(pieces: &[&[u8]]) -> (Vec<u8>, Vec<u8>) {
    let mut hasher = D::new();
    for piece in pieces {
        Digest::update(&mut hasher, piece);
    }
    let again = Digest::finalize_reset(&mut hasher);
    Digest::update(&mut hasher, b"some data");
    Digest::reset(&mut hasher);
    (again.to_vec(), hasher.chain_update(b"some data").finalize().to_vec())
}

#[test]
fn a_hasher_is_a_digest_of_data() {
    let wanted = compute_data_hash(b"some data").to_bytes();
    assert_eq!(
        of_any::<Hasher>(&[b"some ", b"data"]),
        (wanted.to_vec(), wanted.to_vec())
    );
    assert_eq!(Hasher::digest(b"some data")[..], wanted);
    assert_eq!(<Hasher as Digest>::output_size(), 32);
}

#[test]
fn a_digest_under_a_key_keeps_it() {
    let (hash, key) = (DataHash::random_from_seed(1), DataHash::random_from_seed(2));
    let mut hasher: Hasher = KeyInit::new_from_slice(key.as_bytes()).unwrap();
    for _ in 0..2 {
        Digest::update(&mut hasher, hash.as_bytes());
        assert_eq!(Digest::finalize_reset(&mut hasher)[..], hash.hmac(key).to_bytes());
    }
    assert!(<Hasher as KeyInit>::new_from_slice(&[7; 31]).is_err());
}
