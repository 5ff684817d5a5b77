//! The traits of the crate `digest`, for code that takes any hasher. Each passes on to the hasher's own call.

use super::Hasher;
use digest::consts::U32;
use digest::crypto_common::{Key, KeyInit, KeySizeUser};
use digest::{FixedOutput, FixedOutputReset, HashMarker, Output, OutputSizeUser, Reset, Update};

/// With the feature `digest`, a hasher is a `digest::Digest` under the data key. Where that trait is imported, its
/// `finalize` takes the hasher and returns the 32 bytes of the hash.
///
/// ```
/// use digest::Digest;
/// use yurewha::merklehash::compute_data_hash;
/// use yurewha::own::Hasher;
///
/// assert_eq!(Hasher::digest(b"some data")[..], compute_data_hash(b"some data").to_bytes());
/// ```
impl HashMarker for Hasher {}

/// Panics where [`Hasher::update`] does.
impl Update for Hasher {
    #[track_caller]
    fn update(&mut self, piece: &[u8]) {
        Hasher::update(self, piece);
    }
}

impl Reset for Hasher {
    fn reset(&mut self) {
        Hasher::reset(self);
    }
}

impl OutputSizeUser for Hasher {
    type OutputSize = U32;
}

/// The bytes of the hash, as [`to_bytes`](crate::merklehash::DataHash::to_bytes) returns them.
impl FixedOutput for Hasher {
    fn finalize_into(self, bytes: &mut Output<Self>) {
        bytes.copy_from_slice(Hasher::finalize(&self).as_bytes());
    }
}

/// Goes back to the empty message under the same key.
impl FixedOutputReset for Hasher {
    fn finalize_into_reset(&mut self, bytes: &mut Output<Self>) {
        bytes.copy_from_slice(Hasher::finalize(self).as_bytes());
        Hasher::reset(self);
    }
}

impl KeySizeUser for Hasher {
    type KeySize = U32;
}

/// A hasher of the empty message under a key, as [`Hasher::new_keyed`] returns it.
impl KeyInit for Hasher {
    fn new(key: &Key<Self>) -> Self {
        Hasher::new_keyed(key.as_ref())
    }
}
