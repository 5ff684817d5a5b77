//! The 256-bit hash of a chunk, a xorb or a file, and its forms.

use crate::error::{CoreError, Result};
use crate::ffi;
use crate::own::HashTextError;
use crate::status::{answer, given, plain};
use std::cmp::Ordering;
use std::ffi::c_char;
use std::hash::{Hash, Hasher};
use std::mem::{align_of, size_of, transmute};
use std::ops::{Deref, DerefMut, Rem};
use std::str::{self, FromStr};
use std::{fmt, ptr};

pub(crate) mod errors;
mod hashed_write;
#[cfg(feature = "serde")]
pub mod hex;

pub use errors::{DataHashBytesParseError, DataHashHexParseError};
pub use hashed_write::HashedWrite;

/// A Merkle hash of 256 bits. It dereferences to its four words.
///
/// Its 32 bytes are the words in order, each little-endian. Its text is the words in order, each as 16 hex digits.
/// Hashes are ordered by their words, starting with the first. This is also the order of their texts. A hash table gets
/// only the first word.
///
/// With serde a hash is the sequence of its four words, in every format. `hex::serde` reads and writes its text
/// instead.
///
/// ```
/// use yurewha::merklehash::DataHash;
///
/// let hash = DataHash::from([1, 2, 3, 0xff]);
/// assert_eq!(hash[3], 255);
/// assert_eq!(hash % 100, 55);
/// assert_eq!(format!("{hash}"), hash.hex());
/// assert!(hash < DataHash::from([1, 2, 4, 0]));
/// ```
#[derive(Clone, Copy, Default, PartialEq, Eq)]
#[cfg_attr(feature = "serde", derive(serde::Serialize, serde::Deserialize))]
#[repr(transparent)]
pub struct DataHash([u64; 4]);

/// A key of [`DataHash::hmac`].
pub type HMACKey = DataHash;

// A pointer to a hash is also a pointer to the header's hash.
const _: () = assert!(
    size_of::<DataHash>() == size_of::<ffi::yurewha_hash>()
        && align_of::<DataHash>() == align_of::<ffi::yurewha_hash>()
);

impl DataHash {
    /// Returns the hash with these four words.
    ///
    /// ```
    /// use yurewha::merklehash::DataHash;
    ///
    /// const ONE: DataHash = DataHash::from_words([1, 0, 0, 0]);
    /// assert_eq!(ONE, DataHash::from([1, 0, 0, 0]));
    /// ```
    #[must_use]
    #[inline]
    pub const fn from_words(words: [u64; 4]) -> Self {
        DataHash(words)
    }

    /// Returns the hash with these 32 bytes.
    ///
    /// ```
    /// use yurewha::merklehash::DataHash;
    ///
    /// const ONES: DataHash = DataHash::from_bytes([0xff; 32]);
    /// assert_eq!(ONES, DataHash::marker());
    /// ```
    #[must_use]
    #[inline]
    pub const fn from_bytes(bytes: [u8; 32]) -> Self {
        // SAFETY: 32 bytes are four words, and any bits are a valid word. The machine is little-endian.
        DataHash(unsafe { transmute::<[u8; 32], [u64; 4]>(bytes) })
    }

    /// Returns the 32 bytes of this hash.
    ///
    /// ```
    /// use yurewha::merklehash::DataHash;
    ///
    /// const BYTES: [u8; 32] = DataHash::marker().to_bytes();
    /// assert_eq!(BYTES, [0xff; 32]);
    /// ```
    #[must_use]
    #[inline]
    pub const fn to_bytes(self) -> [u8; 32] {
        *self.bytes()
    }

    #[inline]
    const fn bytes(&self) -> &[u8; 32] {
        // SAFETY: the words are 32 bytes without padding, and any byte is a valid `u8`. The machine is little-endian.
        unsafe { &*ptr::from_ref(&self.0).cast() }
    }

    pub(crate) fn for_call(&self) -> *const ffi::yurewha_hash {
        ptr::from_ref(self).cast()
    }

    pub(crate) fn out(&mut self) -> *mut ffi::yurewha_hash {
        ptr::from_mut(self).cast()
    }

    /// Returns the 64 lower-case hex digits of this hash.
    ///
    /// ```
    /// use yurewha::merklehash::DataHash;
    ///
    /// assert!(DataHash::from([0x0123, 0, 0, 0]).hex().starts_with("00000000000001230000"));
    /// ```
    #[must_use]
    pub fn hex(&self) -> String {
        self.to_string()
    }

    // The digits of `hex`, without an allocation.
    fn hex_digits(&self) -> [u8; ffi::YUREWHA_HEX_LENGTH] {
        // SAFETY: `text` passes a room with its length, and a length to write to.
        let digits = text(|text, room, length| unsafe { ffi::yurewha_hex(self.for_call(), text, room, length) });
        plain("DataHash::hex", digits)
    }

    /// Returns the hash with this hex text: 64 digits, lower or upper case.
    ///
    /// ```
    /// use yurewha::merklehash::DataHash;
    ///
    /// let hash = DataHash::marker();
    /// assert_eq!(DataHash::from_hex(&"F".repeat(64)).unwrap(), hash);
    /// assert!(DataHash::from_hex("f").is_err());
    /// ```
    ///
    /// # Errors
    ///
    /// [`DataHashHexParseError`] for any other text. It has nothing in it, as in `xet-core-structures`;
    /// [`parse_hex`](crate::own::parse_hex) says what is wrong.
    pub fn from_hex(text: &str) -> std::result::Result<Self, DataHashHexParseError> {
        // The library writes a hash in a fraction of the time that it needs to read one.
        match Self::guessed(text) {
            Some(hash) if hash.hex_digits() == *text.as_bytes() => Ok(hash),
            _ => Self::read_by_library(text),
        }
    }

    // The hash that lower-case hex digits describe. For other texts the result has no meaning.
    fn guessed(text: &str) -> Option<Self> {
        let text: &[u8; ffi::YUREWHA_HEX_LENGTH] = text.as_bytes().try_into().ok()?;
        let mut words = [0; 4];
        for (word, digits) in words.iter_mut().zip(text.chunks_exact(16)) {
            *word = digits
                .iter()
                .fold(0, |word, digit| word << 4 | u64::from((digit & 15) + 9 * (digit >> 6)));
        }
        Some(DataHash(words))
    }

    fn read_by_library(text: &str) -> std::result::Result<Self, DataHashHexParseError> {
        // SAFETY: a text of its length, and a hash to write to.
        answer(|hash: &mut Self| unsafe { ffi::yurewha_from_hex(text.as_ptr().cast(), text.len(), hash.out()) })
            .map_err(|_: CoreError| DataHashHexParseError)
    }

    /// Returns the URL-safe base64 text of the 32 bytes: 43 characters, without padding.
    ///
    /// ```
    /// use yurewha::merklehash::DataHash;
    ///
    /// assert_eq!(DataHash::default().base64(), "A".repeat(43));
    /// ```
    ///
    /// # Panics
    ///
    /// If an allocation fails; see [`try_base64`](Self::try_base64).
    #[must_use]
    #[track_caller]
    pub fn base64(&self) -> String {
        plain("DataHash::base64", self.try_base64())
    }

    /// Does the same as [`base64`](Self::base64), but returns an error if an allocation fails.
    ///
    /// ```
    /// use yurewha::merklehash::DataHash;
    ///
    /// assert_eq!(DataHash::marker().try_base64()?, format!("{}8", "_".repeat(42)));
    /// # Ok::<(), yurewha::error::CoreError>(())
    /// ```
    ///
    /// # Errors
    ///
    /// [`OutOfMemory`](CoreError::OutOfMemory) if an allocation fails
    pub fn try_base64(&self) -> Result<String> {
        // SAFETY: `text` passes a room with its length, and a length to write to.
        let text: [u8; ffi::YUREWHA_BASE64_LENGTH] =
            text(|text, room, length| unsafe { ffi::yurewha_base64(self.for_call(), text, room, length) })?;
        let mut string = String::new();
        string
            .try_reserve_exact(text.len())
            .map_err(|_| CoreError::OutOfMemory)?;
        string.push_str(ascii(&text));
        Ok(string)
    }

    /// Returns the hash with this [`base64`](Self::base64) text.
    ///
    /// ```
    /// use yurewha::merklehash::DataHash;
    ///
    /// let hash = DataHash::random_from_seed(7);
    /// assert_eq!(DataHash::from_base64(&hash.base64()).unwrap(), hash);
    /// assert!(DataHash::from_base64("AAAA").is_err());
    /// ```
    ///
    /// # Errors
    ///
    /// [`DataHashBytesParseError`] for any other text
    ///
    /// # Panics
    ///
    /// If an allocation fails; see [`try_from_base64`](Self::try_from_base64).
    #[track_caller]
    pub fn from_base64(text: &str) -> std::result::Result<Self, DataHashBytesParseError> {
        match Self::try_from_base64(text) {
            Ok(hash) => Ok(hash),
            Err(HashTextError::Bytes(error)) => Err(error),
            Err(HashTextError::OutOfMemory) => plain("DataHash::from_base64", Err(CoreError::OutOfMemory)),
        }
    }

    /// Does the same as [`from_base64`](Self::from_base64), but returns an error if an allocation fails.
    ///
    /// ```
    /// use yurewha::merklehash::DataHash;
    /// use yurewha::own::HashTextError;
    ///
    /// assert_eq!(DataHash::try_from_base64(&"A".repeat(43)).unwrap(), DataHash::default());
    /// assert!(matches!(DataHash::try_from_base64("?"), Err(HashTextError::Bytes(_))));
    /// ```
    ///
    /// # Errors
    ///
    /// - [`Bytes`](HashTextError::Bytes) for any other text
    /// - [`OutOfMemory`](HashTextError::OutOfMemory) if an allocation fails
    pub fn try_from_base64(text: &str) -> std::result::Result<Self, HashTextError> {
        // SAFETY: a text of its length, and a hash to write to.
        answer(|hash: &mut Self| unsafe { ffi::yurewha_from_base64(text.as_ptr().cast(), text.len(), hash.out()) })
    }

    /// Borrows the 32 bytes of this hash.
    ///
    /// ```
    /// use yurewha::merklehash::DataHash;
    ///
    /// assert_eq!(DataHash::from([1, 0, 0, 0]).as_bytes()[..9], [1, 0, 0, 0, 0, 0, 0, 0, 0]);
    /// ```
    #[must_use]
    #[inline]
    pub fn as_bytes(&self) -> &[u8] {
        self.bytes()
    }

    /// Returns the hash with the bytes of a slice, of which there have to be 32.
    ///
    /// ```
    /// use yurewha::merklehash::DataHash;
    ///
    /// let hash = DataHash::random_from_seed(7);
    /// assert_eq!(DataHash::from_slice(hash.as_bytes()).unwrap(), hash);
    /// assert!(DataHash::from_slice(&[0; 31]).is_err());
    /// ```
    ///
    /// # Errors
    ///
    /// [`DataHashBytesParseError`] for a slice of another length
    pub fn from_slice(bytes: &[u8]) -> std::result::Result<Self, DataHashBytesParseError> {
        <&[u8; 32]>::try_from(bytes)
            .map(Self::from)
            .map_err(|_| DataHashBytesParseError)
    }

    /// Returns a pseudorandom hash, for tests: the first 32 bytes of Xoshiro256++ with this seed.
    ///
    /// ```
    /// use yurewha::merklehash::DataHash;
    ///
    /// assert!(DataHash::random_from_seed(1).hex().starts_with("cfc5d07f6f03c29b"));
    /// ```
    #[must_use]
    pub fn random_from_seed(seed: u64) -> Self {
        // SAFETY: a hash to write to.
        given(|hash: &mut Self| unsafe { ffi::yurewha_random_from_seed(seed, hash.out()) })
    }

    /// Returns the keyed BLAKE3 hash of the bytes of this hash, under the bytes of `key`.
    ///
    /// ```
    /// use yurewha::merklehash::{file_hash, DataHash, HMACKey};
    ///
    /// let hash = DataHash::random_from_seed(1);
    /// assert_eq!(hash.hmac(HMACKey::default()), file_hash(&[(hash, 100)]));
    /// ```
    #[must_use]
    pub fn hmac(&self, key: HMACKey) -> Self {
        // SAFETY: two hashes, and a third one to write to.
        given(|result: &mut Self| unsafe { ffi::yurewha_hmac(self.for_call(), key.for_call(), result.out()) })
    }

    /// Returns the hash with all bits set.
    ///
    /// ```
    /// use yurewha::merklehash::DataHash;
    ///
    /// assert_eq!(*DataHash::marker(), [u64::MAX; 4]);
    /// ```
    #[must_use]
    pub const fn marker() -> Self {
        DataHash([u64::MAX; 4])
    }
}

// The text of `N` bytes that an export writes.
fn text<const N: usize>(write: impl FnOnce(*mut c_char, usize, &mut usize) -> ffi::yurewha_status) -> Result<[u8; N]> {
    let mut text = [0; N];
    answer(|length| write(text.as_mut_ptr().cast(), N, length))?;
    Ok(text)
}

// The text of an export as a `str`.
fn ascii(text: &[u8]) -> &str {
    str::from_utf8(text).expect("hex and base64 texts are ASCII")
}

/// Returns the hash of a chunk with this data: keyed BLAKE3 under the data key.
///
/// ```
/// use yurewha::merklehash::compute_data_hash;
///
/// assert!(compute_data_hash(b"abc").hex().starts_with("a8803506f7aff014"));
/// ```
#[must_use]
pub fn compute_data_hash(bytes: &[u8]) -> DataHash {
    // SAFETY: bytes of their length, and a hash to write to.
    given(|hash: &mut DataHash| unsafe { ffi::yurewha_data_hash(bytes.as_ptr(), bytes.len(), hash.out()) })
}

/// Returns the hash of an inner node of the tree with this text: keyed BLAKE3 under the internal key.
///
/// ```
/// use yurewha::merklehash::{compute_internal_node_hash, xorb_hash, DataHash};
///
/// let chunks = [1, 2].map(|seed| (DataHash::random_from_seed(seed), 100));
/// let text = format!("{} : 100\n{} : 100\n", chunks[0].0, chunks[1].0);
/// assert_eq!(compute_internal_node_hash(text.as_bytes()), xorb_hash(&chunks));
/// ```
#[must_use]
pub fn compute_internal_node_hash(bytes: &[u8]) -> DataHash {
    // SAFETY: bytes of their length, and a hash to write to.
    given(|hash: &mut DataHash| unsafe { ffi::yurewha_internal_node_hash(bytes.as_ptr(), bytes.len(), hash.out()) })
}

/// Dereferences to the words.
impl Deref for DataHash {
    type Target = [u64; 4];

    #[inline]
    fn deref(&self) -> &[u64; 4] {
        &self.0
    }
}

impl DerefMut for DataHash {
    #[inline]
    fn deref_mut(&mut self) -> &mut [u64; 4] {
        &mut self.0
    }
}

/// Orders by the words, starting with the first.
impl Ord for DataHash {
    #[inline]
    fn cmp(&self, other: &Self) -> Ordering {
        self.0.cmp(&other.0)
    }
}

impl PartialOrd for DataHash {
    #[inline]
    fn partial_cmp(&self, other: &Self) -> Option<Ordering> {
        Some(self.cmp(other))
    }
}

/// Hashes only the first word.
impl Hash for DataHash {
    #[inline]
    fn hash<H: Hasher>(&self, state: &mut H) {
        state.write_u64(self.0[0]);
    }
}

/// The last word modulo a divisor. Panics if the divisor is 0.
impl Rem<u64> for DataHash {
    type Output = u64;

    #[inline]
    #[track_caller]
    fn rem(self, divisor: u64) -> u64 {
        self.0[3] % divisor
    }
}

/// The hex text. Width and flags are ignored.
impl fmt::LowerHex for DataHash {
    fn fmt(&self, f: &mut fmt::Formatter<'_>) -> fmt::Result {
        f.write_str(ascii(&self.hex_digits()))
    }
}

/// The hex text with upper-case digits, which [`from_hex`](DataHash::from_hex) reads, too. Width and flags are ignored.
impl fmt::UpperHex for DataHash {
    fn fmt(&self, f: &mut fmt::Formatter<'_>) -> fmt::Result {
        f.write_str(ascii(&self.hex_digits().map(|digit| digit.to_ascii_uppercase())))
    }
}

/// The hex text.
impl fmt::Display for DataHash {
    fn fmt(&self, f: &mut fmt::Formatter<'_>) -> fmt::Result {
        fmt::LowerHex::fmt(self, f)
    }
}

/// The hex text.
impl fmt::Debug for DataHash {
    fn fmt(&self, f: &mut fmt::Formatter<'_>) -> fmt::Result {
        fmt::LowerHex::fmt(self, f)
    }
}

/// Makes a hash of its words.
impl From<[u64; 4]> for DataHash {
    #[inline]
    fn from(words: [u64; 4]) -> Self {
        DataHash(words)
    }
}

/// Returns the words.
impl From<DataHash> for [u64; 4] {
    #[inline]
    fn from(hash: DataHash) -> Self {
        hash.0
    }
}

impl From<&[u8; 32]> for DataHash {
    #[inline]
    fn from(bytes: &[u8; 32]) -> Self {
        Self::from_bytes(*bytes)
    }
}

impl From<[u8; 32]> for DataHash {
    #[inline]
    fn from(bytes: [u8; 32]) -> Self {
        Self::from_bytes(bytes)
    }
}

impl From<DataHash> for [u8; 32] {
    #[inline]
    fn from(hash: DataHash) -> Self {
        hash.to_bytes()
    }
}

impl From<&DataHash> for Vec<u8> {
    fn from(hash: &DataHash) -> Self {
        hash.as_bytes().to_vec()
    }
}

impl From<DataHash> for Vec<u8> {
    fn from(hash: DataHash) -> Self {
        Self::from(&hash)
    }
}

impl TryFrom<&[u8]> for DataHash {
    type Error = DataHashBytesParseError;

    fn try_from(bytes: &[u8]) -> std::result::Result<Self, DataHashBytesParseError> {
        Self::from_slice(bytes)
    }
}

/// Reads the 64 hex digits, as [`from_hex`](DataHash::from_hex) does.
///
/// ```
/// use yurewha::merklehash::DataHash;
///
/// let hash: DataHash = "f".repeat(64).parse()?;
/// assert_eq!(hash, DataHash::marker());
/// # Ok::<(), yurewha::merklehash::DataHashHexParseError>(())
/// ```
impl FromStr for DataHash {
    type Err = DataHashHexParseError;

    fn from_str(text: &str) -> std::result::Result<Self, DataHashHexParseError> {
        Self::from_hex(text)
    }
}

impl AsRef<[u8]> for DataHash {
    #[inline]
    fn as_ref(&self) -> &[u8] {
        self.as_bytes()
    }
}

/// `Borrow<[u8; 32]>` isn't implemented. It requires that hash and bytes have the same `Hash` and order. But a hash
/// table gets only the first word of a hash, and the order is that of the words.
impl AsRef<[u8; 32]> for DataHash {
    #[inline]
    fn as_ref(&self) -> &[u8; 32] {
        self.bytes()
    }
}

impl AsRef<DataHash> for DataHash {
    #[inline]
    fn as_ref(&self) -> &DataHash {
        self
    }
}

// SAFETY: four words, for which all bits zero is a valid value.
#[cfg(feature = "bytemuck")]
unsafe impl bytemuck::Zeroable for DataHash {}

// SAFETY: four words without padding, with any bits valid; `Copy`, without references or interior mutability.
#[cfg(feature = "bytemuck")]
unsafe impl bytemuck::Pod for DataHash {}

#[cfg(test)]
mod tests {
    use super::*;

    // Pseudorandom hashes, and hashes that differ in one bit of one word.
    fn hashes() -> Vec<DataHash> {
        let drawn = (0..50).map(DataHash::random_from_seed);
        let bits = (0..256).map(|bit| {
            let mut hash = DataHash::default();
            hash[bit / 64] = 1 << (bit % 64);
            hash
        });
        let ends = [DataHash::default(), DataHash::marker()];
        drawn.chain(bits).chain(ends).collect()
    }

    // For speed, these calls are written in Rust. They agree with the library's exports.
    #[test]
    fn bytes_are_those_of_the_exports() {
        for hash in hashes() {
            // SAFETY: a hash, and 32 bytes to write to, as the header's struct has them.
            let bytes: [u8; 32] = given(|bytes: &mut [u8; 32]| unsafe {
                ffi::yurewha_hash_to_bytes(hash.for_call(), ptr::from_mut(bytes).cast())
            });
            assert_eq!(
                (hash.to_bytes(), <[u8; 32]>::from(hash), hash.as_bytes()),
                (bytes, bytes, &bytes[..])
            );
            // SAFETY: 32 bytes, as the header's struct has them, and a hash to write to.
            let read = given(|hash: &mut DataHash| unsafe {
                ffi::yurewha_hash_from_bytes(ptr::from_ref(&bytes).cast(), hash.out())
            });
            assert_eq!((DataHash::from_bytes(bytes), DataHash::from(&bytes)), (read, hash));
        }
    }

    // Each place of a text gets each byte that a text may have there.
    #[test]
    fn a_text_is_what_the_library_reads() {
        let mut texts = vec![String::new(), "0".repeat(63), "0".repeat(65), "é".repeat(32)];
        for text in [DataHash::default(), DataHash::random_from_seed(1)].map(|hash| hash.hex()) {
            for (place, byte) in (0..64).flat_map(|place| (0..128u8).map(move |byte| (place, byte))) {
                let mut text = text.clone();
                text.replace_range(place..=place, &char::from(byte).to_string());
                texts.push(text);
            }
        }
        for text in texts {
            assert_eq!(DataHash::from_hex(&text), DataHash::read_by_library(&text), "{text}");
        }
    }

    #[test]
    fn the_order_is_that_of_the_exports() {
        let hashes = hashes();
        for first in &hashes {
            for second in &hashes {
                // SAFETY: two hashes, which are only read.
                let order = unsafe { ffi::yurewha_compare(first.for_call(), second.for_call()) };
                assert_eq!(first.cmp(second), order.cmp(&0));
                assert_eq!((first == second, first < second), (order == 0, order < 0));
            }
        }
    }

    #[test]
    fn the_remainder_is_that_of_the_exports() {
        for hash in hashes() {
            for divisor in [1, 2, 4, 7, 1 << 63, u64::MAX] {
                // SAFETY: a hash, and a number to write to.
                let remainder: Result<u64> =
                    answer(|remainder| unsafe { ffi::yurewha_remainder(hash.for_call(), divisor, remainder) });
                assert_eq!(remainder, Ok(hash % divisor));
            }
        }
    }
}
