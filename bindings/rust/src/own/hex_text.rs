//! Hex texts of hashes, with an error that says what is wrong.

use crate::merklehash::MerkleHash;
use std::fmt;

/// What is wrong with a text that isn't the hex text of a hash.
///
/// ```
/// use yurewha::own::{parse_hex, HexError};
///
/// let text = "f".repeat(63) + "g";
/// let error = parse_hex(&text).unwrap_err();
/// assert_eq!(error, HexError::Digit { place: 63, found: 'g' });
/// assert_eq!(error.to_string(), "'g' at place 63 isn't a hex digit");
/// assert_eq!(parse_hex("abc").unwrap_err().to_string(), "a hash has 64 hex digits, and the text has 3 bytes");
/// ```
#[derive(Clone, Copy, Debug, PartialEq, Eq)]
#[non_exhaustive]
pub enum HexError {
    /// The text has this number of bytes, and not 64.
    Length(usize),
    /// A character isn't a hex digit.
    Digit {
        /// How many bytes of the text come before it.
        place: usize,
        /// The first character that isn't one.
        found: char,
    },
}

impl fmt::Display for HexError {
    fn fmt(&self, f: &mut fmt::Formatter<'_>) -> fmt::Result {
        match self {
            HexError::Length(length) => write!(f, "a hash has 64 hex digits, and the text has {length} bytes"),
            HexError::Digit { place, found } => write!(f, "{found:?} at place {place} isn't a hex digit"),
        }
    }
}

impl std::error::Error for HexError {}

/// Does the same as [`from_hex`](MerkleHash::from_hex), whose error has nothing in it, as in `xet-core-structures`. The
/// error of this call says what is wrong.
///
/// ```
/// use yurewha::merklehash::MerkleHash;
/// use yurewha::own::parse_hex;
///
/// assert_eq!(parse_hex(&"F".repeat(64))?, MerkleHash::marker());
/// # Ok::<(), yurewha::own::HexError>(())
/// ```
///
/// # Errors
///
/// - [`Length`](HexError::Length) if the text doesn't have 64 bytes
/// - otherwise [`Digit`](HexError::Digit) if a character isn't a hex digit, lower or upper case
pub fn parse_hex(text: &str) -> Result<MerkleHash, HexError> {
    MerkleHash::from_hex(text).map_err(|_| {
        let mut characters = text.char_indices();
        match characters.find(|(_, found)| !found.is_ascii_hexdigit()) {
            Some((place, found)) if text.len() == 64 => HexError::Digit { place, found },
            _ => HexError::Length(text.len()),
        }
    })
}
