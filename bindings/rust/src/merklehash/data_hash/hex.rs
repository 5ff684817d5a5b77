//! Hashes as hex text in serde's formats.

/// Reads and writes a hash as its 64 hex digits, for `#[serde(with = "..")]`.
///
/// ```
/// use yurewha::merklehash::{data_hash, DataHash};
///
/// #[derive(serde::Serialize, serde::Deserialize)]
/// struct Xorb {
///     #[serde(with = "data_hash::hex::serde")]
///     hash: DataHash,
/// }
///
/// let text = serde_json::to_string(&Xorb { hash: DataHash::marker() })?;
/// assert_eq!(text, format!(r#"{{"hash":"{}"}}"#, "f".repeat(64)));
/// assert_eq!(serde_json::from_str::<Xorb>(&text)?.hash, DataHash::marker());
/// # Ok::<(), serde_json::Error>(())
/// ```
pub mod serde {
    use super::super::{ascii, DataHash, DataHashHexParseError};
    use crate::own::parse_hex;
    use serde::de::{Error, Visitor};
    use serde::{Deserializer, Serializer};
    use std::fmt;

    /// Writes the hex text.
    ///
    /// # Errors
    ///
    /// Those of the format
    pub fn serialize<S: Serializer>(hash: &DataHash, serializer: S) -> Result<S::Ok, S::Error> {
        serializer.serialize_str(ascii(&hash.hex_digits()))
    }

    /// Reads 64 hex digits, lower or upper case.
    ///
    /// # Errors
    ///
    /// Those of the format. For another text, the error has the words of [`HexError`](crate::own::HexError)
    pub fn deserialize<'de, D: Deserializer<'de>>(deserializer: D) -> Result<DataHash, D::Error> {
        deserializer.deserialize_str(HexVisitor)
    }

    struct HexVisitor;

    impl Visitor<'_> for HexVisitor {
        type Value = DataHash;

        fn expecting(&self, f: &mut fmt::Formatter<'_>) -> fmt::Result {
            f.write_str("64 hex digits")
        }

        fn visit_str<E: Error>(self, text: &str) -> Result<DataHash, E> {
            parse_hex(text).map_err(|error| E::custom(format_args!("{DataHashHexParseError}: {error}")))
        }
    }
}
