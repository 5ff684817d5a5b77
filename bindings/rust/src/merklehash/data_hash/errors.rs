//! Errors when a hash is read.

use crate::error::CoreError;
use crate::ffi;
use crate::status::Refusal;
use std::error::Error;
use std::fmt;
use std::num::ParseIntError;

/// A text isn't 64 hex digits.
#[derive(Clone, Debug, PartialEq, Eq)]
pub struct DataHashHexParseError;

/// A slice doesn't have 32 bytes, or a text isn't the base64 text of a hash.
#[derive(Clone, Debug, PartialEq, Eq)]
pub struct DataHashBytesParseError;

/// Why a base64 text can't be read.
#[derive(Clone, Debug, PartialEq, Eq)]
#[non_exhaustive]
pub enum HashTextError {
    /// It isn't the text of a hash.
    Bytes(DataHashBytesParseError),
    /// An allocation failed.
    OutOfMemory,
}

impl fmt::Display for DataHashHexParseError {
    fn fmt(&self, f: &mut fmt::Formatter<'_>) -> fmt::Result {
        f.write_str("Invalid hex input for DataHash")
    }
}

impl fmt::Display for DataHashBytesParseError {
    fn fmt(&self, f: &mut fmt::Formatter<'_>) -> fmt::Result {
        f.write_str("Invalid bytes input for DataHash")
    }
}

impl fmt::Display for HashTextError {
    fn fmt(&self, f: &mut fmt::Formatter<'_>) -> fmt::Result {
        match self {
            HashTextError::Bytes(error) => error.fmt(f),
            HashTextError::OutOfMemory => CoreError::OutOfMemory.fmt(f),
        }
    }
}

/// For callers that read the digits of a word as a number.
impl From<ParseIntError> for DataHashHexParseError {
    fn from(_: ParseIntError) -> Self {
        DataHashHexParseError
    }
}

impl Error for DataHashHexParseError {}

impl Error for DataHashBytesParseError {}

impl Error for HashTextError {}

impl Refusal for HashTextError {
    fn of(status: ffi::yurewha_status) -> Option<Self> {
        match status {
            ffi::YUREWHA_TEXT => Some(HashTextError::Bytes(DataHashBytesParseError)),
            ffi::YUREWHA_MEMORY => Some(HashTextError::OutOfMemory),
            _ => None,
        }
    }
}
