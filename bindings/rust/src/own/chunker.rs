//! Where Xet cuts a file into chunks.

use crate::ffi;
use crate::status::given;
use std::fmt;

/// Finds where Xet cuts a file that comes in pieces. It keeps none of the bytes, and a copy goes on by itself.
///
/// A chunk has 8192 to 131072 bytes, but the last of a file may have fewer. The chunks are the same in whatever pieces the file
/// comes.
///
/// ```
/// use yurewha::own::Chunker;
///
/// let file = [0, 148, 143].repeat(6000);
/// let (mut chunker, mut sizes, mut rest) = (Chunker::new(), vec![], &file[..]);
/// while let Some(end) = chunker.next_boundary(rest) {
///     sizes.push(end);
///     rest = &rest[end..];
/// }
/// // The file ends here.
/// assert_eq!((sizes, chunker.taken()), (vec![8193, 8193], 1614));
/// ```
///
/// [`chunks_of`](super::chunks_of) also reads the file and hashes its chunks.
#[derive(Clone, Copy)]
pub struct Chunker(ffi::yurewha_chunker);

impl Chunker {
    /// Returns a chunker at the beginning of a file, or of any chunk.
    ///
    /// ```
    /// use yurewha::own::Chunker;
    ///
    /// assert_eq!(Chunker::new().taken(), 0);
    /// ```
    #[must_use]
    pub fn new() -> Self {
        // SAFETY: a chunker to write to.
        Chunker(given(|chunker| unsafe { ffi::yurewha_chunker_begin(chunker) }))
    }

    /// Takes more of the file. If the chunk ends in the piece, returns after how many bytes of it, and takes no more than these:
    /// the next call begins with what follows. Otherwise takes the whole piece, and returns `None`.
    ///
    /// ```
    /// use yurewha::own::Chunker;
    ///
    /// let mut chunker = Chunker::new();
    /// assert_eq!(chunker.next_boundary(&[0; 131_000]), None);
    /// assert_eq!(chunker.next_boundary(&[0; 100]), Some(72));
    /// assert_eq!(chunker.next_boundary(&[0; 28]), None);
    /// ```
    #[must_use]
    pub fn next_boundary(&mut self, piece: &[u8]) -> Option<usize> {
        // SAFETY: a chunker that was begun, and bytes of their length.
        let end = unsafe { ffi::yurewha_chunker_next_boundary(&mut self.0, piece.as_ptr(), piece.len()) };
        // It is at most the length of the piece.
        (end != 0).then_some(end as usize)
    }

    /// Returns how many bytes of the chunk were taken so far. If the file ends here, and there are any, they are its last chunk.
    ///
    /// ```
    /// use yurewha::own::Chunker;
    ///
    /// let mut chunker = Chunker::new();
    /// assert_eq!(chunker.next_boundary(b"a short file"), None);
    /// assert_eq!(chunker.taken(), 12);
    /// ```
    #[must_use]
    pub fn taken(&self) -> usize {
        // SAFETY: a chunker that was begun. It has taken fewer bytes than a chunk has.
        unsafe { ffi::yurewha_chunker_taken(&self.0) as usize }
    }
}

/// A chunker at the beginning of a file.
impl Default for Chunker {
    fn default() -> Self {
        Self::new()
    }
}

/// Shows how many bytes of the chunk were taken.
impl fmt::Debug for Chunker {
    fn fmt(&self, f: &mut fmt::Formatter<'_>) -> fmt::Result {
        f.debug_struct("Chunker")
            .field("taken", &self.taken())
            .finish_non_exhaustive()
    }
}
