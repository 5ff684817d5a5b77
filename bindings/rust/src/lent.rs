//! What a call lends can't be used once that from which it is lent has changed or is gone. So each of these programs compiles, and
//! doesn't with its last two lines exchanged.

/// The data of a range, and the bytes that were read from it.
///
/// ```
/// use yurewha::merklehash::compute_data_hash;
/// use yurewha::own::RangeProof;
///
/// let chunk = (compute_data_hash(b"a chunk"), 7);
/// let range = RangeProof::from_chunks(&[chunk], 0..1)?.open_root(&chunk.0)?;
/// let data = b"a chunk".to_vec();
/// let read = range.read(0..7, &data);
/// assert_eq!(read, Some(&b"a chunk"[..]));
/// drop(data);
/// # Ok::<(), Box<dyn std::error::Error>>(())
/// ```
///
/// ```compile_fail,E0505
/// # use yurewha::merklehash::compute_data_hash;
/// # use yurewha::own::RangeProof;
/// #
/// # let chunk = (compute_data_hash(b"a chunk"), 7);
/// # let range = RangeProof::from_chunks(&[chunk], 0..1)?.open_root(&chunk.0)?;
/// # let data = b"a chunk".to_vec();
/// let read = range.read(0..7, &data);
/// drop(data);
/// assert_eq!(read, Some(&b"a chunk"[..]));
/// # Ok::<(), Box<dyn std::error::Error>>(())
/// ```
mod read {}

/// A proof, and its chunks.
///
/// ```
/// use yurewha::merklehash::MerkleHash;
/// use yurewha::own::RangeProof;
///
/// let chunk = (MerkleHash::random_from_seed(1), 7);
/// let proof = RangeProof::from_chunks(&[chunk], 0..1)?;
/// let chunks = proof.chunks();
/// assert_eq!(chunks, [chunk]);
/// drop(proof);
/// # Ok::<(), Box<dyn std::error::Error>>(())
/// ```
///
/// ```compile_fail,E0505
/// # use yurewha::merklehash::MerkleHash;
/// # use yurewha::own::RangeProof;
/// #
/// # let chunk = (MerkleHash::random_from_seed(1), 7);
/// # let proof = RangeProof::from_chunks(&[chunk], 0..1)?;
/// let chunks = proof.chunks();
/// drop(proof);
/// assert_eq!(chunks, [chunk]);
/// # Ok::<(), Box<dyn std::error::Error>>(())
/// ```
mod chunks {}

/// An opened range, and its proof.
///
/// ```
/// use yurewha::merklehash::MerkleHash;
/// use yurewha::own::RangeProof;
///
/// let chunk = (MerkleHash::random_from_seed(1), 7);
/// let range = RangeProof::from_chunks(&[chunk], 0..1)?.open_root(&chunk.0)?;
/// let proof = range.proof();
/// assert_eq!(proof.chunks(), [chunk]);
/// drop(range);
/// # Ok::<(), Box<dyn std::error::Error>>(())
/// ```
///
/// ```compile_fail,E0505
/// # use yurewha::merklehash::MerkleHash;
/// # use yurewha::own::RangeProof;
/// #
/// # let chunk = (MerkleHash::random_from_seed(1), 7);
/// # let range = RangeProof::from_chunks(&[chunk], 0..1)?.open_root(&chunk.0)?;
/// let proof = range.proof();
/// drop(range);
/// assert_eq!(proof.chunks(), [chunk]);
/// # Ok::<(), Box<dyn std::error::Error>>(())
/// ```
mod proof {}

/// A hash, and its bytes.
///
/// ```
/// use yurewha::merklehash::MerkleHash;
///
/// let mut hash = MerkleHash::random_from_seed(1);
/// let bytes = hash.as_bytes();
/// assert_eq!(bytes[0], 155);
/// hash[0] = 0;
/// # Ok::<(), Box<dyn std::error::Error>>(())
/// ```
///
/// ```compile_fail,E0502
/// # use yurewha::merklehash::MerkleHash;
/// #
/// # let mut hash = MerkleHash::random_from_seed(1);
/// let bytes = hash.as_bytes();
/// hash[0] = 0;
/// assert_eq!(bytes[0], 155);
/// # Ok::<(), Box<dyn std::error::Error>>(())
/// ```
mod bytes {}
