//! A session in serde's formats: a struct of its runs and of the hashes that it knows.

use super::Session;
use crate::error::CoreError;
use crate::forms::read_struct;
use crate::merklehash::merkle_hash_subtree::MerkleHashSubtree;
use crate::merklehash::MerkleHash;
use serde::de::{Error as _, SeqAccess, Visitor};
use serde::ser::{Error as _, SerializeSeq, SerializeStruct};
use serde::{Deserialize, Deserializer, Serialize, Serializer};
use std::fmt;

#[derive(Serialize, Deserialize)]
struct Run {
    first: u64,
    end: u64,
    chunks: MerkleHashSubtree,
}

/// Writes a struct of `runs` and `known_hashes`, in this order. A run is a struct of `first` and `end`, its first
/// position and the position after its last one, and `chunks`, the subtree of its chunks. Runs are written by rising
/// position, and hashes by rising order. So equal sessions are written equally.
///
/// ```
/// use yurewha::merklehash::MerkleHash;
/// use yurewha::own::Session;
///
/// let chunk = (MerkleHash::random_from_seed(1), 100);
/// let mut session = Session::new();
/// session.put(7, &[chunk; 2])?;
/// let mut restored: Session = serde_json::from_str(&serde_json::to_string(&session)?)?;
/// assert_eq!(restored.put(0, &[chunk; 7]), Ok(0));
/// assert!(restored.root(9).is_ok());
/// # Ok::<(), Box<dyn std::error::Error>>(())
/// ```
impl Serialize for Session {
    fn serialize<S: Serializer>(&self, serializer: S) -> Result<S::Ok, S::Error> {
        let mut hashes = self.known_hashes().map_err(S::Error::custom)?;
        hashes.sort_unstable();
        let mut form = serializer.serialize_struct("Session", 2)?;
        form.serialize_field("runs", &Runs(self))?;
        form.serialize_field("known_hashes", &hashes)?;
        form.end()
    }
}

// The runs of a session, of which one is copied at a time.
struct Runs<'a>(&'a Session);

impl Serialize for Runs<'_> {
    fn serialize<S: Serializer>(&self, serializer: S) -> Result<S::Ok, S::Error> {
        let mut runs = serializer.serialize_seq(Some(self.0.num_runs()))?;
        let mut position = 0;
        while let Some((positions, chunks)) = self.0.try_run_from(position).map_err(S::Error::custom)? {
            let (first, end) = (positions.start, positions.end);
            runs.serialize_element(&Run { first, end, chunks })?;
            position = end;
        }
        runs.end()
    }
}

/// A run that [`push_run`](Session::push_run) refuses is an error, and so is a subtree that breaks a rule of
/// [`from_json`](MerkleHashSubtree::from_json). That a run has as many chunks as positions can't be checked. Unknown
/// members are ignored. A member that is missing or occurs twice is an error, and so is an array for a struct in a
/// human-readable format.
impl<'de> Deserialize<'de> for Session {
    fn deserialize<D: Deserializer<'de>>(deserializer: D) -> Result<Self, D::Error> {
        let Parts { runs, known_hashes } = read_struct(deserializer, "Session", &["runs", "known_hashes"])?;
        let mut session = runs.0;
        session.keep_hashes(&known_hashes.0).map_err(D::Error::custom)?;
        Ok(session)
    }
}

#[derive(Deserialize)]
#[serde(rename = "Session")]
struct Parts {
    runs: Restored,
    known_hashes: Hashes,
}

// A session of runs that are read. Each is pushed at once, so that a claimed number of runs takes no memory.
struct Restored(Session);

impl<'de> Deserialize<'de> for Restored {
    fn deserialize<D: Deserializer<'de>>(deserializer: D) -> Result<Self, D::Error> {
        deserializer.deserialize_seq(RunsVisitor).map(Restored)
    }
}

struct RunsVisitor;

impl<'de> Visitor<'de> for RunsVisitor {
    type Value = Session;

    fn expecting(&self, f: &mut fmt::Formatter<'_>) -> fmt::Result {
        f.write_str("a sequence of runs as `runs`")
    }

    fn visit_seq<A: SeqAccess<'de>>(self, mut runs: A) -> Result<Session, A::Error> {
        let mut session = Session::try_new().map_err(A::Error::custom)?;
        let mut place = 0_u64;
        while let Some(ReadRun(Run { first, end, chunks })) = runs.next_element()? {
            session
                .push_run(first..end, &chunks)
                .map_err(|error| refused(place, error))?;
            place += 1;
        }
        Ok(session)
    }
}

// A run that is read.
struct ReadRun(Run);

impl<'de> Deserialize<'de> for ReadRun {
    fn deserialize<D: Deserializer<'de>>(deserializer: D) -> Result<Self, D::Error> {
        read_struct(deserializer, "Run", &["first", "end", "chunks"]).map(ReadRun)
    }
}

// The error of a run that can't be pushed. Runs are numbered from 0.
fn refused<E: serde::de::Error>(place: u64, error: CoreError) -> E {
    match error {
        CoreError::InvalidArguments => E::custom(format_args!(
            "run {place} has no position, is marked at an end, or leaves no gap after the runs before it"
        )),
        error => E::custom(format_args!("run {place}: {error}")),
    }
}

// Hashes that are read. Their memory grows with them, not with their claimed number.
struct Hashes(Vec<MerkleHash>);

impl<'de> Deserialize<'de> for Hashes {
    fn deserialize<D: Deserializer<'de>>(deserializer: D) -> Result<Self, D::Error> {
        deserializer.deserialize_seq(HashesVisitor).map(Hashes)
    }
}

struct HashesVisitor;

impl<'de> Visitor<'de> for HashesVisitor {
    type Value = Vec<MerkleHash>;

    fn expecting(&self, f: &mut fmt::Formatter<'_>) -> fmt::Result {
        f.write_str("a sequence of hashes as `known_hashes`")
    }

    fn visit_seq<A: SeqAccess<'de>>(self, mut hashes: A) -> Result<Self::Value, A::Error> {
        let mut known = Vec::new();
        while let Some(hash) = hashes.next_element()? {
            known
                .try_reserve(1)
                .map_err(|_| A::Error::custom(CoreError::OutOfMemory))?;
            known.push(hash);
        }
        Ok(known)
    }
}
