//! What the Rust crate doesn't have, and that it stands in nobody's way.

use std::hash::Hash;
use std::io;
use std::num::NonZeroUsize;
use std::ops::Range;
use yurewha::error::{CoreError, Result};
use yurewha::merklehash::{self, MerkleHash, MerkleHashSubtree as Subtree};
use yurewha::own;

type Pairs<'a> = &'a [own::Node];
type Point = Result<Option<usize>>;

#[test]
fn own_items_have_their_signatures() {
    let _: [fn(Pairs) -> Result<MerkleHash>; 2] = [own::try_xorb_hash, own::try_file_hash];
    let _: fn(Pairs, &[u8; 32]) -> Result<MerkleHash> = own::try_file_hash_with_salt;
    let _: [fn(Pairs) -> Point; 2] = [own::try_find_stable_start, own::try_find_stable_end];
    let _: fn(bool, Pairs, bool) -> Result<Subtree> = Subtree::try_from_chunks;
    let _: fn(&Subtree) -> Result<Subtree> = Subtree::try_clone;
    let _: [fn(&Subtree) -> bool; 2] = [Subtree::at_start, Subtree::at_end];
    let _: fn(&mut Subtree, &Subtree) -> Result<u64> = Subtree::merge_into_counted;
    let _: fn(&Subtree) -> u64 = Subtree::total_size;
    let _: fn(&Subtree) -> Option<MerkleHash> = Subtree::file_hash;
    let _: fn(&Subtree, &[u8; 32]) -> Option<MerkleHash> = Subtree::file_hash_with_salt;
    let _: fn(&Subtree) -> Result<MerkleHash> = Subtree::finish;
    let _: fn(&Subtree, &[u8; 32]) -> Result<MerkleHash> = Subtree::finish_with_salt;
    let _: fn(&own::Session) -> u64 = own::Session::num_chunks;
    type Finished = std::result::Result<MerkleHash, own::SessionFault>;
    let _: fn(&own::Session, u64, &[u8; 32]) -> Finished = own::Session::finish_with_salt;
    let _: fn(Pairs, Range<usize>) -> Result<own::RangeProof> = own::RangeProof::from_chunks;
    type Opened = std::result::Result<own::OpenedRange, own::OpenError>;
    let _: [fn(own::RangeProof, &MerkleHash) -> Opened; 2] = [own::RangeProof::open, own::RangeProof::open_root];
    let _: fn(own::RangeProof, &MerkleHash, &[u8; 32]) -> Opened = own::RangeProof::open_with_salt;
    let _: for<'p> fn(&'p own::RangeProof) -> Pairs<'p> = own::RangeProof::chunks;
    let _: [for<'p> fn(&'p own::RangeProof, usize) -> Pairs<'p>; 2] = [own::RangeProof::left, own::RangeProof::right];
    let _: fn(&own::RangeProof) -> Result<String> = own::RangeProof::to_json;
    let _: fn(&str) -> Result<own::RangeProof> = own::RangeProof::from_json;
    let _: fn(&own::RangeProof) -> Result<Vec<u8>> = own::RangeProof::to_bytes;
    let _: fn(&[u8]) -> Result<own::RangeProof> = own::RangeProof::from_bytes;
    let _: fn(&own::Session) -> Result<String> = own::Session::to_json;
    let _: [fn(&str) -> Result<own::Session>; 2] = [own::Session::from_json, own::Session::from_json_without_hashes];
    let _: fn(&MerkleHash, u64) -> Result<own::VerifiedReader> = own::VerifiedReader::new;
    let _: fn(&MerkleHash, &[u8; 32], u64) -> Result<own::VerifiedReader> = own::VerifiedReader::with_salt;
    let _: fn(&own::VerifiedReader, u64, &mut [u8]) -> usize = own::VerifiedReader::read;
    let _: fn(&own::VerifiedReader, Range<u64>, u64) -> Option<Range<u64>> = own::VerifiedReader::needs;
    type Part = std::result::Result<own::WantedPart, own::PartFault>;
    let _: fn(&own::VerifiedReader, &own::RangeProof, Range<u64>, u64) -> Part = own::VerifiedReader::open;
    type Taken = std::result::Result<(), own::OtherFile>;
    let _: fn(&own::VerifiedReader, own::WantedPart) -> Taken = own::VerifiedReader::take;
    type Wanted = for<'d> fn(&mut own::WantedPart, &'d [u8]) -> Option<&'d [u8]>;
    let _: [Wanted; 2] = [own::WantedPart::check, own::WantedPart::check_only];
    let _: [fn(&own::OpenedRange, usize) -> Option<u64>; 2] = [own::OpenedRange::begins, own::OpenedRange::ends];
    let _: fn(&own::OpenedRange, usize, &[u8]) -> Option<u64> = own::OpenedRange::check;
    type Read = for<'d> fn(&own::OpenedRange, Range<u64>, &'d [u8]) -> Option<&'d [u8]>;
    let _: Read = own::OpenedRange::read;
    let _: fn(Pairs) -> Result<own::HashTree> = own::HashTree::from_chunks;
    let _: fn(&own::HashTree, Range<u64>) -> Option<Range<usize>> = own::HashTree::chunks_at;
    let _: fn(&own::HashTree, Range<usize>) -> Option<Range<u64>> = own::HashTree::bytes_of;
    let _: fn(&own::HashTree, Range<usize>) -> Result<own::RangeProof> = own::HashTree::proof;
    let _: fn(&own::HashTree) -> Result<own::HashTree> = own::HashTree::try_clone;
    let _: fn(&own::HashTree, &own::HashTree) -> Option<own::Difference> = own::HashTree::diff;
    let _: fn() -> Result<own::HashIndex> = own::HashIndex::try_new;
    let _: fn(&mut own::HashIndex, Vec<own::Node>) -> Result<usize> = own::HashIndex::insert;
    let _: fn(&own::HashIndex, &MerkleHash) -> Option<u64> = own::HashIndex::get;
    let _: fn(&own::HashIndex, &MerkleHash) -> bool = own::HashIndex::contains;
    let _: fn(&own::HashIndex) -> usize = own::HashIndex::len;
    let _: fn(&own::HashIndex) -> Result<Vec<own::Node>> = own::HashIndex::entries;
    let _: fn(&own::HashIndex) -> Result<own::HashIndex> = own::HashIndex::try_clone;
    let _: fn(&own::OpenedRange) -> Result<own::OpenedRange> = own::OpenedRange::try_clone;
    let _: fn(&str) -> std::result::Result<MerkleHash, own::HexError> = own::parse_hex;
    let _: fn(io::Empty, Vec<usize>, NonZeroUsize) -> io::Result<Vec<own::Node>> = own::hash_chunks;
    let _: fn(io::Empty, NonZeroUsize) -> io::Result<MerkleHash> = own::hash_reader;
    let _: fn(&'static str, NonZeroUsize) -> io::Result<MerkleHash> = own::hash_file;
    let _: fn(&mut own::Chunker, &[u8]) -> Option<usize> = own::Chunker::next_boundary;
    let _: fn(&own::Chunker) -> usize = own::Chunker::taken;
    let _: fn() -> Result<own::FileHasher> = own::FileHasher::try_new;
    let _: for<'h> fn(&'h mut own::FileHasher, &[u8]) -> Result<&'h mut own::FileHasher> = own::FileHasher::update;
    let _: [fn(&own::FileHasher) -> Result<MerkleHash>; 2] = [own::FileHasher::root, own::FileHasher::file_hash];
    let _: fn(&own::FileHasher, &[u8; 32]) -> Result<MerkleHash> = own::FileHasher::file_hash_with_salt;
    let _: fn(&own::FileHasher) -> u64 = own::FileHasher::size;
    let _: fn(&Subtree) -> Result<String> = Subtree::to_json;
    let _: fn(&str) -> Result<Subtree> = Subtree::from_json;
}

#[test]
fn errors_and_subtrees_can_be_compared() {
    fn error<T: std::error::Error + Clone + PartialEq + Send + Sync + 'static>() {}
    error::<CoreError>();
    error::<own::HashTextError>();
    error::<own::HexError>();
    error::<own::SessionFault>();
    error::<own::OpenFault>();
    error::<own::PartFault>();
    fn error_with_a_proof<T: std::error::Error + PartialEq + Send + Sync + 'static>() {}
    error_with_a_proof::<own::OpenError>();
    error::<merklehash::DataHashHexParseError>();
    error::<merklehash::DataHashBytesParseError>();
    fn subtree<T: PartialEq + Eq>() {}
    subtree::<Subtree>();
}

#[test]
fn values_have_the_traits_of_values() {
    fn value<T: Clone + std::fmt::Debug + Send + Sync>() {}
    fn compared<T: Clone + std::fmt::Debug + Eq>() {}
    fn default<T: Default>() {}
    fn key<T: Eq + Hash>() {}
    value::<own::OpenedRange>();
    value::<own::Hasher>();
    compared::<own::HashTree>();
    compared::<own::Difference>();
    compared::<own::HashIndex>();
    fn copied<T: Copy>() {}
    copied::<own::Difference>();
    copied::<own::Chunker>();
    value::<own::Chunker>();
    default::<own::Chunker>();
    default::<own::FileHasher>();
    fn writer<T: io::Write + std::fmt::Debug + Send + Sync>() {}
    writer::<own::FileHasher>();
    key::<own::Difference>();
    compared::<own::Session>();
    compared::<own::RangeProof>();
    default::<own::Hasher>();
    default::<own::Session>();
    default::<own::HashIndex>();
    default::<Subtree>();
    key::<Subtree>();
    key::<MerkleHash>();
}

// An arm for other variants can be reached, though each variant of today has one: there may be more later.
#[deny(unreachable_patterns)]
#[test]
fn errors_may_get_more_variants() {
    let _ = |error: CoreError| match error {
        CoreError::InvalidArguments | CoreError::SizeOverflow | CoreError::OutOfMemory => 1,
        CoreError::InvalidText | CoreError::InvalidJson(_) => 2,
        CoreError::InvalidProof(_) | CoreError::InvalidSession(_) => 3,
        _ => 4,
    };
    let _ = |error: own::HashTextError| match error {
        own::HashTextError::Bytes(_) | own::HashTextError::OutOfMemory => 1,
        _ => 2,
    };
    let _ = |error: own::HexError| match error {
        own::HexError::Length(_) | own::HexError::Digit { .. } => 1,
        _ => 2,
    };
    let _ = |fault: own::SessionFault| match fault {
        own::SessionFault::Overlap | own::SessionFault::Positions | own::SessionFault::Sizes => 1,
        own::SessionFault::OutOfMemory | own::SessionFault::Gap => 2,
        own::SessionFault::InvalidArguments => 3,
        _ => 4,
    };
    let _ = |fault: own::OpenFault| match fault {
        own::OpenFault::ProofMismatch | own::OpenFault::OutOfMemory => 1,
        _ => 2,
    };
    let _ = |fault: own::PartFault| match fault {
        own::PartFault::ProofMismatch | own::PartFault::OutOfMemory => 1,
        own::PartFault::Elsewhere(_) | own::PartFault::TooFar(_) => 2,
        _ => 3,
    };
}

// Names of a user's own, each the name of an item or module of this crate that the Rust crate doesn't have. If a glob
// brought one of them in as well, its use below would be an error.
#[allow(dead_code)]
mod of_the_user {
    macro_rules! unit_structs {
        ($($name:ident)*) => { $(pub struct $name;)* };
    }
    macro_rules! constants {
        ($($name:ident)*) => { $(pub const $name: u8 = 0;)* };
    }
    macro_rules! modules {
        ($($name:ident)*) => { $(pub mod $name { pub const ONE: u8 = 1; })* };
    }
    unit_structs!(Node Session SessionFault Hasher HashTextError CoreError Result Owned);
    unit_structs!(HashTree RangeProof OpenedRange OpenError OpenFault HexError);
    unit_structs!(VerifiedReader WantedPart PartFault OtherFile Difference HashIndex Chunker FileHasher);
    pub fn parse_hex() {}
    pub fn hash_chunks() {}
    pub fn hash_file() {}
    pub fn hash_reader() {}
    pub fn chunks_of() {}
    pub fn try_xorb_hash() {}
    pub fn try_file_hash() {}
    pub fn try_file_hash_with_salt() {}
    pub fn try_find_stable_start() {}
    pub fn try_find_stable_end() {}
    constants!(DATA_KEY);
    modules!(blake3 range_proof in_form hash_index chunker file_hasher reading session own error errors forms lent_chunks hashed_write roots stable_points json_text serde);
}

// The alias is beside the modules, as in the Rust crate, not in one of them.
mod through_the_glob_of_data_hash {
    mod of_the_user {
        pub struct MerkleHash;
    }
    use of_the_user::*;
    use yurewha::merklehash::data_hash::*;

    #[test]
    fn the_users_merkle_hash_is_left_alone() {
        let _ = MerkleHash;
        assert_eq!(DataHash::default(), HMACKey::default());
    }
}

// A client's trait with names of calls that the Rust crate doesn't have. After a dot these calls come first.
mod with_a_trait_of_the_clients_own {
    use yurewha::merklehash::{DataHash, MerkleHashSubtree};

    trait Stored: Sized {
        fn to_bytes(&self) -> Vec<u8>;
        fn to_json(&self) -> String;
        fn from_json(text: &str) -> Option<Self>;
    }

    macro_rules! stored {
        ($($kind:ty)*) => { $(impl Stored for $kind {
            fn to_bytes(&self) -> Vec<u8> {
                b"of the client".to_vec()
            }
            fn to_json(&self) -> String {
                "of the client".to_owned()
            }
            fn from_json(_: &str) -> Option<Self> {
                None
            }
        })* };
    }
    stored!(DataHash MerkleHashSubtree);

    #[test]
    fn the_clients_calls_are_named_by_their_trait() {
        let (hash, empty) = (DataHash::marker(), MerkleHashSubtree::from_chunks(true, &[], true));
        assert_eq!(
            (hash.to_bytes(), Stored::to_bytes(&hash)),
            ([255; 32], b"of the client".to_vec())
        );
        assert_eq!(
            (hash.to_json(), empty.to_json().is_ok()),
            ("of the client".to_owned(), true)
        );
        assert_eq!(
            (Stored::to_json(&empty), Stored::to_bytes(&empty).len()),
            (hash.to_json(), 13)
        );
        assert_eq!(<MerkleHashSubtree as Stored>::from_json("{}"), None);
        assert!(MerkleHashSubtree::from_json("{}").is_err());
    }
}

mod through_globs {
    use super::of_the_user::*;
    #[allow(unused_imports)]
    use yurewha::merklehash::{
        aggregated_hashes::*, data_hash::*, merkle_hash_subtree::*, passthrough_hasher::*, passthrough_hashmap::*, *,
    };

    #[test]
    fn a_glob_leaves_names_of_the_user_alone() {
        let _ = (
            Node,
            Session,
            SessionFault,
            Hasher,
            HashTextError,
            CoreError,
            Result,
            Owned,
        );
        let _ = (HashTree, RangeProof, OpenedRange, OpenError, OpenFault);
        let _ = (VerifiedReader, WantedPart, PartFault, OtherFile);
        let _ = (Difference, HashIndex, Chunker, FileHasher);
        hash_file();
        hash_reader();
        chunks_of();
        try_xorb_hash();
        try_file_hash();
        try_file_hash_with_salt();
        try_find_stable_start();
        try_find_stable_end();
        let modules = [
            blake3::ONE,
            range_proof::ONE,
            in_form::ONE,
            hash_index::ONE,
            chunker::ONE,
            file_hasher::ONE,
            reading::ONE,
            session::ONE,
            own::ONE,
            error::ONE,
            errors::ONE,
            forms::ONE,
            lent_chunks::ONE,
            hashed_write::ONE,
            roots::ONE,
            stable_points::ONE,
            json_text::ONE,
            serde::ONE,
        ];
        assert_eq!(modules, [1; 18]);
        assert_eq!(DATA_KEY, 0);
    }
}
