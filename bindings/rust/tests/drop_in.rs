//! A program over each public item of the module `merklehash` of `xet-core-structures` 1.5.2.
//!
//! It is written for that crate, and the next line alone names this one.

use yurewha as xet_core_structures;

use std::collections::HashMap;
use std::fmt::{Debug, Display, LowerHex};
use std::hash::{BuildHasher, Hash, Hasher};
use std::io::{self, Write};
use std::num::ParseIntError;
use std::ops::{DerefMut, Rem};
use xet_core_structures::error::{CoreError, Result};
use xet_core_structures::merklehash as all;
use xet_core_structures::merklehash::*;

type Pairs<'a> = &'a [(MerkleHash, u64)];
type Writer = HashedWrite<Vec<u8>>;
type Salt<'a> = &'a [u8; 32];

// Each module has its items, and the module above them passes these on.
#[test]
fn modules_and_the_module_above_them_have_the_same_items() {
    let _: [fn(&[u8]) -> DataHash; 4] = [
        data_hash::compute_data_hash,
        all::compute_data_hash,
        data_hash::compute_internal_node_hash,
        all::compute_internal_node_hash,
    ];
    let _: fn(data_hash::DataHash) -> all::MerkleHash = |hash: all::DataHash| hash;
    let _: fn(data_hash::HMACKey) -> all::HMACKey = |key: all::DataHash| key;
    let _: fn(all::DataHashHexParseError) -> data_hash::DataHashHexParseError = |error| error;
    let _: fn(all::DataHashBytesParseError) -> data_hash::DataHashBytesParseError = |error| error;
    let _: [fn(Vec<u8>) -> Writer; 2] = [data_hash::HashedWrite::new, all::HashedWrite::new];
    let _: [fn(Pairs) -> MerkleHash; 4] = [
        aggregated_hashes::xorb_hash,
        all::xorb_hash,
        aggregated_hashes::file_hash,
        all::file_hash,
    ];
    let _: [fn(Pairs, Salt) -> MerkleHash; 2] = [aggregated_hashes::file_hash_with_salt, all::file_hash_with_salt];
    let _: [u64; 2] = [
        aggregated_hashes::AGGREGATED_HASHES_MEAN_TREE_BRANCHING_FACTOR,
        all::AGGREGATED_HASHES_MEAN_TREE_BRANCHING_FACTOR,
    ];
    let _: [fn(Pairs) -> Option<usize>; 4] = [
        merkle_hash_subtree::find_stable_start,
        all::find_stable_start,
        merkle_hash_subtree::find_stable_end,
        all::find_stable_end,
    ];
    let _: fn(merkle_hash_subtree::MerkleHashSubtree) -> all::MerkleHashSubtree = |subtree| subtree;
    let _: [fn() -> U64DirectHasher<u64>; 2] = [
        passthrough_hasher::U64DirectHasher::default,
        all::U64DirectHasher::default,
    ];
    let _: [fn(&DataHash) -> u64; 2] = [
        passthrough_hasher::U64HashExtractable::u64_hash_value,
        all::U64HashExtractable::u64_hash_value,
    ];
    let _: [fn() -> PassThroughHashMap<u64, u8>; 2] = [
        passthrough_hashmap::PassThroughHashMap::new,
        all::PassThroughHashMap::new,
    ];
}

fn hash_traits<T>()
where
    T: Copy + Default + Ord + Hash + DerefMut<Target = [u64; 4]> + Debug + Display + LowerHex,
    T: From<[u64; 4]> + From<[u8; 32]> + for<'a> From<&'a [u8; 32]> + Into<[u8; 32]> + Into<Vec<u8>>,
    T: for<'a> TryFrom<&'a [u8], Error = DataHashBytesParseError> + AsRef<[u8]> + AsRef<T> + Rem<u64, Output = u64>,
    T: Send + Sync + Unpin,
    for<'a> Vec<u8>: From<&'a T>,
{
}

fn hasher_traits<T: Copy + Default + Hasher + BuildHasher<Hasher = T>>() {}

fn map_traits<T>()
where
    T: Clone + Debug + Default + FromIterator<(u64, u8)> + IntoIterator<Item = (u64, u8)>,
    T: DerefMut<Target = HashMap<u64, u8, U64DirectHasher<u64>>>,
    T: From<HashMap<u64, u8, U64DirectHasher<u64>>> + From<[(u64, u8); 2]>,
    HashMap<u64, u8, U64DirectHasher<u64>>: From<T>,
{
}

fn error_traits<T: std::error::Error + Clone + Debug + Send + Sync + 'static>() {}

#[test]
fn types_have_their_traits() {
    hash_traits::<DataHash>();
    hasher_traits::<U64DirectHasher<DataHash>>();
    map_traits::<PassThroughHashMap<u64, u8>>();
    fn writer<T: Write>() {}
    writer::<HashedWrite<Vec<u8>>>();
    fn subtree<T: Clone + Debug + Send + Sync>() {}
    subtree::<MerkleHashSubtree>();
    fn error<T: std::error::Error + Send + Sync + 'static>() {}
    error::<CoreError>();
    error_traits::<DataHashHexParseError>();
    error_traits::<DataHashBytesParseError>();
}

// The digits of a word.
fn word(digits: &str) -> std::result::Result<u64, DataHashHexParseError> {
    let parsed: std::result::Result<u64, ParseIntError> = u64::from_str_radix(digits, 16);
    Ok(parsed?)
}

#[test]
fn a_client_uses_each_form_of_a_hash() -> std::result::Result<(), Box<dyn std::error::Error>> {
    let hash = DataHash::random_from_seed(1);
    let words: [u64; 4] = *hash;
    assert_eq!(DataHash::from(words), hash);
    assert_eq!(word(&hash.hex()[..16])?, hash[0]);
    assert!(matches!(word("+-"), Err(DataHashHexParseError)));
    assert_eq!(DataHash::from_hex(&hash.hex())?, hash);
    assert_eq!(DataHash::from_base64(&hash.base64())?, hash);
    assert_eq!(DataHash::from_slice(hash.as_bytes())?, hash);
    assert_eq!(DataHash::try_from(AsRef::<[u8]>::as_ref(&hash))?, hash);
    let bytes: [u8; 32] = hash.into();
    assert_eq!((DataHash::from(bytes), DataHash::from(&bytes)), (hash, hash));
    assert_eq!(
        (Vec::<u8>::from(hash), Vec::<u8>::from(&hash)),
        (bytes.to_vec(), bytes.to_vec())
    );
    assert_eq!(
        (format!("{hash}"), format!("{hash:x}"), format!("{hash:?}")),
        (hash.hex(), hash.hex(), hash.hex())
    );
    assert_eq!(hash % 4, hash[3] % 4);
    assert_eq!(hash.hmac(HMACKey::default()), file_hash(&[(hash, 1)]));
    assert!(hash < DataHash::marker() && hash > DataHash::default());
    let mut other = hash;
    other[0] += 1;
    assert!(other > hash);
    Ok(())
}

#[test]
fn a_client_hashes_what_it_writes() -> io::Result<()> {
    let mut writer = HashedWrite::new(Vec::new());
    writer.write_all(b"some data")?;
    writer.flush()?;
    assert_eq!(writer.hash(), compute_data_hash(b"some data"));
    assert_eq!(writer.into_inner(), b"some data");
    Ok(())
}

#[test]
fn a_client_merges_ranges() -> Result<()> {
    let chunks: Vec<(MerkleHash, u64)> = (0..100)
        .map(|seed| (MerkleHash::random_from_seed(seed), seed))
        .collect();
    let mut file = MerkleHashSubtree::from_chunks(true, &chunks[..40], false);
    let rest = MerkleHashSubtree::from_chunks(false, &chunks[40..], true);
    assert_eq!(rest.merge_into_refused(&file), CoreError::InvalidArguments);
    let whole = MerkleHashSubtree::merge(&[file.clone(), rest.clone()])?;
    file.merge_into(&rest)?;
    assert_eq!(file.final_hash(), Some(xorb_hash(&chunks)));
    assert_eq!(whole.final_hash(), file.final_hash());
    assert!(file.num_nodes() == 1 && file.num_levels() > 1 && !file.is_empty());
    assert_eq!(file_hash_with_salt(&chunks, &[0; 32]), file_hash(&chunks));
    assert!(find_stable_start(&chunks) <= find_stable_end(&chunks));
    assert!(format!("{file:?}").starts_with("MerkleHashSubtree"));
    Ok(())
}

trait Refused {
    fn merge_into_refused(&self, other: &Self) -> CoreError;
}

impl Refused for MerkleHashSubtree {
    fn merge_into_refused(&self, other: &Self) -> CoreError {
        self.clone().merge_into(other).unwrap_err()
    }
}

// A key of the client's own.
#[derive(PartialEq, Eq)]
struct Key(DataHash, u8);

impl Hash for Key {
    fn hash<H: Hasher>(&self, state: &mut H) {
        state.write_u64(self.u64_hash_value());
    }
}

impl U64HashExtractable for Key {
    fn u64_hash_value(&self) -> u64 {
        self.0.u64_hash_value()
    }
}

#[test]
fn a_client_looks_chunks_up() {
    let hash = DataHash::random_from_seed(1);
    let mut map = PassThroughHashMap::with_capacity(2);
    map.insert(Key(hash, 1), "one");
    map.insert(Key(hash, 2), "two");
    assert_eq!((map.len(), map.get(&Key(hash, 2))), (2, Some(&"two")));
    let counts: PassThroughHashMap<u64, u8> = [(1, 2), (3, 4)].into_iter().collect();
    let inner: HashMap<u64, u8, U64DirectHasher<u64>> = counts.clone().into();
    assert_eq!(*PassThroughHashMap::from(inner), *counts);
    assert_eq!(
        PassThroughHashMap::from([(1, 2), (3, 4)])
            .into_iter()
            .map(|(_, value)| value)
            .sum::<u8>(),
        6
    );
    assert!(PassThroughHashMap::<u64, u8>::default().is_empty());
}

#[test]
fn a_client_walks_over_a_map() {
    let mut sizes = PassThroughHashMap::from([(DataHash::marker(), 3u64)]);
    for (_, size) in sizes.iter_mut() {
        *size += 1;
    }
    for (hash, size) in sizes.iter() {
        assert_eq!((*hash, *size), (DataHash::marker(), 4));
    }
    *sizes.entry(DataHash::default()).or_insert(0) += 5;
    assert_eq!(sizes.values().sum::<u64>(), 9);
}

#[test]
fn a_client_hashes_keys_by_their_numbers() {
    let mut hasher = U64DirectHasher::<u64>::default().build_hasher();
    hasher.write_u64(7);
    assert_eq!(hasher.finish(), 7);
    hasher.write(&8u64.to_le_bytes());
    assert_eq!(hasher.finish(), 8);
    assert_eq!(U64DirectHasher::<u64>::default().hash_one(7u64), 7);
}

#[test]
fn a_client_tells_what_was_wrong() {
    let texts = [
        DataHash::from_hex("g").unwrap_err().to_string(),
        DataHash::from_base64("?").unwrap_err().to_string(),
        DataHash::from_slice(&[1]).unwrap_err().to_string(),
        CoreError::InvalidArguments.to_string(),
    ];
    assert!(texts.iter().all(|text| !text.is_empty()));
}

mod with_serde {
    use super::*;
    use serde::{Deserialize, Serialize};

    #[derive(Serialize, Deserialize)]
    struct Report {
        #[serde(with = "data_hash::hex::serde")]
        file: MerkleHash,
        #[serde(with = "hex::serde")]
        xorb: MerkleHash,
        salt: DataHash,
        range: MerkleHashSubtree,
        sizes: PassThroughHashMap<MerkleHash, u64>,
        hasher: U64DirectHasher<MerkleHash>,
    }

    #[test]
    fn a_client_calls_what_serde_calls() -> std::result::Result<(), serde_json::Error> {
        let hash = DataHash::random_from_seed(1);
        let text = data_hash::hex::serde::serialize(&hash, serde_json::value::Serializer)?;
        assert_eq!(text, hash.hex());
        assert_eq!(data_hash::hex::serde::deserialize(text)?, hash);
        assert_eq!(serde_json::to_value(hash)?, serde_json::json!(*hash));
        Ok(())
    }

    #[test]
    fn a_client_sends_a_report() {
        let chunks = [1, 2, 3].map(|seed| (MerkleHash::random_from_seed(seed), seed));
        let report = Report {
            file: file_hash(&chunks),
            xorb: xorb_hash(&chunks),
            salt: DataHash::default(),
            range: MerkleHashSubtree::from_chunks(false, &chunks, false),
            sizes: chunks.into_iter().collect(),
            hasher: U64DirectHasher::default(),
        };
        let text = serde_json::to_string(&report).unwrap();
        let read: Report = serde_json::from_str(&text).unwrap();
        assert_eq!(
            (read.file, read.xorb, read.salt),
            (report.file, report.xorb, report.salt)
        );
        assert_eq!(*read.sizes, *report.sizes);
        assert_eq!(
            serde_json::to_string(&read.range).unwrap(),
            serde_json::to_string(&report.range).unwrap()
        );
    }
}

#[test]
fn a_client_casts_hashes() {
    let words = [1u64, 2, 3, 4, 5, 6, 7, 8];
    let hashes: &[DataHash] = bytemuck::cast_slice(&words);
    assert_eq!(*hashes[1], [5, 6, 7, 8]);
    assert_eq!(bytemuck::bytes_of(&hashes[0]), hashes[0].as_bytes());
    assert_eq!(<DataHash as bytemuck::Zeroable>::zeroed(), DataHash::default());
}
