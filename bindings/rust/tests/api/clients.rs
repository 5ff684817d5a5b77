//! Small programs of clients of `xet-core-structures` 1.5.2. They are written for that crate, and only the next line names
//! this one.

use yurewha as xet_core_structures;

use std::collections::hash_map::Entry;
use std::collections::{BTreeMap, BTreeSet, HashMap, HashSet};
use std::error::Error;
use std::fmt::{self, Display};
use std::fs::{self, File};
use std::hash::{BuildHasher, Hash, Hasher};
use std::io::{self, BufWriter, Cursor, Read, Seek, SeekFrom, Write};
use std::path::{Path, PathBuf};
use std::sync::{mpsc, Arc};
use std::{env, process, thread};
use xet_core_structures::error::{CoreError, Result};
use xet_core_structures::merklehash::passthrough_hasher::{U64DirectHasher, U64HashExtractable};
use xet_core_structures::merklehash::*;

type Failure = Box<dyn Error + Send + Sync>;

fn chunks(seeds: std::ops::Range<u64>) -> Vec<(MerkleHash, u64)> {
    seeds
        .map(|seed| (MerkleHash::random_from_seed(seed), 1000 + seed))
        .collect()
}

mod hashes {
    use super::*;

    #[test]
    fn name_a_chunk() {
        let hash = compute_data_hash(b"abc");
        let path = format!("chunks/{hash}");
        assert_eq!(path, format!("chunks/{}", hash.hex()));
        assert_eq!(format!("{hash:x}"), format!("{hash:?}"));
        assert_eq!(path.len(), 7 + 64);
    }

    #[test]
    fn read_names_of_a_listing() -> std::result::Result<(), DataHashHexParseError> {
        let listing = [1, 2, 3].map(|seed| DataHash::random_from_seed(seed).hex()).join("\n");
        let hashes: std::result::Result<Vec<_>, _> = listing.lines().map(MerkleHash::from_hex).collect();
        assert_eq!(hashes?[2], MerkleHash::random_from_seed(3));
        assert!(MerkleHash::from_hex(&listing).is_err());
        Ok(())
    }

    #[test]
    fn put_a_hash_into_an_address() -> std::result::Result<(), DataHashBytesParseError> {
        let hash = DataHash::random_from_seed(4);
        let address = format!("https://host/{}", hash.base64());
        let (_, text) = address.rsplit_once('/').unwrap();
        assert_eq!(DataHash::from_base64(text)?, hash);
        Ok(())
    }

    #[test]
    fn read_a_footer() -> std::result::Result<(), Failure> {
        let (hash, mut file) = (DataHash::random_from_seed(5), Cursor::new(Vec::new()));
        file.write_all(b"content")?;
        file.write_all(hash.as_bytes())?;
        file.seek(SeekFrom::End(-32))?;
        let mut footer = [0; 32];
        file.read_exact(&mut footer)?;
        assert_eq!(DataHash::from(footer), hash);
        assert_eq!(DataHash::from(&footer), DataHash::try_from(&footer[..])?);
        assert_eq!(DataHash::from_slice(&file.get_ref()[7..])?, hash);
        Ok(())
    }

    #[test]
    fn write_a_header() {
        let hash = DataHash::random_from_seed(6);
        let mut header = b"MAGIC".to_vec();
        header.extend(Vec::<u8>::from(hash));
        header.extend_from_slice(&<[u8; 32]>::from(hash));
        header.extend_from_slice(AsRef::<[u8]>::as_ref(&hash));
        assert_eq!(header.len(), 5 + 3 * 32);
        assert_eq!(header[5..37], Vec::from(&hash));
    }

    #[test]
    fn sort_and_search() {
        let mut hashes: Vec<_> = (0..100).map(MerkleHash::random_from_seed).collect();
        hashes.sort_unstable();
        let wanted = MerkleHash::random_from_seed(50);
        let place = hashes.binary_search(&wanted).unwrap();
        assert!(hashes[..place]
            .iter()
            .all(|hash| *hash < wanted && hash.hex() < wanted.hex()));
        assert_eq!(hashes.iter().max(), hashes.last());
    }

    #[test]
    fn keep_sets_of_hashes() {
        let all: Vec<_> = [1, 2, 1].map(MerkleHash::random_from_seed).into();
        let set: HashSet<_> = all.iter().copied().collect();
        let ordered: BTreeSet<_> = all.iter().collect();
        let mut counts: HashMap<MerkleHash, usize> = HashMap::new();
        all.iter().for_each(|hash| *counts.entry(*hash).or_default() += 1);
        let names: BTreeMap<_, _> = counts.iter().map(|(hash, count)| (hash.hex(), count)).collect();
        assert_eq!((set.len(), ordered.len(), names[&all[0].hex()]), (2, 2, &2));
    }

    #[test]
    fn choose_a_shard() {
        let mut shards = [0; 7];
        (0..700).for_each(|seed| shards[(MerkleHash::random_from_seed(seed) % 7) as usize] += 1);
        assert!(shards.iter().all(|&count| count > 50));
    }

    #[test]
    fn hide_hashes_under_a_key() {
        let key: HMACKey = DataHash::random_from_seed(9);
        let hidden: Vec<_> = chunks(0..3).iter().map(|(hash, _)| hash.hmac(key)).collect();
        assert!(hidden.iter().all(|hash| *hash != MerkleHash::default()));
        assert_eq!(hidden[0], MerkleHash::random_from_seed(0).hmac(key));
    }

    #[test]
    fn end_a_table_with_the_marker() {
        let table: Vec<_> = chunks(0..4)
            .into_iter()
            .map(|(hash, _)| hash)
            .chain([MerkleHash::marker()])
            .collect();
        let count = table.iter().take_while(|hash| **hash != MerkleHash::marker()).count();
        assert_eq!((count, *table[4]), (4, [u64::MAX; 4]));
    }

    #[test]
    fn look_at_words() {
        let mut hash = MerkleHash::from([1, 2, 3, 4]);
        hash[3] ^= 4;
        let [first, .., last] = *hash;
        assert_eq!((first, last, hash.iter().sum::<u64>()), (1, 0, 6));
        assert_eq!(hash % 4, 0);
    }

    #[cfg(feature = "bytemuck")]
    #[test]
    fn map_a_table_of_hashes() {
        let hashes: Vec<_> = (0..4).map(MerkleHash::random_from_seed).collect();
        let bytes: &[u8] = bytemuck::cast_slice(&hashes);
        let words: &[u64] = bytemuck::cast_slice(bytes);
        assert_eq!(bytemuck::cast_slice::<u64, MerkleHash>(words), hashes);
        assert_eq!(bytemuck::pod_read_unaligned::<DataHash>(&bytes[32..64]), hashes[1]);
    }

    fn described<T: AsRef<[u8]> + Into<[u8; 32]> + Display + Copy>(value: T) -> String {
        let bytes: [u8; 32] = value.into();
        assert_eq!(value.as_ref(), bytes);
        format!("{value}: {} bytes", bytes.len())
    }

    #[test]
    fn take_a_hash_for_any_bytes() {
        assert!(described(DataHash::default()).ends_with(": 32 bytes"));
    }

    fn first_word(line: &str) -> std::result::Result<u64, DataHashHexParseError> {
        Ok(u64::from_str_radix(line.get(..16).unwrap_or("short"), 16)?)
    }

    struct Tag(String);

    impl From<DataHash> for Tag {
        fn from(hash: DataHash) -> Tag {
            Tag(hash.base64())
        }
    }

    impl PartialEq<DataHash> for Tag {
        fn eq(&self, hash: &DataHash) -> bool {
            self.0 == hash.base64()
        }
    }

    trait ObjectPath: Display {
        fn object_path(&self, root: &Path) -> PathBuf {
            let name = self.to_string();
            root.join(&name[..2]).join(&name[2..])
        }
    }

    impl ObjectPath for MerkleHash {}

    trait Checksum: AsRef<[u8]> {
        fn checksum(&self) -> u32 {
            self.as_ref().iter().map(|byte| u32::from(*byte)).sum()
        }
    }

    impl<T: AsRef<[u8]>> Checksum for T {}

    #[test]
    fn give_a_hash_traits_of_ones_own() {
        let hash = MerkleHash::random_from_seed(1);
        let tag = Tag::from(hash);
        assert!(tag == hash);
        assert!(hash.object_path(Path::new("store")).starts_with("store/cf"));
        assert_eq!(MerkleHash::from([0x0102, 0, 0, 3]).checksum(), 6);
    }

    #[test]
    fn pass_errors_on() {
        let read = |line: &str| -> std::result::Result<u64, Failure> {
            let hash = MerkleHash::from_hex(line)?;
            Ok(first_word(&hash.hex())?)
        };
        assert_eq!(read(&"1".repeat(64)).unwrap(), 0x1111_1111_1111_1111);
        assert!(!read("no hash").unwrap_err().to_string().is_empty());
        assert!(first_word("").is_err());
    }

    #[cfg(feature = "serde")]
    #[test]
    fn write_a_borrowed_hash() -> std::result::Result<(), serde_json::Error> {
        #[derive(serde::Serialize)]
        struct Line<'a>(#[serde(with = "hex::serde")] &'a MerkleHash);
        let hash = MerkleHash::marker();
        assert_eq!(serde_json::to_string(&Line(&hash))?, format!("\"{hash}\""));
        Ok(())
    }
}

mod writing {
    use super::*;

    #[test]
    fn hash_a_copied_stream() -> io::Result<()> {
        let data: Vec<u8> = (0..100_000_u32).map(|number| number as u8).collect();
        let mut writer = HashedWrite::new(Vec::new());
        io::copy(&mut &data[..], &mut writer)?;
        assert_eq!(writer.hash(), compute_data_hash(&data));
        assert_eq!(writer.into_inner(), data);
        Ok(())
    }

    #[test]
    fn hash_a_file_as_it_is_written() -> io::Result<()> {
        let path = env::temp_dir().join(format!("yurewha-client-{}", process::id()));
        let file = File::options().read(true).write(true).create_new(true).open(&path)?;
        fs::remove_file(&path)?;
        let mut writer = HashedWrite::new(file);
        ["a", "", "bc"]
            .iter()
            .try_for_each(|part| writer.write_all(part.as_bytes()))?;
        writer.flush()?;
        let (hash, mut file, mut read) = (writer.hash(), writer.into_inner(), Vec::new());
        file.seek(SeekFrom::Start(0))?;
        file.read_to_end(&mut read)?;
        assert_eq!((compute_data_hash(&read), &read[..]), (hash, &b"abc"[..]));
        Ok(())
    }

    struct Upload<W: Write> {
        body: HashedWrite<W>,
    }

    impl<W: Write> Upload<W> {
        fn finish(self) -> (MerkleHash, W) {
            (self.body.hash(), self.body.into_inner())
        }
    }

    #[test]
    fn hash_what_goes_to_any_writer() -> io::Result<()> {
        let mut upload = Upload {
            body: HashedWrite::new(HashedWrite::new(Vec::new())),
        };
        let writer: &mut dyn Write = &mut upload.body;
        writeln!(writer, "a line")?;
        let (hash, inner) = upload.finish();
        assert_eq!((hash, hash), (inner.hash(), compute_data_hash(&inner.into_inner())));
        let mut boxed: Box<dyn Write + Send> = Box::new(HashedWrite::new(io::sink()));
        assert_eq!(boxed.write(b"abc")?, 3);
        Ok(())
    }

    #[test]
    fn hash_behind_a_buffer() -> io::Result<()> {
        let mut writer = BufWriter::new(HashedWrite::new(Vec::new()));
        (0..10).try_for_each(|number| writeln!(writer, "line {number}"))?;
        writer.flush()?;
        assert_eq!(
            writer.get_ref().hash(),
            compute_data_hash(&writer.into_inner()?.into_inner())
        );
        Ok(())
    }
}

mod roots {
    use super::*;

    struct Segment {
        hash: MerkleHash,
        bytes: u32,
    }

    #[test]
    fn name_a_xorb() {
        let segments: Vec<_> = chunks(0..70)
            .into_iter()
            .map(|(hash, bytes)| Segment {
                hash,
                bytes: bytes as u32,
            })
            .collect();
        let pairs: Vec<_> = segments.iter().map(|it| (it.hash, u64::from(it.bytes))).collect();
        assert_eq!(xorb_hash(&pairs), xorb_hash(&chunks(0..70)));
        assert_eq!(xorb_hash(&[]), MerkleHash::default());
    }

    #[test]
    fn name_a_file() {
        let chunks = chunks(0..70);
        let (plain, salted) = (file_hash(&chunks), file_hash_with_salt(&chunks, &[7; 32]));
        assert_eq!(plain, xorb_hash(&chunks).hmac([0; 32].into()));
        assert_eq!(salted, xorb_hash(&chunks).hmac([7; 32].into()));
    }

    #[test]
    fn check_a_parent() {
        let pair = chunks(0..2);
        let text: String = pair.iter().map(|(hash, size)| format!("{hash:x} : {size}\n")).collect();
        assert_eq!(compute_internal_node_hash(text.as_bytes()), xorb_hash(&pair));
        assert_eq!(AGGREGATED_HASHES_MEAN_TREE_BRANCHING_FACTOR, 4);
    }
}

mod subtrees {
    use super::*;

    // The subtrees of the parts of a file.
    fn parts(chunks: &[(MerkleHash, u64)], length: usize) -> Vec<MerkleHashSubtree> {
        let count = chunks.chunks(length).len();
        let part = |(index, part): (usize, &[_])| MerkleHashSubtree::from_chunks(index == 0, part, index + 1 == count);
        chunks.chunks(length).enumerate().map(part).collect()
    }

    #[test]
    fn append_part_by_part() -> Result<()> {
        let chunks = chunks(0..500);
        let mut whole = MerkleHashSubtree::from_chunks(true, &[], false);
        for part in chunks.chunks(64) {
            whole.merge_into(&MerkleHashSubtree::from_chunks(false, part, false))?;
        }
        assert_eq!(whole.final_hash(), None);
        whole.merge_into(&MerkleHashSubtree::from_chunks(false, &[], true))?;
        assert_eq!(whole.final_hash(), Some(xorb_hash(&chunks)));
        assert!(whole.num_levels() > 1 && whole.num_nodes() == 1 && !whole.is_empty());
        Ok(())
    }

    #[test]
    fn merge_parts_of_threads() -> Result<()> {
        let chunks = chunks(0..500);
        let ranges: Vec<MerkleHashSubtree> = thread::scope(|scope| {
            let range =
                |(index, part)| scope.spawn(move || MerkleHashSubtree::from_chunks(index == 0, part, index == 4));
            let threads: Vec<_> = chunks.chunks(100).enumerate().map(range).collect();
            threads.into_iter().map(|thread| thread.join().unwrap()).collect()
        });
        assert_eq!(
            MerkleHashSubtree::merge(&ranges)?.final_hash(),
            Some(xorb_hash(&chunks))
        );
        Ok(())
    }

    #[test]
    fn tell_ranges_that_do_not_fit() {
        let ranges = parts(&chunks(0..60), 20);
        let swapped = [ranges[1].clone(), ranges[0].clone()];
        match MerkleHashSubtree::merge(&swapped) {
            Err(CoreError::InvalidArguments) => {}
            other => panic!("{other:?}"),
        }
        let mut last = ranges[2].clone();
        assert!(matches!(last.merge_into(&ranges[1]), Err(CoreError::InvalidArguments)));
        assert_eq!(format!("{last:?}"), format!("{:?}", ranges[2]));
    }

    #[derive(Debug)]
    enum Refused {
        Ranges(CoreError),
        Name(DataHashHexParseError),
    }

    impl Display for Refused {
        fn fmt(&self, f: &mut fmt::Formatter<'_>) -> fmt::Result {
            match self {
                Refused::Ranges(error) => write!(f, "ranges: {error}"),
                Refused::Name(error) => write!(f, "name: {error}"),
            }
        }
    }

    impl Error for Refused {
        fn source(&self) -> Option<&(dyn Error + 'static)> {
            match self {
                Refused::Ranges(error) => Some(error),
                Refused::Name(error) => Some(error),
            }
        }
    }

    impl From<CoreError> for Refused {
        fn from(error: CoreError) -> Refused {
            Refused::Ranges(error)
        }
    }

    impl From<DataHashHexParseError> for Refused {
        fn from(error: DataHashHexParseError) -> Refused {
            Refused::Name(error)
        }
    }

    fn check(ranges: &[MerkleHashSubtree], name: &str) -> std::result::Result<bool, Refused> {
        let wanted = MerkleHash::from_hex(name)?;
        Ok(MerkleHashSubtree::merge(ranges)?.final_hash() == Some(wanted))
    }

    #[test]
    fn pass_errors_on_as_ones_own() {
        let ranges = parts(&chunks(0..60), 20);
        assert!(check(&ranges, &xorb_hash(&chunks(0..60)).hex()).unwrap());
        let name = check(&ranges, "no name").unwrap_err();
        assert!(matches!(&name, Refused::Name(_)) && name.source().is_some());
        let marks = check(&ranges[1..], &"0".repeat(64));
        assert!(!marks.unwrap());
        let twice = check(&[ranges[2].clone(), ranges[2].clone()], &"0".repeat(64)).unwrap_err();
        assert!(twice.source().unwrap().is::<CoreError>() && twice.to_string().len() > "ranges: ".len());
    }

    #[test]
    fn send_ranges_over_a_channel() {
        let chunks = chunks(0..400);
        let (sender, receiver) = mpsc::channel();
        thread::scope(|scope| {
            for (place, part) in chunks.chunks(100).enumerate() {
                let sender = sender.clone();
                scope.spawn(move || {
                    let range = MerkleHashSubtree::from_chunks(place == 0, part, place == 3);
                    sender.send((place, range)).unwrap();
                });
            }
        });
        drop(sender);
        let ranges: BTreeMap<usize, MerkleHashSubtree> = receiver.into_iter().collect();
        let whole = MerkleHashSubtree::merge(&ranges.into_values().collect::<Vec<_>>()).unwrap();
        let shared = Arc::new(whole);
        let reader = thread::spawn({
            let shared = Arc::clone(&shared);
            move || shared.final_hash()
        });
        assert_eq!(reader.join().unwrap(), Some(xorb_hash(&chunks)));
    }

    #[test]
    fn find_where_groups_end_for_sure() {
        let chunks = chunks(0..200);
        let (Some(start), Some(end)) = (find_stable_start(&chunks), find_stable_end(&chunks)) else {
            panic!("200 chunks have a stable point");
        };
        assert!(start <= end && end < chunks.len());
        assert_eq!(find_stable_start(&chunks[..2]), None);
    }

    #[cfg(feature = "serde")]
    #[test]
    fn send_a_range_as_json() -> std::result::Result<(), serde_json::Error> {
        let range = MerkleHashSubtree::from_chunks(false, &chunks(0..100), false);
        let text = serde_json::to_string(&range)?;
        let read: MerkleHashSubtree = serde_json::from_str(&text)?;
        assert_eq!(serde_json::to_string(&read)?, text);
        assert_eq!(read.num_nodes(), range.num_nodes());
        Ok(())
    }

    #[cfg(feature = "serde")]
    #[test]
    fn store_ranges_in_bytes() -> bincode::Result<()> {
        let ranges = parts(&chunks(0..100), 30);
        let read: Vec<MerkleHashSubtree> = bincode::deserialize(&bincode::serialize(&ranges)?)?;
        let whole = MerkleHashSubtree::merge(&read).unwrap();
        assert_eq!(whole.final_hash(), Some(xorb_hash(&chunks(0..100))));
        Ok(())
    }
}

mod maps {
    use super::*;

    #[test]
    fn count_bytes_that_are_new() {
        let mut seen = PassThroughHashMap::with_capacity(10);
        let mut fresh = 0;
        for (hash, size) in chunks(0..10).into_iter().chain(chunks(5..15)) {
            seen.entry(hash).or_insert_with(|| {
                fresh += size;
                size
            });
        }
        assert_eq!((seen.len(), fresh), (15, seen.values().sum()));
        assert!(seen.contains_key(&MerkleHash::random_from_seed(14)) && !seen.is_empty());
    }

    #[test]
    fn change_a_map_through_the_one_inside() {
        let mut map: PassThroughHashMap<MerkleHash, u64> = chunks(0..10).into_iter().collect();
        map.extend(chunks(8..12));
        map.retain(|_, size| *size % 2 == 0);
        assert_eq!(map.remove(&MerkleHash::random_from_seed(2)), Some(1002));
        map.iter_mut().for_each(|(_, size)| *size += 1);
        let sum: u64 = map.drain().map(|(_, size)| size).sum();
        assert_eq!(sum, [1000, 1004, 1006, 1008, 1010].iter().sum::<u64>() + 5);
    }

    #[test]
    fn hand_a_map_to_a_call_for_plain_maps() {
        fn total<S: BuildHasher>(sizes: &HashMap<MerkleHash, u64, S>) -> u64 {
            sizes.values().sum()
        }
        let map = PassThroughHashMap::from([(MerkleHash::marker(), 4), (MerkleHash::default(), 3)]);
        assert_eq!(total(&map), 7);
        let inside: HashMap<_, _, _> = map.clone().into();
        assert_eq!(PassThroughHashMap::from(inside).into_iter().count(), 2);
    }

    #[test]
    fn hash_keys_of_a_plain_map_directly() {
        let mut map: HashMap<u64, &str, U64DirectHasher<u64>> = HashMap::with_hasher(Default::default());
        map.insert(7, "seven");
        assert_eq!((map[&7], map.hasher().hash_one(9_u64)), ("seven", 9));
    }

    #[test]
    fn keep_a_set_of_keys() {
        let mut seen: HashSet<MerkleHash, U64DirectHasher<MerkleHash>> = HashSet::default();
        assert!(chunks(0..10).iter().all(|(hash, _)| seen.insert(*hash)));
        assert!(!seen.insert(MerkleHash::random_from_seed(9)));
    }

    #[derive(Clone, Debug, Default)]
    struct Index {
        places: PassThroughHashMap<MerkleHash, Vec<usize>>,
    }

    impl Index {
        // Whether the hash is new.
        fn add(&mut self, hash: MerkleHash, place: usize) -> bool {
            match self.places.entry(hash) {
                Entry::Occupied(mut places) => {
                    places.get_mut().push(place);
                    false
                }
                Entry::Vacant(places) => {
                    places.insert(vec![place]);
                    true
                }
            }
        }
    }

    #[test]
    fn keep_a_map_in_a_type_of_ones_own() {
        let mut index = Index::default();
        let fresh = (0..10).filter(|place| index.add(MerkleHash::random_from_seed(*place as u64 % 4), *place));
        assert_eq!(fresh.count(), 4);
        let copy = index.clone();
        index.places.remove(&MerkleHash::random_from_seed(0));
        assert_eq!((index.places.len(), copy.places.len()), (3, 4));
        assert_eq!(copy.places[&MerkleHash::random_from_seed(1)], [1, 5, 9]);
        assert!(format!("{index:?}").starts_with("Index"));
    }

    #[derive(Clone, PartialEq, Eq, Debug)]
    struct Place {
        xorb: MerkleHash,
        index: u32,
    }

    impl Hash for Place {
        fn hash<H: Hasher>(&self, state: &mut H) {
            state.write_u64(self.u64_hash_value());
        }
    }

    impl U64HashExtractable for Place {
        fn u64_hash_value(&self) -> u64 {
            self.xorb.u64_hash_value() ^ u64::from(self.index)
        }
    }

    #[test]
    fn look_up_keys_of_ones_own() {
        let place = |index| Place {
            xorb: MerkleHash::random_from_seed(1),
            index,
        };
        let map: PassThroughHashMap<Place, u32> = (0..9).map(|index| (place(index), index)).collect();
        assert_eq!((map.get(&place(4)), map.get(&place(9))), (Some(&4), None));
    }

    #[cfg(feature = "serde")]
    #[test]
    fn report_names_and_sizes() -> std::result::Result<(), serde_json::Error> {
        #[derive(serde::Serialize, serde::Deserialize)]
        struct Report {
            #[serde(with = "data_hash::hex::serde")]
            file: MerkleHash,
            words: MerkleHash,
            sizes: PassThroughHashMap<MerkleHash, u64>,
        }
        let chunks = chunks(0..3);
        let sizes = chunks.iter().copied().collect();
        let (file, words) = (file_hash(&chunks), xorb_hash(&chunks));
        let text = serde_json::to_string(&Report { file, words, sizes })?;
        assert!(text.starts_with(&format!(r#"{{"file":"{file}","words":[{},"#, words[0])));
        let read: Report = serde_json::from_str(&text)?;
        assert_eq!((read.file, read.words, read.sizes.len()), (file, words, 3));
        Ok(())
    }
}

mod forks {
    use super::*;

    /// What README says that a fork of xet-core needs, so that its `?` takes errors of this crate.
    #[test]
    fn take_errors_by_a_question_mark() {
        enum ForksError {
            Other(String),
        }

        impl From<CoreError> for ForksError {
            fn from(error: CoreError) -> Self {
                ForksError::Other(error.to_string())
            }
        }

        fn merged(ranges: &[MerkleHashSubtree]) -> std::result::Result<Option<MerkleHash>, ForksError> {
            Ok(MerkleHashSubtree::merge(ranges)?.final_hash())
        }

        let whole = MerkleHashSubtree::from_chunks(true, &chunks(0..3), true);
        let ForksError::Other(message) = merged(&[whole.clone(), whole]).expect_err("two whole lists");
        assert_eq!(message, CoreError::InvalidArguments.to_string());
        assert!(merged(&[]).is_ok());
    }
}
