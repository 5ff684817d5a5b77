//! Files, cut into chunks and hashed. The values are those of `tests/model/chunker.py`.

use crate::draws::{hash, Draws};
use std::cell::Cell;
use std::env;
use std::fs::{self, File};
use std::io::{self, ErrorKind, Read, Write};
use std::iter;
use std::num::NonZeroUsize;
use std::path::PathBuf;
use std::process;
use yurewha::merklehash::{compute_data_hash, file_hash, MerkleHash};
use yurewha::own::{chunks_of, hash_file, hash_reader, Chunker, FileHasher};
use Message::{Mixed, Pattern, Sevens};

// What a message is made of.
#[derive(Clone, Copy, Debug)]
enum Message {
    // One byte.
    Sevens,
    // Three bytes, with a place for a cut after each third one.
    Pattern,
    // Drawn bytes.
    Mixed,
}

impl Message {
    fn bytes(self, length: usize) -> Vec<u8> {
        let mut bytes = match self {
            Sevens => vec![7; length],
            Pattern => [0, 148, 143].repeat(length / 3 + 1),
            Mixed => {
                let mut draws = Draws(0);
                (0..length / 8 + 1).flat_map(|_| draws.number().to_le_bytes()).collect()
            }
        };
        bytes.truncate(length);
        bytes
    }
}

// A message and its length, its number of chunks, and its file hash.
const FILES: [(Message, usize, usize, &str); 45] = [
    (
        Sevens,
        0,
        0,
        "0000000000000000000000000000000000000000000000000000000000000000",
    ),
    (
        Sevens,
        1,
        1,
        "499a2e6a5ddda00e71c46a55ef1671a7a1dce484bbbc3d86f4ebecf27190a2e4",
    ),
    (
        Sevens,
        63,
        1,
        "91f769bf25a45b59d109ef922d0806097132971af130bc7ee06002850af728c1",
    ),
    (
        Sevens,
        64,
        1,
        "9bc6ce8cd36997ea1bf86e06e5a10ab72d8d0b124ba38aa928dd25fe8da5ab8e",
    ),
    (
        Sevens,
        65,
        1,
        "a381978b4e78210cf13fc042aba69032319c233fdf1688fa17b34ea67ab806be",
    ),
    (
        Sevens,
        8_191,
        1,
        "b004367af6f5c912c540ece783812d37fea8fac3dce413384c190835311fc701",
    ),
    (
        Sevens,
        8_192,
        1,
        "9f9dc96b0071a537bb53ca4c7ec7e01bbcde96ea1ae0fea7d24043db43b61d6a",
    ),
    (
        Sevens,
        8_193,
        1,
        "934e1d6b15d68361b2d690268db26c20eb9aa7c5beda0d4aeea57073626d9594",
    ),
    (
        Sevens,
        131_071,
        1,
        "827d964644159cc85873f2b07751afba2ba289945b1d41cb036d7dfcd6d40a61",
    ),
    (
        Sevens,
        131_072,
        1,
        "1876f1e5597db3ba8c76cfa9c41e5436e1b3046d93c40e1ed896090496ae5d89",
    ),
    (
        Sevens,
        131_073,
        2,
        "4a3627af90bffcbb92df073313dd4f6c1d75801256330bec33c249fdf13576cf",
    ),
    (
        Sevens,
        139_264,
        2,
        "8916097d4ceda473828518023fa20ae8f24d9675c274eae0fedf9e0841c5510a",
    ),
    (
        Sevens,
        139_266,
        2,
        "d4b25f1347d7f1bcc2b5a90a72975a2f9051291830bec4a16b5af696e3a5fd1f",
    ),
    (
        Sevens,
        262_209,
        3,
        "537265682ec8de3c1e86adfd015484fe1c79d5651d8e35d00f8ed2a3c8bdf9b4",
    ),
    (
        Sevens,
        393_219,
        4,
        "272dd7e1fcfd1dd1bf380c231448fbee1d398f4182dd1699faa8e425cf2f5309",
    ),
    (
        Pattern,
        0,
        0,
        "0000000000000000000000000000000000000000000000000000000000000000",
    ),
    (
        Pattern,
        1,
        1,
        "41f5539a8d8bdd7509fd9a319268aca47ea6d40b33394170182e09fa86345c7e",
    ),
    (
        Pattern,
        63,
        1,
        "59116bddf70273068086a0b0feaa93ac146c7121676769b98d6dca44d7a17109",
    ),
    (
        Pattern,
        64,
        1,
        "43c964cd3a771350be79bc07097bfa71a0fdee39a1c916b7ab78e37044305234",
    ),
    (
        Pattern,
        65,
        1,
        "96fd07eb78488e37732c367384009cbf720fd03cf3e6acf1ebac544888997d4e",
    ),
    (
        Pattern,
        8_191,
        1,
        "e0edcae445161a037852a7dfcc6b0c102ae6958d42f25670cf53a003205d8c07",
    ),
    (
        Pattern,
        8_192,
        1,
        "df519fe634aaaabdbb99711f4e4365b0d40e324695f1ecd4845ebda446af27cb",
    ),
    (
        Pattern,
        8_193,
        1,
        "96078eb0ea6735c002a241fa5f6da0b1fe48c59fa4fcbdac8f2e9c5398f77fc0",
    ),
    (
        Pattern,
        131_071,
        16,
        "325ade1cf47092453c28526fbbc9d29f1fa492cef74b3b5eebfbc9c38ed9e625",
    ),
    (
        Pattern,
        131_072,
        16,
        "1ecb416fb53079ba19ec3dfe0ece406767e5629d5e034fbde741e575a2099c57",
    ),
    (
        Pattern,
        131_073,
        16,
        "4d582bb2e2436febb7011d7aba9eacd8c6b95c2e90ae24503417fc20b0bbe697",
    ),
    (
        Pattern,
        139_264,
        17,
        "7eb2dd9bd963341861aec2bca94b6c4f65b0bc247924a1956724ce73eeb2b25d",
    ),
    (
        Pattern,
        139_266,
        17,
        "fd1d1eddc2221c36509e07bb2f8b54e3c911bcb596ca763e2d0f859a8eef9eae",
    ),
    (
        Pattern,
        262_209,
        33,
        "8f39acb66aab485e65f1d519e343c8936f3824b9079598690fa7dead6115d0ee",
    ),
    (
        Pattern,
        393_219,
        48,
        "7d501ea1f34ea1039167a9fd4bd64d741535aa534268fc0e83176f539b66fc5c",
    ),
    (
        Mixed,
        0,
        0,
        "0000000000000000000000000000000000000000000000000000000000000000",
    ),
    (
        Mixed,
        1,
        1,
        "65013edd008b17b61b88618fc55cd84af69611d1190d67c9ca25276eaa22bb53",
    ),
    (
        Mixed,
        63,
        1,
        "43a6a50d88dcccf1c29fd10217b28f8734d59793458775968a68d8b8ce55b3be",
    ),
    (
        Mixed,
        64,
        1,
        "59cc2a9d4cd4da170c50d2979c5a899628a4c283eba7e6caf724c01c52f48bf0",
    ),
    (
        Mixed,
        65,
        1,
        "0af7358254257a20bdd46e0681c17881db391cf1829a17b0778acf5db91a18d6",
    ),
    (
        Mixed,
        8_191,
        1,
        "a2f0205f90bccc38d465dac03f8f4030d22374a1d4049d4cb54a7f5425ba9eee",
    ),
    (
        Mixed,
        8_192,
        1,
        "fd9a9a47884c4d95ca19ee0aef1242c5f5b1b52e7b05020bc773dffc6cd83352",
    ),
    (
        Mixed,
        8_193,
        1,
        "bb615047e38a1394afc61abe29100766c6fdc6212a0d5a5ba087e1f61a399232",
    ),
    (
        Mixed,
        131_071,
        2,
        "323e355bd1b83fbd8e1b1d1b5d3d1490eecf860f4f36a50d38e6b4fb94bdf294",
    ),
    (
        Mixed,
        131_072,
        2,
        "92ec576bf5c7d27fd87844eff81dfd5352a9d65cd3f90aa74dbcd38ebaaabc77",
    ),
    (
        Mixed,
        131_073,
        2,
        "064436f9c9a2e04b4b8e28e8ea34ba6186e159abd251ad061fa8dbc9756c2bcb",
    ),
    (
        Mixed,
        139_264,
        3,
        "557be5fc0907d7a5f6691737f4555e2616f29cd36b4d1351376786c6b2ee1729",
    ),
    (
        Mixed,
        139_266,
        3,
        "e67933f98b37f9504bfcb9dfcf221035e6e25a6286eeabb35d26951f31659d95",
    ),
    (
        Mixed,
        262_209,
        5,
        "47908f350fd92dd02bcca80dcd39f98d5ff15a7119e806e8181d30975e2a24af",
    ),
    (
        Mixed,
        393_219,
        7,
        "2a3b708f9c1250c07b3067d8ecc5cde5ae5fc8bf611cee91da50d48a46aa8400",
    ),
];

// Where the chunks of 1,000,000 mixed bytes end, as xet-core's own test has it, their root, and their file hash, also under a salt of
// sevens.
const CUTS: [usize; 19] = [
    84493, 134421, 144853, 243318, 271793, 336457, 467529, 494581, 582000, 596735, 616815, 653164, 678202, 724510,
    815591, 827760, 958832, 991092, 1000000,
];
const ROOT: &str = "6f2ce16ca5e317f0100ff0e7e5bf40a0de9032e9ee1ad04b6b8ff4e36cdfbf6c";
const HASH: &str = "3d17b2d7d64a0e011b6717a52d9a16bd2c3f05b743fa8adf52a7d75dafab6d89";
const SALTED: &str = "b636f2806b762d6fa3227c704f16c9bb815360ab25e4124dc6bc6444faca5dc9";

// Of 5,000,001 mixed bytes.
const LONG: &str = "520f218364f973588f651ebd8637b1a4aa077e7520f1215df6c92db205488f52";

fn threads(count: usize) -> NonZeroUsize {
    NonZeroUsize::new(count).unwrap()
}

// Where chunks end in a message that comes in pieces of a length.
fn cuts(message: &[u8], length: usize) -> Vec<usize> {
    let (mut chunker, mut cuts, mut place) = (Chunker::new(), Vec::new(), 0);
    for mut piece in message.chunks(length) {
        while let Some(end) = chunker.next_boundary(piece) {
            place += end;
            piece = &piece[end..];
            cuts.push(place);
        }
        place += piece.len();
        assert_eq!(chunker.taken(), place - cuts.last().unwrap_or(&0));
    }
    cuts.extend((chunker.taken() > 0).then_some(place));
    cuts
}

fn hash_in_pieces(message: &[u8], length: usize) -> MerkleHash {
    let mut hasher = FileHasher::new();
    for piece in message.chunks(length) {
        hasher.update(piece).unwrap();
    }
    assert_eq!(hasher.size(), message.len() as u64);
    hasher.file_hash().unwrap()
}

// A place for a file of a test.
fn place(name: &str) -> PathBuf {
    env::temp_dir().join(format!("yurewha-api-{name}-{}", process::id()))
}

// A reader that gives a few bytes at a time, and is interrupted before each.
struct Slow<'a>(&'a [u8], bool);

impl Read for Slow<'_> {
    fn read(&mut self, room: &mut [u8]) -> io::Result<usize> {
        self.1 = !self.1;
        if self.1 {
            return Err(ErrorKind::Interrupted.into());
        }
        let most = room.len().min(10_001);
        self.0.read(&mut room[..most])
    }
}

#[test]
fn a_file_has_its_hash_however_it_comes() {
    let path = place("each");
    for (message, length, count, wanted) in FILES {
        let (bytes, wanted) = (message.bytes(length), hash(wanted));
        for piece in [1, 64, 4093, 65_537, 1 << 20] {
            if length <= 10_000 * piece {
                assert_eq!(hash_in_pieces(&bytes, piece), wanted, "{message:?} {length} {piece}");
                assert_eq!(cuts(&bytes, piece).len(), count, "{message:?} {length} {piece}");
            }
        }
        let chunks: Vec<_> = chunks_of(&bytes[..]).map(Result::unwrap).collect();
        assert_eq!(
            (file_hash(&chunks), chunks.len()),
            (wanted, count),
            "{message:?} {length}"
        );
        fs::write(&path, &bytes).unwrap();
        for count in [1, 3] {
            assert_eq!(hash_reader(&bytes[..], threads(count)).unwrap(), wanted);
            assert_eq!(hash_reader(Slow(&bytes, false), threads(count)).unwrap(), wanted);
            assert_eq!(hash_file(&path, threads(count)).unwrap(), wanted);
        }
    }
    fs::remove_file(path).unwrap();
}

#[test]
fn mixed_bytes_are_cut_as_by_xet_core() {
    let message = Mixed.bytes(1_000_000);
    for length in [7, 1000, 84_493, 1 << 20] {
        assert_eq!(cuts(&message, length), CUTS);
    }
    let ends = iter::zip([0].iter().chain(&CUTS), &CUTS);
    let wanted = ends.map(|(&begin, &end)| (compute_data_hash(&message[begin..end]), (end - begin) as u64));
    assert!(chunks_of(&message[..]).map(Result::unwrap).eq(wanted));
    let mut hasher = FileHasher::default();
    hasher.update(&message).unwrap();
    assert_eq!(hasher.root(), Ok(hash(ROOT)));
    assert_eq!(hasher.file_hash(), Ok(hash(HASH)));
    assert_eq!(hasher.file_hash_with_salt(&[7; 32]), Ok(hash(SALTED)));
}

#[test]
fn a_long_file_has_its_hash_on_any_number_of_threads() {
    let message = Mixed.bytes(5_000_001);
    for count in [1, 2, 5, 40] {
        assert_eq!(hash_reader(&message[..], threads(count)).unwrap(), hash(LONG));
        assert_eq!(hash_reader(Slow(&message, false), threads(count)).unwrap(), hash(LONG));
    }
    let chunks: Vec<_> = chunks_of(Slow(&message, false)).map(Result::unwrap).collect();
    assert_eq!(file_hash(&chunks), hash(LONG));
    // The last batch is full.
    for length in [1 << 20, 2 << 20, 3 << 20] {
        let wanted = hash_in_pieces(&message[..length], 1 << 20);
        assert_eq!(hash_reader(&message[..length], threads(2)).unwrap(), wanted);
        assert_eq!(
            hash_reader(&message[..length + 1], threads(2)).unwrap(),
            hash_in_pieces(&message[..length + 1], 7777)
        );
    }
}

#[test]
fn a_copy_of_a_chunker_goes_on_by_itself() {
    let message = Pattern.bytes(20_000);
    let mut chunker = Chunker::default();
    assert_eq!(chunker.next_boundary(&message[..8000]), None);
    let mut copy = chunker;
    assert_eq!(chunker.next_boundary(&message[8000..]), Some(193));
    assert_eq!((chunker.taken(), copy.taken()), (0, 8000));
    assert_eq!(format!("{copy:?}"), "Chunker { taken: 8000, .. }");
    assert_eq!(copy.next_boundary(&[]), None);
    // A chunk ends with the piece.
    assert_eq!(copy.next_boundary(&message[8000..8193]), Some(193));
    assert_eq!((copy.next_boundary(&[]), copy.taken()), (None, 0));
}

#[test]
fn a_hash_does_not_end_the_file() {
    let message = Mixed.bytes(1_000_000);
    let mut hasher = FileHasher::new();
    for piece in message.chunks(123_457) {
        hasher.write_all(piece).unwrap();
        let so_far = &message[..usize::try_from(hasher.size()).unwrap()];
        assert_eq!(hasher.file_hash().unwrap(), hash_reader(so_far, threads(1)).unwrap());
    }
    hasher.flush().unwrap();
    assert_eq!(format!("{hasher:?}"), "FileHasher { size: 1000000, .. }");
    let mut moved = Box::new(hasher);
    assert_eq!(moved.file_hash(), Ok(hash(HASH)));
    assert_eq!(moved.update(&[]).unwrap().file_hash(), Ok(hash(HASH)));
}

// A reader of some bytes that counts how often it is read once they are read. Then it is at its end, or first at an error.
struct Counting<'a>(&'a [u8], &'a Cell<usize>, Option<ErrorKind>);

impl Read for Counting<'_> {
    fn read(&mut self, room: &mut [u8]) -> io::Result<usize> {
        self.1.set(self.1.get() + usize::from(self.0.is_empty()));
        match self.2 {
            Some(kind) if self.1.get() == 1 => Err(kind.into()),
            _ => self.0.read(room),
        }
    }
}

#[test]
fn an_error_of_a_reader_is_the_last_item() {
    let message = Mixed.bytes(3 << 20);
    let times = Cell::new(0);
    let broken = |kind| {
        times.set(0);
        Counting(&message, &times, Some(kind))
    };
    for kind in [ErrorKind::BrokenPipe, ErrorKind::WouldBlock] {
        for count in [1, 3] {
            assert_eq!(hash_reader(broken(kind), threads(count)).unwrap_err().kind(), kind);
        }
    }
    let mut chunks = chunks_of(broken(ErrorKind::BrokenPipe));
    let before = chunks.by_ref().take_while(Result::is_ok).count();
    // The bytes after the last full MiB were not cut.
    assert!((1..cuts(&message, 1 << 20).len()).contains(&before), "{before}");
    assert!(chunks.next().is_none() && chunks.next().is_none());
    assert_eq!(times.get(), 1);
}

#[test]
fn a_reader_at_its_end_is_not_read_again() {
    let (message, times) = (Mixed.bytes(200_000), Cell::new(0));
    let mut chunks = chunks_of(Counting(&message, &times, None));
    assert_eq!(chunks.by_ref().count(), cuts(&message, 1 << 20).len());
    assert!(chunks.next().is_none());
    assert_eq!(times.get(), 1);
}

#[test]
fn a_reader_that_panics_leaves_no_thread_waiting_for_its_file() {
    struct Panicking;
    impl Read for Panicking {
        fn read(&mut self, _: &mut [u8]) -> io::Result<usize> {
            panic!("by a reader")
        }
    }
    let reader = io::repeat(0).take(3 << 20).chain(Panicking);
    let caught = std::panic::catch_unwind(|| hash_reader(reader, threads(2)));
    assert_eq!(caught.unwrap_err().downcast_ref(), Some(&"by a reader"));
}

#[test]
fn what_is_no_file_is_an_error_with_its_name() {
    for count in [1, 2] {
        let error = hash_file("no/such\u{e9}/file", threads(count)).unwrap_err();
        assert_eq!(error.kind(), ErrorKind::NotFound);
        assert!(error.to_string().starts_with("no/such\u{e9}/file: "), "{error}");
        let folder = env::temp_dir();
        let error = hash_file(&folder, threads(count)).unwrap_err();
        assert!(
            error.to_string().starts_with(&format!("{}: ", folder.display())),
            "{error}"
        );
    }
}

#[test]
fn holes_of_a_file_are_zeros() {
    let path = place("holes");
    File::create(&path).unwrap().set_len(5_000_000).unwrap();
    let zeros = hash_in_pieces(&[0; 5_000_000], 1 << 20);
    assert_eq!(hash_file(&path, threads(2)).unwrap(), zeros);
    fs::remove_file(path).unwrap();
}

#[cfg(unix)]
#[test]
fn a_pipe_is_read_to_its_end() {
    let path = place("pipe");
    assert!(process::Command::new("mkfifo").arg(&path).status().unwrap().success());
    let writing = std::thread::spawn({
        let path = path.clone();
        move || fs::write(path, Mixed.bytes(5_000_001)).unwrap()
    });
    assert_eq!(hash_file(&path, threads(2)).unwrap(), hash(LONG));
    writing.join().unwrap();
    fs::remove_file(path).unwrap();
}
