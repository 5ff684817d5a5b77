//! Readers and parts of files: what is asked for, what is kept, and what is handed out.

use std::ops::Range;
use yurewha::merklehash::{compute_data_hash, DataHash};
use yurewha::own::{HashTree, OtherFile, PartFault, RangeProof, VerifiedReader};

// A file of 1268 bytes, and its tree.
struct File {
    chunks: Vec<Vec<u8>>,
    tree: HashTree,
}

// The lengths of its chunks, again and again. So they begin at 0, 5, 5, 16, 316, 317, 322, 322, 333, 633, 634 and so on.
const LENGTHS: [usize; 5] = [5, 0, 11, 300, 1];
const SALT: [u8; 32] = [7; 32];
const PLENTY: u64 = 1 << 20;

impl File {
    fn new() -> Self {
        let chunks: Vec<Vec<u8>> = (0..20).map(|k| vec![k as u8; LENGTHS[k % LENGTHS.len()]]).collect();
        let tree = HashTree::from_chunks(
            &chunks
                .iter()
                .map(|chunk| (compute_data_hash(chunk), chunk.len() as u64))
                .collect::<Vec<_>>(),
        );
        File {
            chunks,
            tree: tree.unwrap(),
        }
    }

    fn bytes(&self, places: Range<u64>) -> Vec<u8> {
        self.chunks.concat()[places.start as usize..places.end as usize].to_vec()
    }

    fn proof(&self, places: Range<u64>) -> RangeProof {
        self.tree.proof(self.tree.chunks_at(places).unwrap()).unwrap()
    }

    fn reader(&self, most: u64) -> VerifiedReader {
        VerifiedReader::new(&self.tree.file_hash(), most).unwrap()
    }

    // What a reader has of these bytes. What it lacks is fetched, at most so many bytes at once; returns the places, too.
    fn read(&self, reader: &VerifiedReader, wanted: Range<u64>, piece: u64) -> (Vec<u8>, Vec<Range<u64>>) {
        let (mut found, mut fetched) = (Vec::new(), Vec::new());
        while let Some(missing) = reader.needs(wanted.start + found.len() as u64..wanted.end, piece) {
            let mut room = vec![0; (missing.start - wanted.start) as usize - found.len()];
            assert_eq!(reader.read(wanted.start + found.len() as u64, &mut room), room.len());
            found.append(&mut room);
            let mut part = reader.open(&self.proof(missing.clone()), missing, PLENTY).unwrap();
            fetched.push(part.range());
            found.extend_from_slice(part.check(&self.bytes(part.range())).unwrap());
            reader.take(part).unwrap();
        }
        let mut room = vec![0; (wanted.end.min(reader.size().unwrap()) - wanted.start) as usize - found.len()];
        assert_eq!(reader.read(wanted.start + found.len() as u64, &mut room), room.len());
        found.append(&mut room);
        (found, fetched)
    }
}

// Which bytes are read, how many are asked for at once, and which are fetched.
type Step = (Range<u64>, u64, &'static [(u64, u64)]);

#[test]
fn what_is_read_is_the_file_s_and_what_is_kept_is_not_asked_for_again() {
    let file = File::new();
    let size = file.tree.total_size();
    let reader = file.reader(PLENTY);
    assert_eq!((reader.size(), reader.counted()), (None, 0));
    let steps: [Step; 6] = [
        (7..20, PLENTY, &[(5, 316)]),
        (16..300, PLENTY, &[]),
        (0..16, PLENTY, &[(0, 16)]),
        (0..16, PLENTY, &[]),
        (300..700, 100, &[(316, 633), (633, 950)]),
        (900..size + 9, PLENTY, &[(950, 1268)]),
    ];
    for (wanted, piece, fetches) in steps {
        let (found, fetched) = file.read(&reader, wanted.clone(), piece);
        assert_eq!(found, file.bytes(wanted.start..wanted.end.min(size)), "{wanted:?}");
        let fetched: Vec<_> = fetched.iter().map(|places| (places.start, places.end)).collect();
        assert_eq!(fetched, fetches, "{wanted:?}");
    }
    assert_eq!(reader.size(), Some(size));
    assert_eq!(reader.needs(size..size + 1, 1), None);
    assert_eq!(reader.read(size, &mut [0]), 0);
}

#[test]
fn a_file_has_pieces() {
    let file = File::new();
    let (reader, size) = (file.reader(PLENTY), file.tree.total_size());
    assert_eq!(
        reader.piece_at(size, 100),
        Some(size / 100 * 100..size / 100 * 100 + 100)
    );
    assert_eq!(reader.piece_at(u64::MAX - 1, u64::MAX), Some(0..u64::MAX));
    file.read(&reader, 0..1, PLENTY);
    assert_eq!(reader.piece_at(size - 1, 100), Some((size - 1) / 100 * 100..size));
    assert_eq!(
        [(size, 100), (0, 0)].map(|(place, piece)| reader.piece_at(place, piece)),
        [None, None]
    );
}

#[test]
fn a_reader_keeps_no_more_than_it_may_and_what_was_used_last() {
    let file = File::new();
    let reader = file.reader(3 * (300 + 128));
    let long = |k: u64| 16 + 317 * k..316 + 317 * k;
    let kept = || {
        (0..4)
            .filter(|&k| reader.needs(long(k), PLENTY).is_none())
            .collect::<Vec<_>>()
    };
    for k in 0..3 {
        file.read(&reader, long(k), PLENTY);
    }
    assert_eq!((kept(), reader.counted()), (vec![0, 1, 2], 3 * (300 + 128)));
    assert_eq!(reader.read(16, &mut [0; 300]), 300);
    file.read(&reader, long(3), PLENTY);
    assert_eq!(kept(), [0, 2, 3]);
    reader.keep_at_most(2 * (300 + 128) - 1);
    assert_eq!((kept(), reader.counted()), (vec![3], 300 + 128));
    let none = file.reader(0);
    assert_eq!(file.read(&none, 7..20, PLENTY).0, file.bytes(7..20));
    assert_eq!((none.counted(), none.size()), (0, Some(file.tree.total_size())));
}

#[test]
fn a_proof_of_other_bytes_is_refused_with_its_place() {
    let file = File::new();
    let reader = file.reader(PLENTY);
    let open = |proof: &RangeProof, wanted, beyond| reader.open(proof, wanted, beyond).map(|part| part.range());
    let middle = file.tree.proof(2..4).unwrap(); // the bytes from 5 up to 316
    for (wanted, beyond, answer) in [
        (5..316, 0, Ok(5..316)),
        (10..300, 16, Ok(5..316)),
        (10..300, 15, Err(PartFault::TooFar(5..316))),
        (11..316, 5, Err(PartFault::TooFar(5..316))),
        (11..316, 6, Ok(5..316)),
        (4..300, PLENTY, Err(PartFault::Elsewhere(5..316))),
        (10..317, PLENTY, Err(PartFault::Elsewhere(5..316))),
        (10..10, PLENTY, Err(PartFault::Elsewhere(5..316))),
        (u64::MAX - 1..u64::MAX, PLENTY, Err(PartFault::Elsewhere(5..316))),
    ] {
        assert_eq!(open(&middle, wanted.clone(), beyond), answer, "{wanted:?} {beyond}");
    }
    let end = file.tree.proof(18..20).unwrap();
    let size = file.tree.total_size();
    assert_eq!(open(&end, size - 1..u64::MAX, PLENTY), Ok(size - 301..size));
    let salted = VerifiedReader::with_salt(&file.tree.file_hash_with_salt(&SALT), &SALT, PLENTY).unwrap();
    assert_eq!(salted.open(&middle, 5..316, 0).unwrap().range(), 5..316);
    let other = VerifiedReader::new(&DataHash::marker(), PLENTY).unwrap();
    assert_eq!(other.open(&middle, 5..316, 0).unwrap_err(), PartFault::ProofMismatch);
    for fault in [
        PartFault::ProofMismatch,
        PartFault::TooFar(5..316),
        PartFault::OutOfMemory,
    ] {
        assert!(!fault.to_string().is_empty());
    }
}

#[test]
fn data_that_is_cut_off_or_wrong_is_kept_up_to_its_fault() {
    let file = File::new();
    let whole = file.bytes(0..322);
    let mut wrong = whole.clone();
    wrong[40] ^= 1;
    let more = [&whole[..], b"x"].concat();
    for (data, checked, counted) in [
        (&whole[..], (6, 322), 322 + 5 * 128),
        (&whole[..316], (4, 316), 316 + 3 * 128),
        (&whole[..315], (3, 16), 16 + 2 * 128),
        (&wrong[..], (3, 16), 16 + 2 * 128),
        (&more[..], (6, 322), 322 + 5 * 128),
        (&[], (0, 0), 0),
    ] {
        let reader = file.reader(PLENTY);
        let mut part = reader.open(&file.tree.proof(0..6).unwrap(), 3..320, PLENTY).unwrap();
        assert_eq!(part.range(), 0..322);
        let wanted = (data == whole).then(|| &whole[3..320]);
        assert_eq!(part.check(data), wanted);
        assert_eq!(part.checked(), checked);
        reader.take(part).unwrap();
        assert_eq!(reader.counted(), counted);
        assert_eq!(reader.size().is_some(), checked.0 > 0);
    }
}

#[test]
fn a_part_is_checked_without_being_kept_and_again_with_other_data() {
    let file = File::new();
    let reader = file.reader(PLENTY);
    let mut part = reader.open(&file.tree.proof(2..4).unwrap(), 7..20, PLENTY).unwrap();
    let right = file.bytes(5..316);
    assert_eq!(part.check(b"wrong"), None);
    assert_eq!(part.check(&right), Some(&right[2..15]));
    assert_eq!(part.check_only(&right), Some(&right[2..15]));
    assert_eq!(part.checked(), (2, 316));
    reader.take(part).unwrap();
    assert_eq!(reader.counted(), 0, "the last check kept nothing");
}

#[test]
fn a_part_of_another_file_comes_back() {
    let file = File::new();
    let reader = file.reader(PLENTY);
    let mut part = reader.open(&file.proof(0..5), 0..5, PLENTY).unwrap();
    assert!(part.check(&file.bytes(0..5)).is_some());
    let salted = VerifiedReader::with_salt(&file.tree.file_hash(), &SALT, PLENTY).unwrap();
    let OtherFile(part) = salted.take(part).unwrap_err();
    assert_eq!((salted.counted(), salted.size()), (0, None));
    reader.take(part).unwrap();
    assert_eq!(reader.counted(), 5 + 128);
}

#[test]
fn a_file_of_empty_chunks_has_the_size_0() {
    let tree = HashTree::from_chunks(&[(compute_data_hash(b""), 0); 2]).unwrap();
    let reader = VerifiedReader::new(&tree.file_hash(), PLENTY).unwrap();
    let mut part = reader.open(&tree.proof(0..2).unwrap(), 3..9, 0).unwrap();
    assert_eq!((part.range(), part.check(b"")), (0..0, Some(&b""[..])));
    reader.take(part).unwrap();
    assert_eq!((reader.size(), reader.needs(0..9, PLENTY)), (Some(0), None));
}

#[test]
fn threads_read_one_file_by_one_reader() {
    let file = File::new();
    let reader = file.reader(1000);
    let size = file.tree.total_size();
    std::thread::scope(|scope| {
        for first in 0..4 {
            let (file, reader) = (&file, &reader);
            scope.spawn(move || {
                for k in 0..50 {
                    let from = (97 * k + 31 * first) % size;
                    let to = (from + 40).min(size);
                    let proof = file.proof(from..to);
                    let mut part = reader.open(&proof, from..to, PLENTY).unwrap();
                    let sent = file.bytes(part.range());
                    assert_eq!(part.check(&sent), Some(&file.bytes(from..to)[..]));
                    reader.take(part).unwrap();
                    let mut room = [0; 40];
                    let filled = reader.read(from, &mut room[..(to - from) as usize]);
                    assert_eq!(room[..filled], file.bytes(from..from + filled as u64));
                }
            });
        }
    });
    assert!(reader.counted() <= 1000);
}

#[test]
fn readers_and_parts_tell_what_they_are() {
    let file = File::new();
    let reader = file.reader(PLENTY);
    let mut part = reader.open(&file.proof(0..5), 0..5, PLENTY).unwrap();
    assert_eq!(format!("{part:?}"), "WantedPart { range: 0..5, checked: (0, 0), .. }");
    let _ = part.check(&file.bytes(0..5));
    assert_eq!(format!("{part:?}"), "WantedPart { range: 0..5, checked: (1, 5), .. }");
    let told = format!("{reader:?}");
    assert!(
        told.starts_with("VerifiedReader { file_hash: ") && told.ends_with(", counted: 0, size: None, .. }"),
        "{told}"
    );
    assert_eq!(part.file_size(), file.tree.total_size());
}
