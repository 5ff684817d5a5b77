//! Hashes and their forms.

use crate::draws::{hash, Draws};
use std::collections::HashSet;
use std::hash::{BuildHasher, DefaultHasher, Hash, Hasher, RandomState};
use std::io::{self, ErrorKind, Read, Write};
use yurewha::merklehash::{
    compute_data_hash, compute_internal_node_hash, DataHash, DataHashBytesParseError, DataHashHexParseError, HMACKey,
};
use yurewha::own::{self, HashTextError, HexError};

const TEXT: &str = "d6834b04843aaf16f29903e2428a99be635099f9ea5056cc4e95e7ec8a41509f";

const BYTES: [u8; 32] = [
    22, 175, 58, 132, 4, 75, 131, 214, 190, 153, 138, 66, 226, 3, 153, 242, 204, 86, 80, 234, 249, 153, 80, 99, 159,
    80, 65, 138, 236, 231, 149, 78,
];

fn drawn() -> impl Iterator<Item = DataHash> {
    let mut draws = Draws(1);
    (0..200).map(move |_| DataHash::from([0; 4].map(|_: u64| draws.number())))
}

#[test]
fn a_hash_has_its_words_bytes_and_texts() {
    let hash = DataHash::from_slice(&BYTES).unwrap();
    assert_eq!(hash.hex(), TEXT);
    assert_eq!(hash.base64(), "Fq86hARLg9a-mYpC4gOZ8sxWUOr5mVBjn1BBiuznlU4");
    assert_eq!(hash.as_bytes(), BYTES);
    assert_eq!(hash, DataHash::from(BYTES));
    assert_eq!(hash, DataHash::from(&BYTES));
    assert_eq!(DataHash::try_from(&BYTES[..]).unwrap(), hash);
    assert_eq!(<[u8; 32]>::from(hash), BYTES);
    assert_eq!(Vec::from(hash), BYTES);
    assert_eq!(Vec::<u8>::from(&hash), BYTES);
    assert_eq!(AsRef::<[u8]>::as_ref(&hash), BYTES);
    assert_eq!(AsRef::<DataHash>::as_ref(&hash), &hash);
    assert_eq!(hash[0], 0xd683_4b04_843a_af16);
}

#[test]
fn hashes_read_back_from_each_form() {
    for hash in drawn() {
        assert_eq!(DataHash::from(*hash), hash);
        assert_eq!(DataHash::from(<[u8; 32]>::from(hash)), hash);
        assert_eq!(DataHash::from_slice(hash.as_bytes()).unwrap(), hash);
        assert_eq!(DataHash::from_hex(&hash.hex()).unwrap(), hash);
        assert_eq!(DataHash::from_hex(&hash.hex().to_uppercase()).unwrap(), hash);
        assert_eq!(DataHash::from_base64(&hash.base64()).unwrap(), hash);
        assert_eq!(DataHash::try_from_base64(&hash.try_base64().unwrap()), Ok(hash));
        assert_eq!(<[u8; 32]>::from(hash), hash.as_bytes());
    }
}

#[test]
fn texts_have_64_digits_whatever_is_asked_for() {
    let hash = hash(TEXT);
    for text in [
        format!("{hash}"),
        format!("{hash:?}"),
        format!("{hash:x}"),
        format!("{hash:#100x}"),
        format!("{hash:>3}"),
    ] {
        assert_eq!(text, TEXT);
    }
    assert_eq!(DataHash::default().hex(), "0".repeat(64));
    assert_eq!(DataHash::default().base64(), "A".repeat(43));
    assert_eq!(DataHash::marker().hex(), "f".repeat(64));
    assert_eq!(DataHash::marker().base64(), format!("{}8", "_".repeat(42)));
}

#[test]
fn other_texts_and_lengths_are_refused() {
    let long = format!("{TEXT}0");
    let unicode = format!("{}ä", &TEXT[..62]);
    assert_eq!(unicode.len(), 64);
    for text in [
        "",
        &TEXT[..63],
        &long,
        &unicode,
        &TEXT.replace('d', "g"),
        &TEXT.replace('d', " "),
    ] {
        assert_eq!(DataHash::from_hex(text), Err(DataHashHexParseError));
    }
    let base64 = DataHash::marker().base64();
    for text in [
        "",
        &base64[..42],
        &format!("{base64}="),
        &base64.replace('8', "9"),
        &base64.replace('_', "/"),
    ] {
        assert_eq!(DataHash::from_base64(text), Err(DataHashBytesParseError));
        assert_eq!(
            DataHash::try_from_base64(text),
            Err(HashTextError::Bytes(DataHashBytesParseError))
        );
    }
    for length in [0, 31, 33, 64] {
        assert_eq!(DataHash::from_slice(&vec![0; length]), Err(DataHashBytesParseError));
        assert_eq!(DataHash::try_from(&vec![0; length][..]), Err(DataHashBytesParseError));
    }
}

#[test]
fn errors_have_their_texts() {
    assert_eq!(DataHashHexParseError.to_string(), "Invalid hex input for DataHash");
    assert_eq!(DataHashBytesParseError.to_string(), "Invalid bytes input for DataHash");
    assert_eq!(
        HashTextError::Bytes(DataHashBytesParseError).to_string(),
        "Invalid bytes input for DataHash"
    );
    assert_eq!(HashTextError::OutOfMemory.to_string(), "out of memory");
}

#[test]
fn the_order_is_that_of_words_and_of_texts() {
    let mut hashes: Vec<_> = drawn().collect();
    hashes.extend((0..4).flat_map(|word| {
        let mut hash = DataHash::default();
        hash[word] = 1;
        [hash, DataHash::default()]
    }));
    for (first, second) in hashes.iter().zip(&hashes[1..]) {
        assert_eq!(first.cmp(second), first.hex().cmp(&second.hex()));
        assert_eq!(first.cmp(second), (**first).cmp(&**second));
        assert_eq!(first.partial_cmp(second), Some(first.cmp(second)));
        assert_eq!(first == second, **first == **second);
        assert_eq!(first.cmp(first), std::cmp::Ordering::Equal);
    }
}

#[test]
fn a_hash_table_gets_the_first_word() {
    let state = |write: &dyn Fn(&mut DefaultHasher)| {
        let mut hasher = DefaultHasher::new();
        write(&mut hasher);
        hasher.finish()
    };
    let hash = DataHash::from([1, 2, 3, 4]);
    assert_eq!(state(&|hasher| hash.hash(hasher)), state(&|hasher| hasher.write_u64(1)));
    assert_eq!(drawn().collect::<HashSet<_>>().len(), 200);
}

// So a hash can't be looked up by its bytes, and has no `Borrow<[u8; 32]>`.
#[test]
fn a_hash_and_its_bytes_have_other_orders_and_other_hashes() {
    let hashes = [DataHash::from([1, 0, 0, 0]), DataHash::from([256, 0, 0, 0])];
    let bytes = hashes.map(DataHash::to_bytes);
    assert!(hashes[0] < hashes[1] && bytes[0] > bytes[1]);
    let state = RandomState::new();
    assert_ne!(state.hash_one(hashes[0]), state.hash_one(bytes[0]));
}

#[test]
fn words_come_back_and_digits_are_upper_case_if_asked_for() {
    for hash in drawn() {
        assert_eq!(DataHash::from(<[u64; 4]>::from(hash)), hash);
        assert_eq!(format!("{hash:X}"), hash.hex().to_uppercase());
    }
    assert_eq!(<[u64; 4]>::from(DataHash::from([1, 2, 3, 4])), [1, 2, 3, 4]);
}

#[test]
fn words_are_read_and_written_in_place() {
    let mut hash = DataHash::default();
    hash[3] = 7;
    assert_eq!(hash, DataHash::from([0, 0, 0, 7]));
    assert_eq!(hash.iter().sum::<u64>(), 7);
}

#[test]
fn the_remainder_is_that_of_the_last_word() {
    assert_eq!(DataHash::marker() % 4, 3);
    assert_eq!(DataHash::default() % 4, 0);
    for hash in drawn() {
        assert_eq!(hash % 1000, hash[3] % 1000);
    }
}

#[test]
#[should_panic(expected = "divisor of zero")]
fn a_remainder_of_zero_is_a_panic() {
    let _ = DataHash::marker() % 0;
}

#[test]
fn hashes_are_the_reference_hashes() {
    assert_eq!(
        DataHash::random_from_seed(1),
        hash("cfc5d07f6f03c29bbf424132963fe08d19a37d5757aaf520bf08119f05cd56d6")
    );
    assert_eq!(
        compute_data_hash(b"abc"),
        hash("a8803506f7aff014f19aa9e9b79dc6455c49672570f96156071329698dd0284e")
    );
    assert_eq!(
        compute_data_hash(b""),
        hash("e0f2cf784e7e5f10c34f84af150e9a5ff9664216debad915364d741049870f67")
    );
    assert_eq!(
        compute_data_hash(b"abc").hmac(HMACKey::default()),
        hash("55b9df318a7c45f470d57b04d8ca79a15b0637ffe94b25041a58d00c3528afff")
    );
    assert_ne!(compute_internal_node_hash(b"abc"), compute_data_hash(b"abc"));
}

// A message of this length.
fn message(length: usize) -> Vec<u8> {
    (0..length).map(|i| (i % 251) as u8).collect()
}

#[test]
fn pieces_have_the_hash_of_the_whole() {
    for length in [0, 1, 63, 64, 65, 1023, 1024, 1025, 2049, 10_000] {
        let whole = message(length);
        for cut in [0, 1, 1023, 1024, 1025, length] {
            let (first, second) = whole.split_at(cut.min(length));
            let begun = [own::Hasher::new_data(), own::Hasher::new_internal_node()];
            let hashes = begun.map(|mut hasher| {
                hasher.update(first);
                let mut other = hasher.clone();
                other.update(b"another end");
                hasher.update(second);
                assert_eq!(hasher.count(), length as u64);
                hasher.finalize()
            });
            assert_eq!(hashes, [compute_data_hash(&whole), compute_internal_node_hash(&whole)]);
        }
    }
}

#[test]
fn a_keyed_hasher_is_an_hmac_and_keeps_its_key_to_itself() {
    for (message, key) in drawn().zip(drawn().skip(1)) {
        let mut hasher = own::Hasher::new_keyed(&key.into());
        hasher.update(message.as_bytes());
        assert_eq!(hasher.finalize(), message.hmac(key));
        assert_eq!(format!("{hasher:?}"), "Hasher { count: 32, .. }");
    }
    assert!(own::Hasher::new_data().has_room(usize::MAX));
}

#[test]
fn a_hasher_begins_again_under_its_key() {
    let key = [7; 32];
    for begin in [own::Hasher::new_data, own::Hasher::new_internal_node, || {
        own::Hasher::new_keyed(&[7; 32])
    }] {
        let mut hasher = begin();
        hasher.update(&message(3000));
        assert_eq!(hasher.reset().count(), 0);
        assert_eq!(hasher.finalize(), begin().finalize());
        assert_eq!(hasher.update(b"abc").finalize(), begin().update(b"abc").finalize());
    }
    let keyed = own::Hasher::new_keyed(&key)
        .update(DataHash::default().as_bytes())
        .finalize();
    assert_eq!(keyed, DataHash::default().hmac(DataHash::from(key)));
}

// A reader that is interrupted before each piece of this many bytes, and fails at its end if it should.
struct Pieces<'a>(&'a [u8], usize, bool, Option<ErrorKind>);

impl Read for Pieces<'_> {
    fn read(&mut self, room: &mut [u8]) -> io::Result<usize> {
        self.2 = !self.2;
        if self.2 {
            return Err(ErrorKind::Interrupted.into());
        }
        match self.3 {
            Some(kind) if self.0.is_empty() => Err(kind.into()),
            _ => self.0.read(&mut room[..self.1]),
        }
    }
}

#[test]
fn a_reader_is_hashed_to_its_end() {
    for length in [0, 1, 1024, 16_384, 16_385, 100_000] {
        let message = message(length);
        let hash = compute_data_hash(&message);
        for piece in [1000, 16_384] {
            let mut hasher = own::Hasher::new_data();
            let read = hasher
                .update_reader(Pieces(&message, piece, false, None))
                .unwrap()
                .finalize();
            assert_eq!(read, hash);
            assert_eq!(io::copy(&mut &message[..], hasher.reset()).unwrap(), length as u64);
            assert_eq!(hasher.finalize(), hash);
            // What was read before an error is hashed.
            let failing = Pieces(&message, piece, false, Some(ErrorKind::BrokenPipe));
            let error = hasher.reset().update_reader(failing).unwrap_err();
            assert_eq!((error.kind(), hasher.finalize()), (ErrorKind::BrokenPipe, hash));
        }
    }
    let mut hasher = own::Hasher::new_data();
    write!(hasher, "{}-{}", 1, 2).unwrap();
    hasher.flush().unwrap();
    assert_eq!(hasher.finalize(), compute_data_hash(b"1-2"));
}

#[test]
fn hashes_are_made_when_a_program_is_compiled() {
    const WORDS: DataHash = DataHash::from_words([1, 2, 3, 4]);
    const FROM_BYTES: DataHash = DataHash::from_bytes(BYTES);
    const TO_BYTES: [u8; 32] = FROM_BYTES.to_bytes();
    assert_eq!(WORDS, DataHash::from([1, 2, 3, 4]));
    assert_eq!((FROM_BYTES, TO_BYTES), (hash(TEXT), BYTES));
    assert_eq!(AsRef::<[u8; 32]>::as_ref(&FROM_BYTES), &BYTES);
}

#[test]
fn a_text_is_parsed_as_by_from_hex() {
    assert_eq!(TEXT.parse(), Ok(hash(TEXT)));
    assert_eq!(TEXT.to_uppercase().parse(), Ok(hash(TEXT)));
    assert_eq!(TEXT[1..].parse::<DataHash>(), Err(DataHashHexParseError));
}

#[test]
fn an_error_of_a_hex_text_says_what_is_wrong() {
    let text = DataHash::random_from_seed(1).hex();
    assert_eq!(
        own::parse_hex(&text),
        DataHash::from_hex(&text).map_err(|_| HexError::Length(0))
    );
    assert_eq!(own::parse_hex(&text.to_uppercase()), Ok(DataHash::random_from_seed(1)));
    for length in (0..64).chain([65, 128, 1000]) {
        assert_eq!(own::parse_hex(&"0".repeat(length)), Err(HexError::Length(length)));
        assert_eq!(own::parse_hex(&"g".repeat(length)), Err(HexError::Length(length)));
    }
    for place in 0..64 {
        for found in ['g', ' ', '/', ':', '@', 'G', '`', '\n', '\0'] {
            let mut wrong = text.clone();
            wrong.replace_range(place..=place, &found.to_string());
            // The first of two wrong characters counts.
            if place < 63 {
                wrong.replace_range(63.., "x");
            }
            assert_eq!(own::parse_hex(&wrong), Err(HexError::Digit { place, found }));
        }
    }
    for found in ['ä', '€', '🦀'] {
        let wrong = format!("{}{found}", &text[..64 - found.len_utf8()]);
        let place = 64 - found.len_utf8();
        assert_eq!(own::parse_hex(&wrong), Err(HexError::Digit { place, found }));
    }
    assert_eq!(
        HexError::Digit { place: 7, found: '\n' }.to_string(),
        "'\\n' at place 7 isn't a hex digit"
    );
    assert_eq!(
        HexError::Length(3).to_string(),
        "a hash has 64 hex digits, and the text has 3 bytes"
    );
}

#[test]
fn a_hasher_begins_as_one_of_data() {
    assert_eq!(
        own::Hasher::default().update(b"abc").finalize(),
        compute_data_hash(b"abc")
    );
}
