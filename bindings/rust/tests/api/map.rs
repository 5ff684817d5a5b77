//! The hasher that hands a number on, and the map over it.

use crate::draws::Draws;
use std::cell::Cell;
use std::collections::HashMap;
use std::hash::{BuildHasher, Hash, Hasher};
use yurewha::merklehash::{DataHash, PassThroughHashMap, U64DirectHasher, U64HashExtractable};

#[test]
fn a_key_has_a_number() {
    let hash = DataHash::from([0xfedc_ba09_8765_4321, 0x1111_1111_1111_1111, 0, 0]);
    assert_eq!(hash.u64_hash_value(), 0xfedc_ba09_8765_4321);
    assert_eq!(7u64.u64_hash_value(), 7);
}

// A hasher of this state.
fn in_state(state: u64) -> U64DirectHasher<u64> {
    let mut hasher = U64DirectHasher::default();
    hasher.write_u64(state);
    hasher
}

#[test]
fn a_number_is_the_state() {
    let hasher = in_state(7);
    assert_eq!(hasher.finish(), 7);
    assert_eq!(hasher.build_hasher().finish(), 0);
    let mut copy = hasher;
    copy.write_u64(8);
    assert_eq!((hasher.finish(), copy.finish()), (7, 8));
    assert_eq!(format!("{hasher:?}"), "U64DirectHasher { state: 7 }");
}

#[test]
fn bytes_overwrite_the_low_bytes_of_the_state() {
    let written = |state, bytes: &[u8]| {
        let mut hasher = in_state(state);
        hasher.write(bytes);
        hasher.finish()
    };
    assert_eq!(written(u64::MAX, &[]), u64::MAX);
    assert_eq!(written(u64::MAX, &[1, 2, 3]), 0xffff_ffff_ff03_0201);
    assert_eq!(written(5, &[1, 2, 3, 4, 5, 6, 7, 8]), 0x0807_0605_0403_0201);
    assert_eq!(written(5, &[1, 2, 3, 4, 5, 6, 7, 8, 9]), 0x0807_0605_0403_0201);
}

#[test]
fn keys_are_hashed_to_their_numbers() {
    let hash = DataHash::from([9, 1, 2, 3]);
    assert_eq!(
        U64DirectHasher::<DataHash>::default().hash_one(hash),
        hash.u64_hash_value()
    );
    assert_eq!(in_state(0).hash_one(7u64), 7);
}

#[test]
fn the_map_has_the_calls_of_the_map_inside() {
    let key = DataHash::random_from_seed(1);
    let mut map = PassThroughHashMap::with_capacity(10);
    assert!(map.capacity() >= 10);
    assert_eq!(map.insert(key, "value1"), None);
    assert_eq!(map.insert(key, "value2"), Some("value1"));
    assert_eq!(map.get(&key), Some(&"value2"));
    *map.entry(key).or_insert("value3") = "value4";
    assert_eq!((map[&key], map.len()), ("value4", 1));
    for (_, value) in &mut map {
        *value = "value5";
    }
    assert_eq!((&map).into_iter().next(), Some((&key, &"value5")));
    assert_eq!(map.clone().into_iter().collect::<Vec<_>>(), [(key, "value5")]);
    assert_eq!(map.remove(&key), Some("value5"));
    assert!(map.is_empty());
}

#[test]
fn keys_with_one_number_are_told_apart() {
    let keys = [1, 2, 3].map(|word| DataHash::from([7, word, 0, 0]));
    let map: PassThroughHashMap<_, _> = keys.into_iter().zip(0..).collect();
    assert_eq!(map.len(), 3);
    assert_eq!(keys.map(|key| map[&key]), [0, 1, 2]);
}

#[test]
fn the_last_value_of_a_key_wins() {
    let map = PassThroughHashMap::from([(1u64, 'a'), (2, 'b'), (1, 'c')]);
    assert_eq!((map.len(), map[&1], map[&2]), (2, 'c', 'b'));
}

// Pairs whose number isn't what is announced.
struct Announcing<I>(I, usize);

impl<I: Iterator> Iterator for Announcing<I> {
    type Item = I::Item;

    fn next(&mut self) -> Option<I::Item> {
        self.0.next()
    }

    fn size_hint(&self) -> (usize, Option<usize>) {
        (self.1, None)
    }
}

#[test]
fn a_collected_map_has_room_for_its_keys_not_for_the_pairs() {
    let many = (0..1_000_000_u64).map(|index| (index * 7919 % 1000, index));
    let announced = Announcing((0..1000_u64).map(|index| (index, index)), usize::MAX);
    for map in [many.collect::<PassThroughHashMap<_, _>>(), announced.collect()] {
        assert_eq!(
            (map.len(), map.capacity() < 4000, map.clone().capacity() < 4000),
            (1000, true, true)
        );
    }
    let few = PassThroughHashMap::from(std::array::from_fn::<_, 4096, _>(|index| (index as u64 % 3, index)));
    assert_eq!((few.len(), few[&2], few.capacity() < 12), (3, 4094, true));
    assert_eq!(PassThroughHashMap::<u64, u8>::from([]).capacity(), 0);
}

// Maps of several sizes, so that they are full to different degrees.
#[test]
fn the_pairs_of_another_map_are_collected_in_its_order() {
    for count in [0, 1, 3, 4, 1000, 1150, 1300, 1500, 1800] {
        let source: PassThroughHashMap<_, _> = Draws(count).nodes(count as usize).into_iter().collect();
        let pairs = || source.iter().map(|(hash, size)| (*hash, *size));
        let copies: [PassThroughHashMap<_, _>; 4] = [
            pairs().collect(),
            pairs().filter(|_| true).collect(),
            Announcing(pairs(), 0).collect(),
            Announcing(pairs(), 10 * count as usize).collect(),
        ];
        for copy in copies {
            assert_eq!((copy.len(), &*copy), (count as usize, &*source));
            assert!(copy.capacity() <= 2 * source.len() + 3);
        }
    }
}

// A key that counts how often it is compared on its thread.
#[derive(Clone, Copy)]
struct Compared(u64);

thread_local! {
    static COMPARED: Cell<usize> = const { Cell::new(0) };
}

impl PartialEq for Compared {
    fn eq(&self, other: &Self) -> bool {
        COMPARED.set(COMPARED.get() + 1);
        self.0 == other.0
    }
}

impl Eq for Compared {}

impl Hash for Compared {
    fn hash<H: Hasher>(&self, hasher: &mut H) {
        hasher.write_u64(self.0);
    }
}

impl U64HashExtractable for Compared {
    fn u64_hash_value(&self) -> u64 {
        self.0
    }
}

// In a map that is too small for them, pairs in the order of another map meet at the same places, and each is compared with many.
#[test]
fn collecting_the_pairs_of_another_map_compares_few_keys() {
    let mut draws = Draws(7);
    let source: PassThroughHashMap<_, _> = (0..20_000).map(|_| (Compared(draws.number()), ())).collect();
    let pairs = || source.iter().map(|(key, ())| (*key, ()));
    COMPARED.set(0);
    let copies: [PassThroughHashMap<_, _>; 2] = [pairs().filter(|_| true).collect(), Announcing(pairs(), 0).collect()];
    assert_eq!(copies.map(|copy| copy.len()), [20_000, 20_000]);
    assert!(COMPARED.get() < 2000, "{}", COMPARED.get());
}

#[test]
fn the_map_inside_goes_in_and_out() {
    let map = PassThroughHashMap::from([(1u64, 'a'), (2, 'b')]);
    let inside: HashMap<u64, char, U64DirectHasher<u64>> = map.into();
    assert_eq!(inside[&2], 'b');
    let map = PassThroughHashMap::from(inside);
    assert_eq!(map[&1], 'a');
    assert_eq!(
        format!("{:?}", PassThroughHashMap::from([(1u64, 2)])),
        "PassThroughHashMap({1: 2})"
    );
}

#[test]
fn a_map_of_drawn_pairs_is_the_map_of_the_standard_library() {
    let mut draws = Draws(7);
    let (mut map, mut plain) = (PassThroughHashMap::new(), HashMap::new());
    for _ in 0..2000 {
        let key = DataHash::from([draws.number() % 50, draws.number() % 4, 0, 0]);
        match draws.below(3) {
            0 => assert_eq!(map.remove(&key), plain.remove(&key)),
            _ => {
                let value = draws.number();
                assert_eq!(map.insert(key, value), plain.insert(key, value));
            }
        }
        assert_eq!(map.len(), plain.len());
    }
    assert!(plain.iter().all(|(key, value)| map.get(key) == Some(value)));
}
