//! serde's forms: JSON and RON, which people read, and bincode as a binary format.

use crate::draws::{numbered, reference, Draws};
use crate::json::forged;
use serde::de::value::SeqDeserializer;
use serde::{Deserialize, Serialize};
use serde_json::{json, Value};
use std::fmt::Debug;
use std::hash::Hasher;
use yurewha::error::CoreError;
use yurewha::merklehash::{self, DataHash, MerkleHashSubtree, PassThroughHashMap, U64DirectHasher};

// That a value has this JSON text and these bytes of bincode, and is read back from both.
fn assert_forms<T: Serialize + for<'de> Deserialize<'de> + PartialEq + Debug>(value: &T, text: &str, bytes: &[u8]) {
    assert_eq!(serde_json::to_string(value).unwrap(), text);
    assert_eq!(serde_json::from_str::<T>(text).unwrap(), *value);
    assert_eq!(serde_json::from_slice::<T>(text.as_bytes()).unwrap(), *value);
    assert_eq!(serde_json::from_reader::<_, T>(text.as_bytes()).unwrap(), *value);
    let tree = serde_json::to_value(value).unwrap();
    assert_eq!(serde_json::from_value::<T>(tree).unwrap(), *value);
    assert_eq!(ron::from_str::<T>(&ron::to_string(value).unwrap()).unwrap(), *value);
    assert_eq!(bincode::serialize(value).unwrap(), bytes);
    assert_eq!(bincode::deserialize::<T>(bytes).unwrap(), *value);
}

// Numbers as bincode writes them, and truth values.
fn bytes_of(numbers: &[u64], truths: &[bool]) -> Vec<u8> {
    let numbers = numbers.iter().flat_map(|number| number.to_le_bytes());
    numbers.chain(truths.iter().map(|&truth| u8::from(truth))).collect()
}

#[test]
fn a_hash_is_the_sequence_of_its_words() {
    let hash = DataHash::from([1, 2, 3, u64::MAX]);
    assert_forms(&hash, "[1,2,3,18446744073709551615]", hash.as_bytes());
    for text in ["[1,2,3]", "[1,2,3,4,5]", "[1,2,3,-4]", "{}", "\"\"", "null"] {
        assert!(serde_json::from_str::<DataHash>(text).is_err(), "{text}");
    }
    assert!(bincode::deserialize::<DataHash>(&[0; 31]).is_err());
}

#[derive(Serialize, Deserialize, PartialEq, Debug)]
struct Named {
    #[serde(with = "merklehash::data_hash::hex::serde")]
    first: DataHash,
    #[serde(with = "merklehash::hex::serde")]
    second: DataHash,
}

#[test]
fn a_hash_is_its_digits_where_that_is_asked_for() {
    let named = Named {
        first: DataHash::default(),
        second: DataHash::marker(),
    };
    let digits = ["0", "f"].map(|digit| digit.repeat(64));
    let text = format!(r#"{{"first":"{}","second":"{}"}}"#, digits[0], digits[1]);
    let bytes = digits
        .map(|digits| [&bytes_of(&[64], &[]), digits.as_bytes()].concat())
        .concat();
    assert_forms(&named, &text, &bytes);
    assert_eq!(
        serde_json::from_str::<Named>(
            &text
                .to_uppercase()
                .replace("FIRST", "first")
                .replace("SECOND", "second")
        )
        .unwrap(),
        named
    );
    let error = serde_json::from_str::<Named>(&text.replace("ff", "fg")).unwrap_err();
    assert!(
        error.to_string().starts_with("Invalid hex input for DataHash"),
        "{error}"
    );
    assert!(
        error.to_string().contains(": 'g' at place 1 isn't a hex digit at line"),
        "{error}"
    );
    let error = serde_json::from_str::<Named>(r#"{"first":[1,2,3,4]}"#).unwrap_err();
    assert!(error.to_string().contains("expected 64 hex digits"), "{error}");
}

#[test]
fn a_subtree_is_a_struct_of_four_members_in_order() {
    let chunks = reference(&[1]);
    let subtree = MerkleHashSubtree::from_chunks(true, &chunks, false);
    let text = r#"{"nodes":[{"hash":"cfc5d07f6f03c29bbf424132963fe08d19a37d5757aaf520bf08119f05cd56d6","size":100}],"levels":[[1,0]],"at_start":true,"at_end":false}"#;
    let words = *chunks[0].0;
    let numbers = [1, words[0], words[1], words[2], words[3], 100, 1, 1, 0];
    assert_forms(&subtree, text, &bytes_of(&numbers, &[true, false]));

    let empty = MerkleHashSubtree::from_chunks(true, &[], true);
    let text = r#"{"nodes":[],"levels":[[0,0]],"at_start":true,"at_end":true}"#;
    assert_forms(&empty, text, &bytes_of(&[0, 1, 0, 0], &[true, true]));
}

#[test]
fn left_nodes_stand_by_rising_level_and_right_nodes_by_falling_level() {
    let nodes = numbered(0..20);
    let subtree = MerkleHashSubtree::from_chunks(false, &nodes, false);
    let value = serde_json::to_value(&subtree).unwrap();
    assert_eq!(value["levels"], json!([[8, 4], [2, 0]]));
    let hashes: Vec<_> = value["nodes"]
        .as_array()
        .unwrap()
        .iter()
        .map(|node| node["hash"].clone())
        .collect();
    let texts = |range: std::ops::Range<usize>| nodes[range].iter().map(|node| node.0.hex()).collect::<Vec<_>>();
    assert_eq!(hashes.len(), 14);
    assert_eq!(hashes[..8], texts(0..8));
    assert_eq!(hashes[10..], texts(16..20));
}

#[test]
fn drawn_subtrees_are_read_back() {
    let mut draws = Draws(12);
    for _ in 0..300 {
        let count = draws.below(100);
        let nodes = draws.nodes(count);
        let subtree = MerkleHashSubtree::from_chunks(draws.truth(), &nodes, draws.truth());
        let text = serde_json::to_string(&subtree).unwrap();
        assert_eq!(serde_json::from_str::<MerkleHashSubtree>(&text).unwrap(), subtree);
        // The calls without serde read and write the same form.
        assert_eq!(MerkleHashSubtree::from_json(&text).as_ref(), Ok(&subtree));
        let own = subtree.to_json().unwrap();
        assert_eq!(serde_json::from_str::<MerkleHashSubtree>(&own).unwrap(), subtree);
        let bytes = bincode::serialize(&subtree).unwrap();
        assert_eq!(bincode::deserialize::<MerkleHashSubtree>(&bytes).unwrap(), subtree);
        let text = ron::ser::to_string_pretty(&subtree, ron::ser::PrettyConfig::default().struct_names(true)).unwrap();
        assert_eq!(ron::from_str::<MerkleHashSubtree>(&text).unwrap(), subtree);
    }
}

#[test]
fn members_may_stand_in_any_order_with_others_between() {
    let text = r#"{"more":[{"a":null},1.5,"\n"],"at_end":true,"levels":[[0,0]],"at_start":true,"nodes":[]}"#;
    let empty = MerkleHashSubtree::from_chunks(true, &[], true);
    assert_eq!(serde_json::from_str::<MerkleHashSubtree>(text).unwrap(), empty);
    let spaced = text.replace(',', " ,\n ").replace(':', " : ");
    assert_eq!(serde_json::from_str::<MerkleHashSubtree>(&spaced).unwrap(), empty);
}

// Whether the text of an error names a rule, after what was expected or with what is wrong.
fn names_rule(error: &str, rule: u8) -> bool {
    error.contains(&format!("(rule {rule})")) || error.starts_with(&format!("invalid subtree: rule {rule}: "))
}

// The error of reading a text.
fn error_of(text: &str) -> serde_json::Error {
    serde_json::from_str::<MerkleHashSubtree>(text).unwrap_err()
}

#[test]
fn forged_json_is_refused_with_the_rule_in_the_text() {
    for (rule, text) in forged() {
        let value: Value = serde_json::from_str(&text).unwrap();
        for error in [
            error_of(&text),
            serde_json::from_reader::<_, MerkleHashSubtree>(text.as_bytes()).unwrap_err(),
            serde_json::from_value::<MerkleHashSubtree>(value).unwrap_err(),
        ] {
            assert!(error.is_data(), "{text}: {error}");
            assert!(names_rule(&error.to_string(), rule), "{text}: {error}");
        }
    }
    assert!(error_of("{\"nodes\":[").is_eof());
    assert!(error_of("{\"nodes\":[}").is_syntax());
}

// What is replaced in the text of a subtree, by what, and the error of reading it.
const FORGED_MEMBERS: &str = r#"
[[1,0]] => null => invalid type: null, expected a sequence as `levels` (rule 2) at line 2 column 13
"levels" => "level" => missing field `levels`, expected a sequence as `levels` (rule 2) at line 4 column 14
start":true => start":1 => invalid type: integer `1`, expected a truth value as `at_start` (rule 2) at line 3 column 12
"size":1 => "size":-1 => invalid value: integer `-1`, expected a whole number below 2^64 as `size` (rule 3) at line 1 column 94
"size" => "length" => missing field `size`, expected a whole number below 2^64 as `size` (rule 3) at line 1 column 96
[1,0] => [1] => invalid length 1, expected a pair of numbers in `levels` (rule 4) at line 2 column 13
[1,0] => [1,0,0] => invalid length 3, expected a pair of numbers in `levels` (rule 4) at line 2 column 17
[1,0] => [2,0] => invalid subtree: rule 6: the counts don't add up to the number of nodes at line 4 column 14
"#;

#[test]
fn an_error_names_the_field_and_the_place() {
    let node = format!(r#"{{"hash":"{}","size":1}}"#, DataHash::marker());
    let text = format!("{{\"nodes\":[{node}],\n\"levels\":[[1,0]],\n\"at_start\":true,\n\"at_end\":true}}");
    assert!(serde_json::from_str::<MerkleHashSubtree>(&text).is_ok());
    for row in FORGED_MEMBERS.trim().lines() {
        let [from, to, error] = row.split(" => ").collect::<Vec<_>>().try_into().unwrap();
        assert_eq!(error_of(&text.replace(from, to)).to_string(), error);
    }
}

#[test]
fn a_number_is_no_object_of_a_member() {
    let number = r#"{"$serde_json::private::Number":"5"}"#;
    let node = |size: &str| format!(r#"{{"hash":"{}","size":{size}}}"#, DataHash::marker());
    let text = |size: &str, left: &str| {
        format!(
            r#"{{"nodes":[{}],"levels":[[{left},0]],"at_start":true,"at_end":true}}"#,
            node(size)
        )
    };
    assert!(serde_json::from_str::<MerkleHashSubtree>(&text("5", "1")).is_ok());
    let error = error_of(&text(number, "1"));
    assert!(error.to_string().contains("as `size` (rule 3)"), "{error}");
    let error = error_of(&text("5", &number.replace('5', "1")));
    assert!(error.to_string().contains("in `levels` (rule 4)"), "{error}");
}

// Each value in a value, as a pointer of JSON.
fn pointers(value: &Value, at: &str, found: &mut Vec<String>) {
    found.push(at.to_owned());
    match value {
        Value::Array(elements) => {
            let places = elements.iter().enumerate();
            places.for_each(|(place, it)| pointers(it, &format!("{at}/{place}"), found));
        }
        Value::Object(members) => members
            .iter()
            .for_each(|(name, it)| pointers(it, &format!("{at}/{name}"), found)),
        _ => {}
    }
}

// The value with another one at a random place.
fn forged_at_random(draws: &mut Draws, value: &Value) -> Value {
    let others = [
        json!(null),
        json!(true),
        json!(0),
        json!(3),
        json!(u64::MAX),
        json!(-1),
        json!(1.5),
        json!(""),
        json!(DataHash::marker().hex()),
        json!([]),
        json!([1, 0]),
        json!({}),
    ];
    let mut found = Vec::new();
    pointers(value, "", &mut found);
    let mut forged = value.clone();
    *forged.pointer_mut(&found[draws.below(found.len())]).unwrap() = others[draws.below(others.len())].clone();
    forged
}

#[test]
fn a_value_with_one_forged_place_is_refused_by_the_rule_that_the_library_names() {
    let mut draws = Draws(15);
    let mut seen = [0; 14];
    for _ in 0..3000 {
        let count = draws.below(30) as u64;
        let subtree = MerkleHashSubtree::from_chunks(draws.truth(), &numbered(0..count), draws.truth());
        let text = forged_at_random(&mut draws, &serde_json::to_value(&subtree).unwrap()).to_string();
        match (
            MerkleHashSubtree::from_json(&text),
            serde_json::from_str::<MerkleHashSubtree>(&text),
        ) {
            (Ok(library), Ok(ours)) => assert_eq!(ours, library),
            (Err(CoreError::InvalidJson(rule)), Err(error)) => {
                assert!(names_rule(&error.to_string(), rule), "{text}: {error}");
                seen[usize::from(rule)] += 1;
            }
            (library, ours) => panic!("{text}: {library:?}, {ours:?}"),
        }
    }
    assert!([1, 2, 3, 4, 6].iter().all(|&rule| seen[rule] > 20), "{seen:?}");
}

#[test]
fn of_several_broken_rules_of_form_the_first_that_is_met_is_named() {
    let text = r#"{"nodes":[{}],"levels":null}"#;
    assert!(names_rule(&error_of(text).to_string(), 3));
    assert_eq!(MerkleHashSubtree::from_json(text), Err(CoreError::InvalidJson(2)));
}

#[test]
fn a_member_that_is_written_twice_is_refused() {
    let node = format!(r#"{{"hash":"{}","size":1}}"#, DataHash::marker());
    let text = format!(r#"{{"nodes":[{node}],"levels":[[1,0]],"at_start":true,"at_end":true}}"#);
    for member in [
        "\"levels\":[[1,0]]",
        "\"at_start\":true",
        "\"at_end\":true",
        "\"size\":1",
        &format!("\"nodes\":[{node}]"),
    ] {
        let error = error_of(&text.replace(member, &format!("{member},{member}")));
        assert!(error.to_string().starts_with("duplicate field `"), "{error}");
    }
}

#[test]
fn ron_reads_what_it_wrote_and_names_what_is_wrong() {
    let subtree = MerkleHashSubtree::from_chunks(false, &numbered(0..24), false);
    let text = ron::to_string(&subtree).unwrap();
    assert_eq!(ron::from_str::<MerkleHashSubtree>(&text).unwrap(), subtree);
    for (from, to, rule) in [
        ("at_start:false", "at_start:0", 2),
        ("size:1", "size:-1", 3),
        ("(8,4)", "(8,-4)", 4),
        ("(8,4)", "(9,4)", 6),
    ] {
        let forged = text.replacen(from, to, 1);
        assert_ne!(forged, text);
        let error = ron::from_str::<MerkleHashSubtree>(&forged).unwrap_err().to_string();
        assert!(
            rule < 5 || error.contains(&format!("invalid subtree: rule {rule}: ")),
            "{error}"
        );
    }
}

// A subtree among other members of the same object, which serde reads into values of its own first.
#[derive(Serialize, Deserialize, PartialEq, Debug)]
struct Among {
    name: String,
    #[serde(flatten)]
    subtree: MerkleHashSubtree,
}

#[derive(Serialize, Deserialize, PartialEq, Debug)]
#[serde(untagged)]
enum Either {
    Name(String),
    Subtree(MerkleHashSubtree),
}

#[test]
fn a_subtree_stands_wherever_a_struct_may() {
    let subtree = || MerkleHashSubtree::from_chunks(false, &numbered(0..24), false);
    let among = Among {
        name: "a range".to_owned(),
        subtree: subtree(),
    };
    let text = serde_json::to_string(&among).unwrap();
    assert_eq!(serde_json::from_str::<Among>(&text).unwrap(), among);
    for either in [Either::Name("a range".to_owned()), Either::Subtree(subtree())] {
        let text = serde_json::to_string(&either).unwrap();
        assert_eq!(serde_json::from_str::<Either>(&text).unwrap(), either);
    }
}

// The form of a subtree in a binary format, which may say none.
#[derive(Serialize, Deserialize)]
struct Form {
    nodes: Vec<(DataHash, u64)>,
    levels: Vec<(u64, u64)>,
    at_start: bool,
    at_end: bool,
}

// The form that a JSON text says where it keeps the rules 1 to 4.
fn form_of(text: &str) -> Form {
    let value: Value = serde_json::from_str(text).unwrap();
    let hash = |node: &Value| DataHash::from_hex(node["hash"].as_str().unwrap()).unwrap();
    let nodes = value["nodes"].as_array().unwrap();
    Form {
        nodes: nodes
            .iter()
            .map(|node| (hash(node), node["size"].as_u64().unwrap()))
            .collect(),
        levels: serde_json::from_value(value["levels"].clone()).unwrap(),
        at_start: value["at_start"].as_bool().unwrap(),
        at_end: value["at_end"].as_bool().unwrap(),
    }
}

#[test]
fn forged_bytes_are_refused_with_the_rule_in_the_text() {
    let forged = forged();
    let of_values = forged.iter().filter(|(rule, _)| *rule >= 5);
    assert!(of_values.clone().count() >= 9);
    for (rule, text) in of_values {
        let bytes = bincode::serialize(&form_of(text)).unwrap();
        let error = bincode::deserialize::<MerkleHashSubtree>(&bytes).unwrap_err();
        assert!(names_rule(&error.to_string(), *rule), "{text}: {error}");
        assert!(!error.to_string().contains("JSON"), "{error}");
    }
}

#[test]
fn bytes_that_are_cut_off_or_claim_too_much_are_refused() {
    let subtree = MerkleHashSubtree::from_chunks(false, &numbered(0..20), false);
    let bytes = bincode::serialize(&subtree).unwrap();
    for length in 0..bytes.len() {
        assert!(bincode::deserialize::<MerkleHashSubtree>(&bytes[..length]).is_err());
    }
    let claim = bytes_of(&[u64::MAX], &[]);
    assert!(bincode::deserialize::<MerkleHashSubtree>(&claim).is_err());
}

#[test]
fn a_form_that_keeps_the_rules_is_read() {
    let subtree = MerkleHashSubtree::from_chunks(false, &numbered(0..24), false);
    let bytes = bincode::serialize(&form_of(&subtree.to_json().unwrap())).unwrap();
    assert_eq!(bytes, bincode::serialize(&subtree).unwrap());
    assert_eq!(bincode::deserialize::<MerkleHashSubtree>(&bytes).unwrap(), subtree);
}

#[test]
fn a_hasher_keeps_its_state() {
    let mut hasher = U64DirectHasher::<DataHash>::default();
    hasher.write_u64(7);
    let text = serde_json::to_string(&hasher).unwrap();
    assert_eq!(text, r#"{"state":7}"#);
    assert_eq!(
        serde_json::from_str::<U64DirectHasher<DataHash>>(&text)
            .unwrap()
            .finish(),
        7
    );
    let bytes = bincode::serialize(&hasher).unwrap();
    assert_eq!(bytes, bytes_of(&[7], &[]));
    assert_eq!(
        bincode::deserialize::<U64DirectHasher<DataHash>>(&bytes)
            .unwrap()
            .finish(),
        7
    );
}

#[test]
fn a_map_is_a_sequence_of_pairs() {
    let map = PassThroughHashMap::from([(7u64, "seven".to_owned())]);
    let text = serde_json::to_string(&map).unwrap();
    assert_eq!(text, r#"[[7,"seven"]]"#);
    let bytes = bincode::serialize(&map).unwrap();
    assert_eq!(bytes, [&bytes_of(&[1, 7, 5], &[])[..], b"seven"].concat());
    let twice = r#"[[1,"a"],[2,"b"],[1,"c"]]"#;
    let read: PassThroughHashMap<u64, String> = serde_json::from_str(twice).unwrap();
    assert_eq!((read.len(), &*read[&1]), (2, "c"));
    let error = serde_json::from_str::<PassThroughHashMap<u64, String>>("{}").unwrap_err();
    assert!(
        error.to_string().contains("a sequence of pairs of key and value"),
        "{error}"
    );
}

// An iterator that claims to have this many elements.
struct Claiming<I>(I, usize);

impl<I: Iterator> Iterator for Claiming<I> {
    type Item = I::Item;

    fn next(&mut self) -> Option<I::Item> {
        self.0.next()
    }

    fn size_hint(&self) -> (usize, Option<usize>) {
        (self.1, Some(self.1))
    }
}

#[test]
fn a_map_takes_memory_for_the_pairs_that_are_read() {
    for claimed in [1, 100_000, usize::MAX] {
        let pairs = Claiming([vec![7u64, 8]].into_iter(), claimed);
        let pairs = SeqDeserializer::<_, serde::de::value::Error>::new(pairs);
        let map = PassThroughHashMap::<u64, u64>::deserialize(pairs).unwrap();
        assert_eq!((map.len(), map[&7]), (1, 8));
        assert!(map.capacity() < 10);
    }
}

#[test]
fn drawn_maps_are_read_back() {
    let mut draws = Draws(13);
    for _ in 0..50 {
        let count = draws.below(60);
        let map: PassThroughHashMap<_, _> = draws.nodes(count).into_iter().collect();
        let text = serde_json::to_string(&map).unwrap();
        let read: PassThroughHashMap<DataHash, u64> = serde_json::from_str(&text).unwrap();
        assert_eq!(*read, *map);
        let bytes = bincode::serialize(&map).unwrap();
        let read: PassThroughHashMap<DataHash, u64> = bincode::deserialize(&bytes).unwrap();
        assert_eq!(*read, *map);
    }
}
