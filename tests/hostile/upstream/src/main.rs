//! Compares the crate `yurewha` with the crate `xet-core-structures` 1.5.2, on the lists of tests/vectors/upstream.json and on
//! random lists of a seed.

#[path = "../../../../bindings/rust/tests/api/numbers.rs"]
mod numbers;

mod fleet;

use numbers::Draws;
use serde_json::Value;
use std::fmt::Debug;
use std::process::ExitCode;
use std::{env, fs};
use xet_core_structures::merklehash::{compute_data_hash, MerkleHash};

/// A chunk's hash, as its bytes, and its size.
type Chunk = ([u8; 32], u64);

const VECTORS: &str = concat!(env!("CARGO_MANIFEST_DIR"), "/../../vectors/upstream.json");
const MARKS: [(bool, bool); 4] = [(false, false), (true, false), (false, true), (true, true)];
// What docs/DIFFERENCES.md has of `xet-core-structures` for (a (b c)) d.
const WRONG_ROOT: &str = "9c365f154bf2d0fa6438d8ccb65ff15e917e819ff384eec0b17f59fc5c250280";
// The bracketings of four ranges. Each pair of places merges what stands at the second into what stands at the first.
const BRACKETINGS: [(&str, [(usize, usize); 3]); 5] = [
    ("((a b) c) d", [(0, 1), (0, 2), (0, 3)]),
    ("(a (b c)) d", [(1, 2), (0, 1), (0, 3)]),
    ("(a b) (c d)", [(0, 1), (2, 3), (0, 2)]),
    ("a ((b c) d)", [(1, 2), (1, 3), (0, 1)]),
    ("a (b (c d))", [(2, 3), (1, 2), (0, 1)]),
];

// A module with the calls of one crate. Both crates have the same names, but other types.
macro_rules! calls_of {
    ($name:ident, $library:ident) => {
        mod $name {
            use super::{sorted_text, Chunk};
            use $library::merklehash::{file_hash, file_hash_with_salt, xorb_hash, MerkleHash, MerkleHashSubtree};

            pub type Subtree = MerkleHashSubtree;

            fn nodes(chunks: &[Chunk]) -> Vec<(MerkleHash, u64)> {
                chunks
                    .iter()
                    .map(|(hash, size)| (MerkleHash::from(*hash), *size))
                    .collect()
            }

            /// The root, the file hash, and the file hash under a salt.
            pub fn roots(chunks: &[Chunk], salt: &[u8; 32]) -> [String; 3] {
                let nodes = nodes(chunks);
                [
                    xorb_hash(&nodes),
                    file_hash(&nodes),
                    file_hash_with_salt(&nodes, salt),
                ]
                .map(|hash| hash.hex())
            }

            pub fn subtree(chunks: &[Chunk], (at_start, at_end): (bool, bool)) -> Subtree {
                Subtree::from_chunks(at_start, &nodes(chunks), at_end)
            }

            /// The compact JSON text of a subtree, with members in alphabetical order.
            pub fn text(subtree: &Subtree) -> String {
                sorted_text(&serde_json::to_value(subtree).expect("a subtree is written"))
            }

            /// The text of the subtree that is read from a text.
            pub fn read_again(text: &str) -> Result<String, String> {
                let read: Result<Subtree, _> = serde_json::from_str(text);
                read.map(|subtree| self::text(&subtree))
                    .map_err(|error| error.to_string())
            }

            pub fn final_hash(subtree: &Subtree) -> Option<String> {
                subtree.final_hash().map(|hash| hash.hex())
            }

            /// The root of a list: of a subtree that is read from a text, between an empty range at the start unless that is marked,
            /// and the rest of the chunks.
            pub fn finished(text: &str, at_start: bool, rest: &[Chunk]) -> Result<Option<String>, String> {
                let read: Subtree = serde_json::from_str(text).map_err(|error| error.to_string())?;
                let mut ranges = vec![read, subtree(rest, (false, true))];
                if !at_start {
                    ranges.insert(0, subtree(&[], (true, false)));
                }
                let merges: Vec<_> = (1..ranges.len()).map(|place| (0, place)).collect();
                Ok(final_hash(&merged(ranges, &merges)))
            }

            /// The subtree at place 0 after some merges.
            pub fn merged(mut ranges: Vec<Subtree>, merges: &[(usize, usize)]) -> Subtree {
                for (front, back) in merges {
                    let back = ranges[*back].clone();
                    ranges[*front].merge_into(&back).expect("no mark stands between");
                }
                ranges.swap_remove(0)
            }
        }
    };
}

calls_of!(theirs, xet_core_structures);
calls_of!(ours, yurewha);

fn sorted_text(value: &Value) -> String {
    match value {
        Value::Array(items) => format!("[{}]", items.iter().map(sorted_text).collect::<Vec<_>>().join(",")),
        Value::Object(members) => {
            let mut texts: Vec<_> = members
                .iter()
                .map(|(name, it)| format!("\"{name}\":{}", sorted_text(it)))
                .collect();
            texts.sort();
            format!("{{{}}}", texts.join(","))
        }
        other => other.to_string(),
    }
}

/// What was compared, and how often the known difference was seen.
#[derive(Default)]
struct Found {
    compared: usize,
    differences: usize,
    merges: usize,
    other_levels: usize,
    other_roots: [usize; 5],
}

impl Found {
    fn compare<T: PartialEq + Debug>(&mut self, what: &str, theirs: T, wanted: T) {
        self.compared += 1;
        if theirs != wanted {
            self.differences += 1;
            println!("DIFFERENT: {what}\n  xet-core-structures: {theirs:?}\n  wanted: {wanted:?}");
        }
    }
}

impl Draws {
    fn bytes(&mut self) -> [u8; 32] {
        let words = [self.number(), self.number(), self.number(), self.number()].map(u64::to_le_bytes);
        std::array::from_fn(|i| words[i / 8][i % 8])
    }

    /// A list of fewer than 10, 40, 100, 300 or 1000 chunks. On average none to all of four are natural cuts, or
    /// the gaps between natural cuts are random, from 1 to 10.
    fn list(&mut self) -> Vec<Chunk> {
        let most = [10, 40, 100, 300, 1000][self.below(5)];
        let (count, kind) = (self.below(most), self.below(8));
        let mut until_cut = 0;
        let mut chunk = |_| {
            let mut hash = self.bytes();
            if until_cut == 0 {
                until_cut = 1 + self.below(10);
            }
            until_cut -= 1;
            let is_cut = if kind < 5 { self.below(4) < kind } else { until_cut == 0 };
            hash[24] = if is_cut { hash[24] & !3 } else { hash[24] | 1 };
            (hash, self.number() >> (14 + self.below(50)))
        };
        (0..count).map(&mut chunk).collect()
    }
}

/// Both crates' hashes of a list, its subtrees, and what each crate reads of the other's texts.
fn compare_list(found: &mut Found, name: &str, chunks: &[Chunk], salt: &[u8; 32]) {
    found.compare(
        &format!("{name}: roots"),
        theirs::roots(chunks, salt),
        ours::roots(chunks, salt),
    );
    for marks in MARKS {
        let what = format!("{name}, marks {marks:?}");
        let (their, our) = (theirs::subtree(chunks, marks), ours::subtree(chunks, marks));
        let (their_text, our_text) = (theirs::text(&their), ours::text(&our));
        found.compare(&what, &their_text, &our_text);
        found.compare(
            &format!("{what}: final hash"),
            theirs::final_hash(&their),
            ours::final_hash(&our),
        );
        let read = (theirs::read_again(&our_text), ours::read_again(&their_text));
        found.compare(
            &format!("{what}: the other's text"),
            read,
            (Ok(our_text), Ok(their_text)),
        );
    }
}

/// Two ranges under all marks. The merged levels may differ, as DIFFERENCES says; the root of all chunks may not.
fn compare_two_ranges(found: &mut Found, name: &str, chunks: &[Chunk], cut: usize) {
    let (front, back) = chunks.split_at(cut);
    for (at_start, at_end) in MARKS {
        let marks = [(at_start, false), (false, at_end)];
        let their = theirs::merged(
            vec![theirs::subtree(front, marks[0]), theirs::subtree(back, marks[1])],
            &[(0, 1)],
        );
        let our = ours::merged(
            vec![ours::subtree(front, marks[0]), ours::subtree(back, marks[1])],
            &[(0, 1)],
        );
        let what = format!("{name}, cut at {cut}, marks {:?}", (at_start, at_end));
        found.compare(
            &format!("{what}: final hash"),
            theirs::final_hash(&their),
            ours::final_hash(&our),
        );
        found.merges += 1;
        found.other_levels += usize::from(theirs::text(&their) != ours::text(&our));
    }
}

/// Four ranges of a whole list under each bracketing. Only from left to right must their root be right.
fn compare_bracketings(found: &mut Found, name: &str, parts: &[&[Chunk]; 4]) {
    let marks = [MARKS[1], MARKS[0], MARKS[0], MARKS[2]];
    let root = Some(ours::roots(&parts.concat(), &[0; 32])[0].clone());
    for (number, (bracketing, merges)) in BRACKETINGS.iter().enumerate() {
        let their = theirs::merged((0..4).map(|i| theirs::subtree(parts[i], marks[i])).collect(), merges);
        let our = ours::merged((0..4).map(|i| ours::subtree(parts[i], marks[i])).collect(), merges);
        let what = format!("{name}, {bracketing}");
        found.compare(
            &format!("{what}: the root of all chunks"),
            &root,
            &ours::final_hash(&our),
        );
        let is_other = theirs::final_hash(&their) != root;
        found.other_roots[number] += usize::from(is_other);
        if number == 0 {
            found.compare(&what, theirs::final_hash(&their), root.clone());
        }
    }
}

/// The four ranges of DIFFERENCES.
fn compare_known(found: &mut Found) {
    let node = |i: u64| -> Chunk {
        let words = [i, 0, 0, u64::from(i % 4 != 3)].map(u64::to_le_bytes);
        (std::array::from_fn(|k| words[k / 8][k % 8]), 1)
    };
    let all: Vec<Chunk> = (0..28).map(node).collect();
    let (parts, marks) = (
        [&all[..4], &all[4..24], &all[24..], &[]],
        [MARKS[1], MARKS[0], MARKS[0], MARKS[2]],
    );
    let their = theirs::merged(
        (0..4).map(|i| theirs::subtree(parts[i], marks[i])).collect(),
        &BRACKETINGS[1].1,
    );
    found.compare(
        "the root that DIFFERENCES has",
        theirs::final_hash(&their),
        Some(WRONG_ROOT.to_string()),
    );
    compare_bracketings(found, "the ranges of DIFFERENCES", &parts);
}

fn compare_drawn(found: &mut Found, seed: u64, count: u64) {
    for number in 0..count {
        let mut draws = Draws(seed.wrapping_mul(1 << 32).wrapping_add(number));
        let (salt, chunks, name) = (draws.bytes(), draws.list(), format!("seed {seed}, list {number}"));
        compare_list(found, &name, &chunks, &salt);
        let mut cuts = [(); 3].map(|()| draws.below(chunks.len() + 1));
        cuts.sort();
        compare_two_ranges(found, &name, &chunks, cuts[1]);
        let [first, second, third] = cuts;
        let parts = [
            &chunks[..first],
            &chunks[first..second],
            &chunks[second..third],
            &chunks[third..],
        ];
        compare_bracketings(found, &name, &parts);
    }
}

/// The list of a test, by a rule of tests/vectors/README.md.
fn list_of(test: &Value) -> Vec<Chunk> {
    if let Some(pattern) = test["list"]["pattern"].as_str() {
        let node = |(i, letter): (u64, char)| {
            let words = [i + 1, 2 * (i + 1), 3 * (i + 1), 4 * (i + 1) + u64::from(letter != '|')].map(u64::to_le_bytes);
            (std::array::from_fn(|k| words[k / 8][k % 8]), 7 + 100 * i)
        };
        return (0..).zip(pattern.chars()).map(node).collect();
    }
    let drawn = &test["list"]["drawn"];
    let first: u64 = drawn["firstSeed"]
        .as_str()
        .and_then(|seed| seed.parse().ok())
        .expect("a first seed");
    let count = drawn["count"].as_u64().expect("a count");
    let node = |i: u64| {
        (
            MerkleHash::random_from_seed(first.wrapping_add(i)).into(),
            100 + 977 * i % 9901,
        )
    };
    (0..count).map(node).collect()
}

fn bytes_of(digits: &str) -> [u8; 32] {
    std::array::from_fn(|i| u8::from_str_radix(&digits[2 * i..2 * i + 2], 16).expect("two hex digits"))
}

/// What a test of tests/vectors/upstream.json says, and what `xet-core-structures` gives.
fn compare_test(found: &mut Found, test: &Value) {
    let (name, chunks) = (format!("upstream.json, tcId {}", test["tcId"]), list_of(test));
    for row in test["salted"].as_array().into_iter().flatten() {
        let salt = bytes_of(row["saltBytes"].as_str().expect("a salt"));
        let wanted = [&test["root"], &test["fileHash"], &row["fileHash"]];
        found.compare(&name, theirs::roots(&chunks, &salt).map(Value::from).each_ref(), wanted);
    }
    if let (Some(at_start), Some(at_end)) = (test["atStart"].as_bool(), test["atEnd"].as_bool()) {
        let subtree = theirs::subtree(&chunks, (at_start, at_end));
        let text = theirs::text(&subtree);
        let value: Value = serde_json::from_str(&text).expect("the text of a subtree");
        let hashes = (
            Value::from(theirs::final_hash(&subtree)),
            Value::from(compute_data_hash(text.as_bytes()).hex()),
        );
        found.compare(&name, &value["levels"], &test["levels"]);
        found.compare(&name, (&hashes.0, &hashes.1), (&test["finalHash"], &test["jsonHash"]));
    }
}

fn compare_vectors(found: &mut Found) {
    let text = fs::read_to_string(VECTORS).expect("tests/vectors/upstream.json");
    let value: Value = serde_json::from_str(&text).expect("JSON");
    for group in value["testGroups"].as_array().expect("groups of tests") {
        for test in group["tests"].as_array().expect("tests") {
            compare_test(found, test);
        }
    }
}

fn main() -> ExitCode {
    let mut words = env::args().skip(1).map(|word| word.parse().expect("a whole number"));
    let (seed, count) = (words.next().unwrap_or(1), words.next().unwrap_or(2000));
    let mut found = Found::default();
    compare_vectors(&mut found);
    println!(
        "tests/vectors/upstream.json: {} values, {} different",
        found.compared, found.differences
    );
    compare_known(&mut found);
    compare_drawn(&mut found, seed, count);
    println!(
        "with {count} lists of seed {seed}: {} values, {} different",
        found.compared, found.differences
    );
    println!(
        "known: {} of {} merges of two ranges have other levels",
        found.other_levels, found.merges
    );
    for ((bracketing, _), wrong) in BRACKETINGS.iter().zip(found.other_roots) {
        println!(
            "known: {wrong} of {} merges as {bracketing} have another root",
            count + 1
        );
    }
    fleet::compare(&mut found, seed, count / 5);
    ExitCode::from(u8::from(found.differences > 0))
}
