//! JSON texts, and the rules that forged ones break.

use crate::draws::{numbered, reference, Draws};
use yurewha::error::CoreError;
use yurewha::merklehash::{DataHash, MerkleHashSubtree};

/// Values that say no subtree, each with the least rule that it breaks.
pub fn forged() -> Vec<(u8, String)> {
    let text = |at_start, at_end, levels: &str, nodes: &str| {
        format!(r#"{{"at_end":{at_end},"at_start":{at_start},"levels":{levels},"nodes":{nodes}}}"#)
    };
    let node = |size: &str| format!(r#"{{"hash":"{}","size":{size}}}"#, DataHash::marker());
    let nodes = |count: usize| format!("[{}]", vec![node("1"); count].join(","));
    let mut forged: Vec<_> = ["[]", "null", "0", "\"\"", "true", "[[],[[0,0]],true,true]"]
        .map(|value| (1, value.to_owned()))
        .into();
    forged.push((2, "{}".to_owned()));
    forged.push((2, text(true, true, "null", "[]")));
    forged.push((2, text(true, true, "[[0,0]]", "{}")));
    forged.push((2, text(true, true, "[[0,0]]", "[]").replace("true", "1")));
    for member in ["at_end", "at_start", "levels", "nodes"] {
        forged.push((2, text(true, true, "[[0,0]]", "[]").replace(member, "other")));
    }
    for size in ["-1", "-0", "1.0", "1e3", "18446744073709551616", "null", "\"1\""] {
        forged.push((3, text(false, false, "[[1,0]]", &format!("[{}]", node(size)))));
        forged.push((4, text(false, false, &format!("[[{size},0]]"), &nodes(1))));
    }
    forged.push((3, text(false, false, "[[1,0]]", "[[]]")));
    forged.push((3, text(false, false, "[[1,0]]", r#"[{"size":1}]"#)));
    forged.push((3, text(false, false, "[[1,0]]", &nodes(1).replace("ffff", "gfff"))));
    forged.push((4, text(false, false, "[[1]]", &nodes(1))));
    forged.push((4, text(false, false, "[[1,0,0]]", &nodes(1))));
    forged.push((5, text(true, true, "[]", "[]")));
    forged.push((6, text(true, true, "[[1,0]]", "[]")));
    forged.push((6, text(true, true, "[[18446744073709551615,1]]", "[]")));
    forged.push((
        6,
        text(true, true, "[[9223372036854775808,0],[9223372036854775808,0]]", "[]"),
    ));
    let great = node("18446744073709551615");
    forged.push((7, text(false, false, "[[2,0]]", &format!("[{great},{}]", node("1")))));
    forged.push((8, text(false, false, "[[0,1]]", &nodes(1))));
    forged.push((9, text(true, false, "[[1,0],[1,0]]", &nodes(2))));
    forged.push((10, text(true, true, "[[2,0]]", &nodes(2))));
    forged.push((11, text(true, true, "[[0,0],[0,0]]", "[]")));
    let canonical = MerkleHashSubtree::from_chunks(false, &numbered(0..24), false)
        .to_json()
        .unwrap();
    // The left side of level 0 ends with eight nodes more.
    let twenty = numbered(0..20);
    let lost = MerkleHashSubtree::from_chunks(false, &twenty, false).to_json().unwrap();
    let more: String = numbered(16..24)
        .iter()
        .map(|(hash, size)| format!(r#",{{"hash":"{hash}","size":{size}}}"#))
        .collect();
    let eighth = format!(r#""{}","size":1}}"#, twenty[7].0);
    let right = lost.find(&format!(r#",{{"hash":"{}""#, twenty[16].0)).unwrap();
    let forged_left = lost[..right].replace(&eighth, &format!("{eighth}{more}")) + "]}";
    forged.push((12, forged_left.replace("[8,4]", "[16,0]")));
    // The four right nodes are no natural cuts.
    let last_cut = DataHash::from([23, 0, 0, 0]).hex();
    forged.push((13, canonical.replace(&last_cut, &DataHash::from([23, 0, 0, 1]).hex())));
    forged
}

#[test]
fn texts_are_those_of_the_examples() {
    let one = MerkleHashSubtree::from_chunks(true, &reference(&[1]), false);
    let text = r#"{"at_end":false,"at_start":true,"levels":[[1,0]],"nodes":[{"hash":"cfc5d07f6f03c29bbf424132963fe08d19a37d5757aaf520bf08119f05cd56d6","size":100}]}"#;
    assert_eq!(one.to_json().unwrap(), text);
    let empty = MerkleHashSubtree::from_chunks(true, &[], true);
    assert_eq!(
        empty.to_json().unwrap(),
        r#"{"at_end":true,"at_start":true,"levels":[[0,0]],"nodes":[]}"#
    );
}

#[test]
fn drawn_subtrees_are_read_back() {
    let mut draws = Draws(6);
    for _ in 0..300 {
        let count = draws.below(100);
        let nodes = draws.nodes(count);
        let subtree = MerkleHashSubtree::from_chunks(draws.truth(), &nodes, draws.truth());
        assert_eq!(MerkleHashSubtree::from_json(&subtree.to_json().unwrap()), Ok(subtree));
    }
}

#[test]
fn the_greatest_numbers_have_room() {
    let chunk = (DataHash::marker(), u64::MAX);
    let subtree = MerkleHashSubtree::from_chunks(false, &[chunk], false);
    let text = subtree.to_json().unwrap();
    assert!(text.contains("18446744073709551615"));
    assert_eq!(MerkleHashSubtree::from_json(&text), Ok(subtree));
}

#[test]
fn each_rule_is_named() {
    let forged = forged();
    for (rule, text) in &forged {
        assert_eq!(
            MerkleHashSubtree::from_json(text),
            Err(CoreError::InvalidJson(*rule)),
            "{text}"
        );
    }
    for rule in 1..=13 {
        assert!(forged.iter().any(|(broken, _)| *broken == rule), "{rule}");
    }
}

#[test]
fn what_is_no_json_text_is_refused() {
    let text = MerkleHashSubtree::from_chunks(true, &[], true).to_json().unwrap();
    for length in 0..text.len() {
        assert_eq!(
            MerkleHashSubtree::from_json(&text[..length]),
            Err(CoreError::InvalidText)
        );
    }
    assert_eq!(
        MerkleHashSubtree::from_json(&format!("{text}{text}")),
        Err(CoreError::InvalidText)
    );
}

#[test]
fn other_members_are_ignored_and_the_last_of_equal_ones_counts() {
    let text = r#"{"more":[{}],"at_end":1,"nodes":[],"levels":[[0,0]],"at_start":true,"at_end":true}"#;
    assert_eq!(
        MerkleHashSubtree::from_json(text),
        Ok(MerkleHashSubtree::from_chunks(true, &[], true))
    );
}

#[test]
fn errors_have_their_texts() {
    let texts = [
        (CoreError::InvalidArguments, "invalid arguments"),
        (CoreError::SizeOverflow, "size overflow"),
        (CoreError::OutOfMemory, "out of memory"),
        (CoreError::InvalidText, "invalid text"),
        (CoreError::InvalidJson(14), "invalid JSON: rule 14"),
        (CoreError::InvalidProof(9), "invalid range proof: rule 9"),
    ];
    for (error, text) in texts {
        assert_eq!(error.to_string(), text);
    }
}

// Each line has the rule that refuses a text, or `read`, a list of chunks of size 1, of which those that are natural cuts
// are bars, and the text that `xet-core-structures` 1.5.2 saved after it had merged ranges of them.
const SAVED_BY_XET_CORE: &str = include_str!("saved_by_xet_core.txt");

#[test]
fn what_xet_core_saves_of_merged_ranges_is_refused_with_the_cause_or_is_another_subtree() {
    let mut fates = Vec::new();
    for line in SAVED_BY_XET_CORE.lines() {
        let [fate, pattern, text] = line.splitn(3, ' ').collect::<Vec<_>>()[..] else {
            panic!("{line}");
        };
        let node = |(i, letter)| (DataHash::from([i, 0, 0, u64::from(letter != '|')]), 1);
        let chunks: Vec<_> = (1..).zip(pattern.chars()).map(node).collect();
        let ours = MerkleHashSubtree::from_chunks(text.contains(r#""at_start":true"#), &chunks, false);
        match MerkleHashSubtree::from_json(text) {
            Ok(read) => assert_eq!(
                (fate, read == ours, read.total_size()),
                ("read", false, ours.total_size())
            ),
            Err(error) => {
                let told = error.to_string();
                assert!(told.contains(&format!("rule {fate}:")), "{told}");
                assert!(told.contains("xet-core-structures") && told.contains("anew"), "{told}");
            }
        }
        fates.push(fate);
    }
    assert_eq!(fates, ["9", "12", "read"]);
}
