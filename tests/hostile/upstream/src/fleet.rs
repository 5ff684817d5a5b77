//! Subtrees that one service merged and saved by `xet-core-structures`, and another reads by the crate `yurewha`.

use super::{ours, theirs, Chunk, Draws, Found};

/// How a service merges its ranges: a name, whether the first is marked at its start, and whether it merges from left to right.
/// The last kind isn't merged.
const KINDS: [(&str, bool, Option<bool>); 5] = [
    ("ranges from the start, from left to right", true, Some(true)),
    ("ranges from the start, in random order", true, Some(false)),
    ("open ranges, from left to right", false, Some(true)),
    ("open ranges, in random order", false, Some(false)),
    ("one range, not merged", true, None),
];

/// What became of the saved subtrees of a kind.
#[derive(Default)]
struct Fates {
    refused_by_rule_9: usize,
    refused_by_rule_12: usize,
    right_in_theirs_though_refused: usize,
    wrong_in_both: usize,
}

/// The places where a list is cut, so that ranges have up to 200 chunks.
fn cuts(draws: &mut Draws, end: usize, is_merged: bool) -> Vec<usize> {
    let mut cuts = vec![0];
    while is_merged && cuts[cuts.len() - 1] < end {
        cuts.push((cuts[cuts.len() - 1] + 1 + draws.below(200)).min(end));
    }
    if !is_merged {
        cuts.push(end);
    }
    cuts
}

/// Pairs of places, of which the second is merged into the first.
fn merges(draws: &mut Draws, count: usize, from_the_left: bool) -> Vec<(usize, usize)> {
    let mut left: Vec<usize> = (0..count).collect();
    let mut merges = Vec::new();
    while left.len() > 1 {
        let at = if from_the_left { 0 } else { draws.below(left.len() - 1) };
        merges.push((left[at], left.remove(at + 1)));
    }
    merges
}

fn follow(
    found: &mut Found,
    fates: &mut Fates,
    draws: &mut Draws,
    (name, at_start, order): (&str, bool, Option<bool>),
) {
    let count = 20 + draws.below(1500);
    let chunks: Vec<Chunk> = (0..count)
        .map(|_| (draws.bytes(), 1 + draws.number() % 100_000))
        .collect();
    let end = count * 2 / 3;
    let cuts = cuts(draws, end, order.is_some());
    let ranges: Vec<_> = (0..cuts.len() - 1)
        .map(|i| theirs::subtree(&chunks[cuts[i]..cuts[i + 1]], (at_start && i == 0, false)))
        .collect();
    let merges = merges(draws, ranges.len(), order.unwrap_or(true));
    let saved = theirs::text(&theirs::merged(ranges, &merges));
    let root = Ok(Some(ours::roots(&chunks, &[0; 32])[0].clone()));
    let (their, our) = (
        theirs::finished(&saved, at_start, &chunks[end..]),
        ours::finished(&saved, at_start, &chunks[end..]),
    );
    match &our {
        Ok(_) if our == root => {}
        Ok(_) => {
            // Whoever reads it, the root is wrong.
            found.compare(&format!("{name}: a wrong root"), their != root, order.is_some());
            fates.wrong_in_both += 1;
        }
        Err(error) => {
            let (of_9, of_12) = (error.contains("rule 9:"), error.contains("rule 12:"));
            let is_known =
                order.is_some() && of_9 == at_start && of_12 != at_start && error.contains("xet-core-structures");
            found.compare(&format!("{name}: {error}"), is_known, true);
            fates.refused_by_rule_9 += usize::from(of_9);
            fates.refused_by_rule_12 += usize::from(of_12);
            fates.right_in_theirs_though_refused += usize::from(their == root);
        }
    }
}

/// What becomes of some subtrees of each kind.
pub fn compare(found: &mut Found, seed: u64, count: u64) {
    let mut draws = Draws(seed);
    for kind in KINDS {
        let mut fates = Fates::default();
        for _ in 0..count {
            follow(found, &mut fates, &mut draws, kind);
        }
        println!(
            "known: {count} saved of {}: rule 9 refuses {}, rule 12 {}, and xet-core has the right root of {} of these; {} end in a wrong root in both",
            kind.0, fates.refused_by_rule_9, fates.refused_by_rule_12, fates.right_in_theirs_though_refused, fates.wrong_in_both
        );
    }
}
