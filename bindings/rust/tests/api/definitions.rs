//! A plain reading of the definitions: groups, roots, stable points and canonical subtrees of whole lists.

use std::fmt::Write;
use yurewha::merklehash::{compute_internal_node_hash, MerkleHash};
use yurewha::own::Node;

fn is_cut(node: &Node) -> bool {
    node.0[3] % 4 == 0
}

fn group_length(nodes: &[Node]) -> usize {
    (2..nodes.len().min(9))
        .find(|&index| is_cut(&nodes[index]))
        .map_or(nodes.len().min(9), |cut| cut + 1)
}

pub fn groups(mut nodes: &[Node]) -> Vec<&[Node]> {
    let mut groups = Vec::new();
    while !nodes.is_empty() {
        let (group, rest) = nodes.split_at(group_length(nodes));
        groups.push(group);
        nodes = rest;
    }
    groups
}

fn parent(group: &[Node]) -> Node {
    let mut text = String::new();
    for (hash, size) in group {
        writeln!(text, "{hash} : {size}").unwrap();
    }
    let size = group.iter().map(|node| node.1).sum();
    (compute_internal_node_hash(text.as_bytes()), size)
}

fn parents(nodes: &[Node]) -> Vec<Node> {
    groups(nodes).into_iter().map(parent).collect()
}

pub fn root(nodes: &[Node]) -> MerkleHash {
    match nodes {
        [] => MerkleHash::default(),
        [(hash, _)] => *hash,
        _ => root(&parents(nodes)),
    }
}

// The stable triples of a list: the place of the first natural cut, and the stable point.
fn triples(nodes: &[Node]) -> Vec<(usize, usize)> {
    let cuts: Vec<_> = (0..nodes.len()).filter(|&i| is_cut(&nodes[i])).collect();
    cuts.windows(3)
        .filter(|cuts| cuts.windows(2).all(|gap| (3..=7).contains(&(gap[1] - gap[0]))))
        .map(|cuts| (cuts[0], cuts[1] + 1))
        .collect()
}

pub fn stable_start(nodes: &[Node]) -> Option<usize> {
    triples(nodes).first().map(|triple| triple.1)
}

pub fn stable_end(nodes: &[Node]) -> Option<usize> {
    triples(nodes).last().map(|triple| triple.1)
}

fn split(at_start: bool, nodes: &[Node], at_end: bool) -> Option<(usize, usize)> {
    if nodes.len() < 2 {
        return None;
    }
    let low = if at_start { Some(0) } else { stable_start(nodes) }?;
    let last = || triples(nodes).into_iter().rfind(|triple| triple.0 >= low);
    let high = if at_end {
        Some(nodes.len())
    } else {
        last().map(|triple| triple.1)
    }?;
    Some((low, high))
}

/// The levels of the canonical subtree of a list, each with its left and its right nodes.
pub fn levels(at_start: bool, nodes: &[Node], at_end: bool) -> Vec<(Vec<Node>, Vec<Node>)> {
    match split(at_start, nodes, at_end) {
        None => vec![(nodes.to_vec(), Vec::new())],
        Some((low, high)) => {
            let mut all = vec![(nodes[..low].to_vec(), nodes[high..].to_vec())];
            all.extend(levels(at_start, &parents(&nodes[low..high]), at_end));
            all
        }
    }
}

/// The JSON text of the canonical subtree of a list.
pub fn json(at_start: bool, nodes: &[Node], at_end: bool) -> String {
    let levels = levels(at_start, nodes, at_end);
    let counts: Vec<_> = levels
        .iter()
        .map(|(left, right)| format!("[{},{}]", left.len(), right.len()))
        .collect();
    let left = levels.iter().flat_map(|level| &level.0);
    let right = levels.iter().rev().flat_map(|level| &level.1);
    let nodes: Vec<_> = left
        .chain(right)
        .map(|(hash, size)| format!(r#"{{"hash":"{hash}","size":{size}}}"#))
        .collect();
    format!(
        r#"{{"at_end":{at_end},"at_start":{at_start},"levels":[{}],"nodes":[{}]}}"#,
        counts.join(","),
        nodes.join(",")
    )
}
