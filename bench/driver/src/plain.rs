//! The peer of roots: plain loops over the crate `blake3`.

use std::fmt::Write;

pub type Hash = [u64; 4];

/// A hash and a size.
pub type Node = (Hash, u64);

pub const DATA_KEY: [u8; 32] = [
    102, 151, 245, 119, 91, 149, 80, 222, 49, 53, 203, 172, 165, 151, 24, 28, 157, 228, 33, 16, 155, 235, 43, 88, 180,
    208, 176, 75, 147, 173, 242, 41,
];

const INTERNAL_KEY: [u8; 32] = [
    1, 126, 197, 199, 165, 71, 41, 150, 253, 148, 102, 102, 180, 138, 2, 230, 93, 221, 83, 111, 55, 199, 109, 210, 248,
    99, 82, 230, 74, 83, 113, 63,
];

const SYMBOLS: &[u8; 64] = b"ABCDEFGHIJKLMNOPQRSTUVWXYZabcdefghijklmnopqrstuvwxyz0123456789-_";

/// Adds a node's line to the text of a group.
pub type WriteLine = fn(&mut String, &Node);

/// Adds the hex text of a hash, by the standard library's formatter.
pub fn write_formatted(text: &mut String, hash: &Hash) {
    for word in hash {
        write!(text, "{word:016x}").expect("a string takes what is written");
    }
}

/// By the standard library's formatter.
pub fn formatted_line(text: &mut String, (hash, size): &Node) {
    write_formatted(text, hash);
    writeln!(text, " : {size}").expect("a string takes what is written");
}

/// The hash by the crate `hex`, and the size by the standard library's formatter.
pub fn encoded_line(text: &mut String, (hash, size): &Node) {
    text.push_str(as_text(&hex_digits(hash)));
    writeln!(text, " : {size}").expect("a string takes what is written");
}

/// The hash by a table of digits, and the size by the crate `itoa`.
pub fn table_line(text: &mut String, (hash, size): &Node) {
    text.push_str(as_text(&table_digits(hash)));
    text.push_str(" : ");
    text.push_str(itoa::Buffer::new().format(*size));
    text.push('\n');
}

fn as_text(digits: &[u8; 64]) -> &str {
    std::str::from_utf8(digits).expect("hex digits are ASCII")
}

/// The hex text by a table of digits into a fixed buffer, as `xet-core-structures` 1.5.2 writes it.
pub fn table_digits(hash: &Hash) -> [u8; 64] {
    let mut digits = [0; 64];
    for (digits, word) in digits.chunks_exact_mut(16).zip(hash) {
        for (i, digit) in digits.iter_mut().enumerate() {
            *digit = b"0123456789abcdef"[(word >> (60 - 4 * i) & 15) as usize];
        }
    }
    digits
}

/// The hex text: each word from its highest digit down.
pub fn hex_digits(hash: &Hash) -> [u8; 64] {
    let mut bytes = [0; 32];
    for (bytes, word) in bytes.chunks_exact_mut(8).zip(hash) {
        bytes.copy_from_slice(&word.to_be_bytes());
    }
    let mut digits = [0; 64];
    hex::encode_to_slice(bytes, &mut digits).expect("64 digits");
    digits
}

/// The URL-safe base64 text without padding, by a table of symbols.
pub fn base64_text(hash: &Hash) -> String {
    let bytes: Vec<u8> = hash.iter().flat_map(|word| word.to_le_bytes()).collect();
    let mut text = String::with_capacity(43);
    for group in bytes.chunks(3) {
        let bits = group.iter().fold(0, |bits, &byte| bits << 8 | u32::from(byte)) << (8 * (3 - group.len()));
        for symbol in 0..=group.len() {
            text.push(char::from(SYMBOLS[(bits >> (18 - 6 * symbol) & 63) as usize]));
        }
    }
    text
}

/// The hash of a hex text, by the crate `hex`.
pub fn decoded(text: &str) -> Option<Hash> {
    let mut bytes = [0; 32];
    hex::decode_to_slice(text, &mut bytes).ok()?;
    Some(words(&bytes, u64::from_be_bytes))
}

/// The same by the standard library, which takes signs too.
pub fn parsed(text: &str) -> Option<Hash> {
    if text.len() != 64 {
        return None;
    }
    let mut hash = [0; 4];
    for (i, word) in hash.iter_mut().enumerate() {
        *word = u64::from_str_radix(text.get(16 * i..16 * i + 16)?, 16).ok()?;
    }
    Some(hash)
}

fn words(bytes: &[u8; 32], word: fn([u8; 8]) -> u64) -> Hash {
    let mut hash = [0; 4];
    for (place, bytes) in hash.iter_mut().zip(bytes.chunks_exact(8)) {
        *place = word(bytes.try_into().expect("eight bytes"));
    }
    hash
}

fn keyed(key: &[u8; 32], message: &[u8]) -> Hash {
    words(blake3::keyed_hash(key, message).as_bytes(), u64::from_le_bytes)
}

/// The hash of a chunk.
pub fn data_hash(chunk: &[u8]) -> Hash {
    keyed(&DATA_KEY, chunk)
}

/// The hash of a chunk that comes in pieces of one length.
pub fn data_hash_in_pieces(chunk: &[u8], length: usize) -> Hash {
    let mut hasher = blake3::Hasher::new_keyed(&DATA_KEY);
    for piece in chunk.chunks(length) {
        hasher.update(piece);
    }
    words(hasher.finalize().as_bytes(), u64::from_le_bytes)
}

// The first group: up to nine nodes, or up to a natural cut from the third on.
fn split_group(nodes: &[Node]) -> (&[Node], &[Node]) {
    let longest = nodes.len().min(9);
    let cut = (2..longest).find(|&i| nodes[i].0[3] % 4 == 0);
    nodes.split_at(cut.map_or(longest, |i| i + 1))
}

fn parents(mut nodes: &[Node], write_line: WriteLine) -> Vec<Node> {
    let mut parents = Vec::with_capacity(nodes.len() / 3 + 1);
    let mut text = String::new();
    while !nodes.is_empty() {
        let (group, after) = split_group(nodes);
        text.clear();
        let mut total = 0;
        for node in group {
            write_line(&mut text, node);
            total += node.1;
        }
        parents.push((keyed(&INTERNAL_KEY, text.as_bytes()), total));
        nodes = after;
    }
    parents
}

/// The root of a list of chunks.
pub fn xorb_hash(nodes: &[Node], write_line: WriteLine) -> Hash {
    let mut nodes = nodes;
    let mut level;
    while nodes.len() > 1 {
        level = parents(nodes, write_line);
        nodes = &level;
    }
    nodes.first().map_or([0; 4], |node| node.0)
}

/// The hash of a file of which this is the root, without a salt.
pub fn file_hash(root: Hash, is_empty: bool) -> Hash {
    if is_empty {
        return [0; 4];
    }
    let mut bytes = [0; 32];
    for (bytes, word) in bytes.chunks_exact_mut(8).zip(root) {
        bytes.copy_from_slice(&word.to_le_bytes());
    }
    keyed(&[0; 32], &bytes)
}
