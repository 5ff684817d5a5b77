//! The peer of `xetroot`: a plain program that reads the same lines and prints the same two. It trusts its input more: it
//! takes numbers with a sign, and says of a fault only that there is one.

use driver::plain::{self, Node};
use std::collections::BTreeMap;
use std::error::Error;
use std::io::{self, BufRead, BufReader, Read, Write};

// Lists of chunks by the position of the first one.
struct Ranges {
    before: BTreeMap<u64, Vec<Node>>,
    first: u64,
    open: Vec<Node>,
}

impl Ranges {
    fn go_on_at(&mut self, position: u64) -> Result<(), Box<dyn Error>> {
        let open = std::mem::take(&mut self.open);
        if !open.is_empty() && self.before.insert(self.first, open).is_some() {
            return Err("a position is taken".into());
        }
        self.first = position;
        Ok(())
    }

    // All chunks by position.
    fn joined(mut self) -> Result<Vec<Node>, Box<dyn Error>> {
        if self.before.is_empty() && self.first == 0 {
            return Ok(self.open);
        }
        self.go_on_at(0)?;
        let mut chunks = Vec::new();
        for (first, range) in self.before {
            if first != chunks.len() as u64 {
                return Err("positions overlap or leave a gap".into());
            }
            chunks.extend(range);
        }
        Ok(chunks)
    }
}

fn pair(line: &[u8]) -> Option<Node> {
    let (hash, size) = std::str::from_utf8(line).ok()?.split_once(' ')?;
    Some((plain::parsed(hash)?, size.parse().ok()?))
}

fn read(input: impl Read) -> Result<Vec<Node>, Box<dyn Error>> {
    let mut input = BufReader::with_capacity(1 << 16, input);
    let mut ranges = Ranges { before: BTreeMap::new(), first: 0, open: Vec::new() };
    let mut line = Vec::new();
    while input.read_until(b'\n', &mut line)? > 0 {
        match line.strip_suffix(b"\n").unwrap_or(&line) {
            b"--" => {}
            [b'+', chunk @ ..] => ranges.open.push((plain::data_hash(chunk), chunk.len() as u64)),
            [b'@', position @ ..] => ranges.go_on_at(std::str::from_utf8(position)?.parse()?)?,
            other => ranges.open.push(pair(other).ok_or("a bad line")?),
        }
        line.clear();
    }
    ranges.joined()
}

fn main() -> Result<(), Box<dyn Error>> {
    let chunks = read(io::stdin().lock())?;
    let root = plain::xorb_hash(&chunks, plain::encoded_line);
    let file = plain::file_hash(root, chunks.is_empty());
    let mut output = io::stdout().lock();
    for (name, hash) in [("xorb", root), ("file", file)] {
        output.write_all(name.as_bytes())?;
        output.write_all(b" ")?;
        output.write_all(&plain::hex_digits(&hash))?;
        output.write_all(b"\n")?;
    }
    Ok(())
}
