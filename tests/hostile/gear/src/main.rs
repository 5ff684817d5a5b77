//! Compares the 256 numbers of `xet_chunker` with those of the crate `gearhash`, which xet-core's chunker takes.

use gearhash::Hasher;
use std::process::ExitCode;

/// The definition that the proofs of `xet_chunker` are about.
const DEFINITION: &str = include_str!("../../../../crates/xet_chunker/specs/Gear.antt");

/// Returns the numbers of 16 hex digits in a text.
fn numbers(text: &str) -> Vec<u64> {
    let digits = text.split("0x").filter_map(|rest| rest.get(..16));
    digits.filter_map(|it| u64::from_str_radix(it, 16).ok()).collect()
}

/// Returns the number of a byte in `gearhash`: what its gear is after this byte alone.
fn number_of(byte: u8) -> u64 {
    let mut hasher = Hasher::default();
    hasher.update(&[byte]);
    hasher.get_hash()
}

fn main() -> ExitCode {
    let ours = numbers(DEFINITION);
    let theirs: Vec<u64> = (0..=255).map(number_of).collect();
    for (byte, (our, their)) in ours.iter().zip(&theirs).enumerate() {
        if our != their {
            println!("DIFFERENT at byte {byte}: {our:016x} here, {their:016x} in gearhash");
        }
    }
    println!("{} numbers here, {} in gearhash", ours.len(), theirs.len());
    if ours == theirs {
        ExitCode::SUCCESS
    } else {
        ExitCode::FAILURE
    }
}
