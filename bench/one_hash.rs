//! A program that needs little of the library: it prints the chunk hash of its first argument. bench/bindings tells its size.
fn main() {
    let text = std::env::args().nth(1).unwrap_or_default();
    println!("{}", yurewha::merklehash::compute_data_hash(text.as_bytes()).hex());
}
