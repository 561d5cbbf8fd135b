//! The recorded answers that the Rattle replay programs read: files of little-endian
//! words, each beginning with a version and the seed it was made by. rust/README.md has
//! the formats. The same seed gives the same bytes.
mod field;
mod labels;
mod listings;
mod tree;

/// Of every format that has not changed; `labels` and `tree` have their own.
pub const VERSION: u64 = 1;

fn write(folder: &str, name: &str, words: &[u64]) {
    let bytes: Vec<u8> = words.iter().flat_map(|word| word.to_le_bytes()).collect();
    let path = format!("{folder}/{name}.words");
    std::fs::write(&path, &bytes).unwrap_or_else(|e| panic!("{path}: {e}"));
    println!("{name}.words: {} bytes", bytes.len());
}

pub fn run(folder: &str, seed: u64) {
    write(folder, "field", &field::record(seed));
    write(folder, "labels", &labels::record(seed));
    write(folder, "tree", &tree::record(seed));
    write(folder, "listings", &listings::record(seed));
}
