use crate::listings::{expected, recorded};

/// Bytes as words, filled up with zeros.
fn packed(bytes: &[u8]) -> Vec<u64> {
    let word = |chunk: &[u8]| {
        let mut whole = [0; 8];
        whole[..chunk.len()].copy_from_slice(chunk);
        u64::from_le_bytes(whole)
    };
    bytes.chunks(8).map(word).collect()
}

/// Inputs of the program `setup` and what it prints.
pub fn record(seed: u64) -> Vec<u64> {
    let inputs = recorded(seed);
    let mut words = vec![super::VERSION, seed, inputs.len() as u64];
    for input in inputs {
        let output = expected(&input).unwrap_or_else(|e| panic!("a recorded input: {e}"));
        words.extend([input.len() as u64, output.len() as u64]);
        words.extend(packed(&input));
        words.extend(packed(output.as_bytes()));
    }
    words
}
