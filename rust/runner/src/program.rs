//! The built program `setup` beside the judges, on random inputs.
use crate::listings;
use crate::random::Random;
use std::collections::BTreeMap;
use std::io::Write;
use std::process::{Command, Stdio};

/// What a program prints when it is given some bytes, and whether it ended with status 0.
fn run_one(path: &str, input: &[u8]) -> (String, bool) {
    let child = Command::new(path).stdin(Stdio::piped()).stdout(Stdio::piped()).spawn();
    let mut child = child.unwrap_or_else(|e| panic!("{path}: {e}"));
    let mut pipe = child.stdin.take().unwrap();
    let bytes = input.to_vec();
    // a program that stops reading closes the pipe: what it printed is compared all the same
    let writer = std::thread::spawn(move || drop(pipe.write_all(&bytes)));
    let output = child.wait_with_output().unwrap();
    writer.join().unwrap();
    (String::from_utf8_lossy(&output.stdout).into_owned(), output.status.success())
}

/// The first word of the answer, and for a refusal its number.
fn kind(text: &str) -> String {
    match text.starts_with("refused") {
        true => text.trim_end().to_string(),
        false => "accepted".to_string(),
    }
}

pub fn run(path: &str, count: u64, seed: u64) -> bool {
    let mut r = Random::new(seed);
    let mut met: BTreeMap<String, u64> = BTreeMap::new();
    let start = std::time::Instant::now();
    for i in 0..count {
        let input = listings::random(&mut r);
        let wanted = match listings::expected(&input) {
            Ok(text) => text,
            Err(what) => {
                println!("DIFFERENT: input {i} of seed {seed}: {what}");
                return false;
            }
        };
        let (text, ended) = run_one(path, &input);
        if text != wanted || !ended {
            println!("DIFFERENT: input {i} of seed {seed}: the program printed");
            println!("{text}wanted\n{wanted}");
            return false;
        }
        *met.entry(kind(&wanted)).or_default() += 1;
    }
    let took = start.elapsed().as_secs_f64();
    println!("program: {count} random inputs, seed {seed}, {took:.1} s, equal to the last byte");
    for (kind, count) in met {
        println!("  {kind}: {count}");
    }
    true
}
