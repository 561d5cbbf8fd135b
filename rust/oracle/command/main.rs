//! `oracle < listing` prints document 01's output as the original code makes it,
//! `panicked` and the message where it panics, or `malformed`.
//! `oracle --batch` takes many listings, each after its number of words, and ends
//! each answer by `end`. `--cores n` cuts the worker's chunks for n threads.
use oracle::Outcome;
use std::io::{Read, Write};

fn answer(words: &[u64], cores: usize) -> String {
    match oracle::outcome(words, cores) {
        Outcome::Made(output) => output.text(),
        Outcome::Panicked(message) => format!("panicked {message}\n"),
        Outcome::Malformed => "malformed\n".to_string(),
    }
}

fn batch(words: &[u64], cores: usize) -> String {
    let mut out = String::new();
    let mut rest = words;
    while let [count, after @ ..] = rest {
        let count = (*count as usize).min(after.len());
        out += &answer(&after[..count], cores);
        out += "end\n";
        rest = &after[count..];
    }
    out
}

fn main() {
    let (mut many, mut cores) = (false, 1);
    let mut arguments = std::env::args().skip(1);
    while let Some(argument) = arguments.next() {
        match argument.as_str() {
            "--batch" => many = true,
            "--cores" => cores = arguments.next().unwrap().parse().unwrap(),
            _ => {
                eprintln!("oracle [--batch] [--cores n] < listing");
                std::process::exit(2);
            }
        }
    }
    oracle::silence_panics();
    let mut bytes = vec![];
    std::io::stdin().read_to_end(&mut bytes).unwrap();
    let words: Vec<u64> =
        bytes.chunks_exact(8).map(|b| u64::from_le_bytes(b.try_into().unwrap())).collect();
    let out = match bytes.len() % 8 {
        0 if many => batch(&words, cores),
        0 => answer(&words, cores),
        _ => "malformed\n".to_string(),
    };
    std::io::stdout().write_all(out.as_bytes()).unwrap();
}
