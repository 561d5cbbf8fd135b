//! Padding beside a copy of the words that it leaves.
use crate::circuits::{make, Cells, Shape};
use crate::memory::{give_back, within, Memory};
use crate::rounds::round;
use crate::times::{timed, Pair};
use kinchoyu::raw;
use std::time::Duration;

/// One side: what writes the words, and where they go if memory is kept.
struct Side<F> {
    write: F,
    kept: Vec<u64>,
}

impl<F: Fn(&mut [u64])> Side<F> {
    fn new(write: F) -> Side<F> {
        Side { write, kept: vec![] }
    }

    /// A round in a buffer of so many words.
    fn time(&mut self, memory: Memory, words: usize) -> Duration {
        if memory == Memory::Fresh {
            return round(memory, || {
                let mut out = vec![0; words];
                let time = timed(|| (self.write)(&mut out)).1;
                (out, time)
            });
        }
        if self.kept.is_empty() {
            self.kept = within(|| vec![0; words]);
        }
        timed(|| (self.write)(&mut self.kept)).1
    }
}

/// Padding and copying in turn, the other one first in every second round; round 0 warms and is not
/// kept.
fn in_turn(listing: &[u64], padded: &[u64], memory: Memory, rounds: usize) -> Pair {
    let mut pair = Pair::default();
    let mut ours = Side::new(|out: &mut [u64]| {
        assert_eq!(raw::pad(listing, out, &mut [0]), 0, "a timed circuit was refused");
    });
    let mut copy = Side::new(|out: &mut [u64]| out.copy_from_slice(padded));
    for i in 0..=rounds {
        let (a, b) = if i % 2 == 0 {
            let a = ours.time(memory, padded.len());
            (a, copy.time(memory, padded.len()))
        } else {
            let b = copy.time(memory, padded.len());
            (ours.time(memory, padded.len()), b)
        };
        if i > 0 {
            pair.ours.push(a);
            pair.theirs.push(b);
        }
    }
    assert!(ours.kept == copy.kept, "what is padded is not what is copied");
    drop((ours, copy));
    give_back();
    pair
}

/// A circuit of 40,000 rows to 65,536.
pub fn beside_copy(memory: Memory, rounds: usize) {
    let x = make(Shape { n: 40000, c: 64, v: None, cells: Cells::Random });
    let listing = x.listing();
    let padded = kinchoyu::pad(&listing).expect("an unpadded circuit");
    let pair = in_turn(&listing, &padded, memory, rounds);
    println!("\n### Padding, {} memory", memory.name());
    println!("\nThe copy is of the padded listing's words alone.");
    println!("\n| unpadded circuit | words after | padding, least | padding, median | copy, least | copy, median | ratio |");
    println!("|---|---|---|---|---|---|---|");
    println!("| {} rows, C = 64 | {} | {} |", x.rows.len(), padded.len(), pair.cells());
}
