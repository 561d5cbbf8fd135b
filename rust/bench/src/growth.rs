//! How the time grows: with N, C and V on both sides, with the size of pieces and by the call in the
//! library.
use crate::circuits::{make, plain, usual, Cells, Circuit, Shape};
use crate::library::{Lent, Words};
use crate::memory::Memory;
use crate::rounds::{measure_whole, Sides};
use crate::times::{shown, timed, Times, HEADS};

fn table(memory: Memory, rounds: usize, by: &str, shapes: impl Iterator<Item = (u64, Shape)>) {
    println!("\n| {by} | {HEADS} |\n|---|---|---|---|---|---|");
    for (value, shape) in shapes {
        let pair = measure_whole(&make(shape), memory, rounds);
        println!("| {value} | {} |", pair.cells());
    }
}

/// Wholes by N, by C and by V.
pub fn both_sides(memory: Memory, rounds: usize) {
    println!("\n### Growth, {} memory", memory.name());
    let shape = Shape { n: 8192, c: 8, v: None, cells: Cells::Random };
    let by_n = (5..=16).map(|log| (1 << log, Shape { n: 1 << log, ..shape }));
    table(memory, rounds, "N (C = 8, random)", by_n);
    let by_c = (0..=6).map(|log| (1 << log, Shape { c: 1 << log, ..shape }));
    table(memory, rounds, "C (N = 8192, random)", by_c);
    let by_v = (0..=20).step_by(4);
    let by_v = by_v.map(|log| (1 << log, Shape { c: 64, v: Some(1 << log), ..shape }));
    table(memory, rounds, "V (N = 8192, C = 64, random)", by_v);
}

/// Planning, opening, finishing and the pieces.
fn calls(x: &Circuit, most: usize) -> usize {
    let sections = [x.rows.len(), x.tables.len(), x.s_words.len(), x.cells.len()];
    3 + sections.map(|count| count.div_ceil(most)).iter().sum::<usize>()
}

/// One circuit in pieces of so many records.
pub fn pieces(rounds: usize) {
    let shape = Shape { n: 8192, c: 8, v: None, cells: Cells::Random };
    let x = make(shape);
    let mut sides = Sides::new(&x, Memory::Kept);
    println!("\n### Pieces: {}, kept memory", shape.name());
    println!("\n| records a call | calls | least | median |\n|---|---|---|---|");
    for most in [1, 4, 16, 64, 256, 1024, usize::MAX] {
        let rounds = if most < 64 { rounds.min(5) } else { rounds };
        let mut times = Times::default();
        sides.our_whole(most);
        (0..rounds).for_each(|_| times.push(sides.our_whole(most)));
        let size = if most == usize::MAX { "all".to_string() } else { most.to_string() };
        let (least, median) = (shown(times.least()), shown(times.median()));
        println!("| {size} | {} | {least} | {median} |", calls(&x, most));
    }
    sides.end();
}

const CALLS: usize = 1000;

/// Nanoseconds of a call, from the least and the median of rounds of 1,000.
fn call(rounds: usize, mut run: impl FnMut()) -> String {
    let mut times = Times::default();
    for _ in 0..rounds {
        times.push(timed(|| (0..CALLS).for_each(|_| run())).1);
    }
    let each = |time: f64| time * 1e6 / CALLS as f64;
    format!("{:.0} | {:.0}", each(times.least()), each(times.median()))
}

/// What a call costs that brings no word.
pub fn empty_calls(rounds: usize) {
    println!("\n### A call without a word, nanoseconds");
    println!("\n| gates | call | least | median |\n|---|---|---|---|");
    for gates in [4, 23, 128] {
        let words = Words::new(&plain(&usual(gates)));
        let mut lent = Lent::default();
        lent.plan(&words);
        lent.open(&words);
        println!("| {gates} | cells | {} |", call(rounds, || lent.cells(&[])));
        println!("| {gates} | rows | {} |", call(rounds, || lent.rows(&[])));
    }
}
