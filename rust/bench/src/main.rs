//! The proved library beside the original's create_base_setup: one process, one thread, the same
//! circuits, rounds in turn, the least and the median in milliseconds. Ratios are of the least times.
//! Both sides' memory is made alike (`memory.rs`). Nothing here passes or fails by a time.
mod arguments;
mod circuits;
mod growth;
mod library;
mod memory;
mod padding;
mod random_set;
mod report;
mod rounds;
mod system;
mod times;

use arguments::{Arguments, USAGE};
use memory::Memory;
use rounds::{measure, measure_planning, Measured};

/// The circuits of the table.
fn fixed(memory: Memory, rounds: usize) -> Vec<Measured> {
    let shapes = circuits::shapes().into_iter();
    shapes.map(|x| measure(x.name(), &circuits::make(x), memory, rounds)).collect()
}

fn drawn(a: &Arguments, memory: Memory, numbers: std::ops::Range<u64>) -> Vec<Measured> {
    let one = |i| {
        let drawn = random_set::make(a.seed, i);
        measure(drawn.name, &drawn.circuit, memory, a.rounds)
    };
    numbers.map(one).collect()
}

fn tables(a: &Arguments, memory: Memory) {
    println!("\n### Wholes, {} memory", memory.name());
    let fixed = fixed(memory, a.rounds);
    report::wholes(&fixed);
    let drawn = drawn(a, memory, 0..a.count);
    println!("\nRandom set, seed {}:", a.seed);
    report::wholes(&drawn);
    println!("\n### Summary, {} memory", memory.name());
    report::summary(&fixed, &drawn);
    println!("\n### Parts, {} memory", memory.name());
    let lists = circuits::gate_lists();
    let planning = |gates: &[[u64; 3]]| measure_planning(&circuits::plain(gates), memory, a.rounds);
    let lists: Vec<_> = lists.iter().map(|(name, gates)| (*name, planning(gates))).collect();
    report::parts(&lists, &fixed);
    growth::both_sides(memory, a.rounds);
    padding::beside_copy(memory, a.rounds);
}

/// One random circuit, whole and by part.
fn only(a: &Arguments, i: u64) {
    for memory in &a.memories {
        println!("\n### {} memory", memory.name());
        let drawn = drawn(a, *memory, i..i + 1);
        report::wholes(&drawn);
        report::parts(&[], &drawn);
    }
}

const NOTES: &str = "
Kept memory: made once, warm in every round. Fresh memory: made in each round of each side from \
untouched pages, which go back to the system after it, outside its time. One allocator makes both \
sides' memory; pages are those that a round touches first. The limit: all lent buffers set to zeros \
and all pieces copied to their columns, in the same memory. Ratios are of the least times.";

fn main() {
    let words: Vec<String> = std::env::args().skip(1).collect();
    let Some(a) = Arguments::read(&words) else {
        eprintln!("{USAGE}");
        std::process::exit(2);
    };
    memory::start();
    let commit = std::env::var("COMMIT").unwrap_or("unknown".to_string());
    let (seed, count, rounds, mode) = (a.seed, a.count, a.rounds, a.mode());
    println!("Commit {commit}; seed {seed}, {count} random circuits; {rounds} rounds; memory {mode}; milliseconds.");
    println!("{NOTES}");
    if let Some(i) = a.only {
        return only(&a, i);
    }
    if a.padding {
        return a.memories.iter().for_each(|memory| padding::beside_copy(*memory, a.rounds));
    }
    a.memories.iter().for_each(|memory| tables(&a, *memory));
    growth::pieces(a.rounds);
    growth::empty_calls(a.rounds);
}
