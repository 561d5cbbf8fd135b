//! Random circuits with one random fault. Where document 01 still accepts, both judges
//! must agree; where it refuses and the original does not panic, the table of differences
//! must have that number among those which the original takes.
use crate::beside::report;
use crate::circuit::{Circuit, PLACEHOLDER};
use crate::compare::{compare, Verdict};
use crate::differences::{cases, Rust};
use crate::generate::{self, Size};
use crate::random::Random;
use std::collections::{BTreeMap, BTreeSet};

/// Another value, near or at an end; small enough that the original can be given it.
fn other(r: &mut Random, word: u64) -> u64 {
    match r.within(0, 5) {
        0 => word + 1,
        1 => word.saturating_sub(1),
        2 => 2 * word,
        3 => r.within(0, 20),
        _ => 0,
    }
}

fn any<'a, T>(r: &mut Random, items: &'a mut [T]) -> Option<&'a mut T> {
    match items.len() as u64 {
        0 => None,
        n => Some(&mut items[r.within(0, n - 1) as usize]),
    }
}

/// One more, one less, or two exchanged.
fn shift<T: Clone>(r: &mut Random, items: &mut Vec<T>, new: T) {
    match r.within(0, 2) {
        0 => items.push(new),
        1 => drop(items.pop()),
        _ if items.is_empty() => items.push(new),
        _ => {
            let last = items.len() - 1;
            items.swap(0, last);
        }
    }
}

/// A table record with another width or height, its contents to match.
fn reshape(r: &mut Random, table: &mut Vec<u64>) {
    let place = r.within(0, 1) as usize;
    table[place] = other(r, table[place]);
    let length = 2 + table[0] * table[1];
    table.resize(length as usize, 1);
}

pub fn fault(r: &mut Random, x: &mut Circuit) {
    match r.within(0, 9) {
        0 => {
            let place = r.within(0, 4) as usize;
            x.parameters[place] = other(r, x.parameters[place]);
        }
        1 => {
            let place = r.within(6, 7) as usize;
            x.parameters[place] = other(r, x.parameters[place]) % 20;
        }
        2 => {
            let value = r.within(0, 3);
            any(r, &mut x.gates).into_iter().for_each(|gate| *gate = [value, 0, 0]);
        }
        3 => {
            let new = [r.within(0, 2), r.within(0, 2), r.within(0, 2)];
            shift(r, &mut x.gates, new);
        }
        4 => {
            let new = r.within(0, 130);
            any(r, &mut x.rows).into_iter().for_each(|row| row[0] = new);
        }
        5 => shift(r, &mut x.rows, vec![0, 1, 7]),
        6 => shift(r, &mut x.s_words, 7),
        7 => shift(r, &mut x.cells, PLACEHOLDER),
        8 => {
            let new = r.pick(&[0, 1 << 32, x.parameters[4], (1 << 48) - 1, 1 << 48, u64::MAX]);
            any(r, &mut x.cells).into_iter().for_each(|cell| *cell = new);
        }
        _ => match x.tables.is_empty() {
            true => x.tables.push(vec![1, 1, 4]),
            false => reshape(r, &mut x.tables[0]),
        },
    }
}

/// Words of a kind that the original cannot be given: its types have no such value.
pub fn sayable(x: &Circuit) -> bool {
    let [n, .., mode, w, flag] = x.parameters;
    let gates = x.gates.iter().all(|gate| gate[0] == 0 || (gate[1], gate[2]) == (0, 0));
    gates && flag <= 1 && (mode != 0 || (w, flag) == (0, 0)) && n <= 131072
}

pub fn run(count: u64, seed: u64) -> bool {
    let mut r = Random::new(seed);
    let taken = cases().into_iter().filter(|case| case.rust == Rust::Takes);
    let listed: BTreeSet<u64> = taken.map(|case| case.number).collect();
    let mut met: BTreeMap<(u64, Rust), u64> = BTreeMap::new();
    let (mut accepted, mut refused) = (0, 0);
    while refused < count {
        let mut circuit = generate::circuit(&mut r, Size::Small);
        fault(&mut r, &mut circuit);
        if !sayable(&circuit) {
            continue;
        }
        match compare(&circuit, None) {
            Verdict::Same => accepted += 1,
            Verdict::Different(what) => return report(&circuit, &what),
            Verdict::Refused(number, panic) => {
                let rust = if panic.is_some() { Rust::Panics } else { Rust::Takes };
                if rust == Rust::Takes && !listed.contains(&number) {
                    let what = format!("refused {number}, the original takes it");
                    return report(&circuit, &what);
                }
                refused += 1;
                *met.entry((number, rust)).or_default() += 1;
            }
        }
    }
    println!("circuits with one fault, seed {seed}");
    println!("  still accepted and equal: {accepted}; refused: {refused}");
    for ((number, rust), count) in met {
        println!("  refused {number}, the original {}: {count}", rust.said());
    }
    true
}
