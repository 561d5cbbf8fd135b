//! Labels as the original makes them: the copy columns of a circuit of placeholders. The
//! powers are the original's too. The refusals and the number of powers taken are the model's.
use crate::circuit::Circuit;
use crate::random::Random;
use model::labels::{label, representatives};

/// 2 since the representatives have their powers.
const VERSION: u64 = 2;

/// Copy columns for each N; the coset test decides from N = 64 and C = 24 on.
const COLUMNS: [u64; 6] = [1, 2, 5, 23, 24, 64];

fn columns(n: u64, c: u64) -> Vec<Vec<u64>> {
    let circuit = Circuit::plain([n, c, 0, 0, 0, 0, 0, 0], &[[1, 0, 0]]);
    oracle::run(&circuit.listing()).expect("a circuit of placeholders").copies
}

/// The original's representatives, which are the columns' first labels, their powers, and how many
/// powers the model took; it has to find the same.
fn searched(n: u64, c: u64, columns: &[Vec<u64>]) -> Vec<u64> {
    let (values, powers) = oracle::representatives(n, c);
    let first: Vec<u64> = columns.iter().map(|column| column[0]).collect();
    assert_eq!(first, values, "representatives for {n} and {c}");
    let own = representatives(n, c).expect("N and C in range");
    assert_eq!((&own.values, &own.powers), (&values, &powers), "{n} and {c}");
    [first, powers, vec![own.taken]].concat()
}

/// N, C, the representatives, their powers, how many powers were taken, a count, and that many cells
/// with their labels.
fn accepted(r: &mut Random, n: u64, c: u64, words: &mut Vec<u64>) {
    let columns = columns(n, c);
    words.extend([n, c]);
    words.extend(searched(n, c, &columns));
    let mut cells = vec![0, c * n - 1];
    cells.extend((0..6).map(|_| r.within(0, c * n - 1)));
    cells.sort();
    cells.dedup();
    words.push(cells.len() as u64);
    for cell in cells {
        words.extend([cell, columns[(cell / n) as usize][(cell % n) as usize]]);
    }
}

/// N, C and cell of requests that are turned down.
fn bad_requests() -> Vec<[u64; 3]> {
    let mut all = vec![];
    for n in [0, 3, 5, 6, 65535, 65537, 131072, 1 << 32, 1 << 63, u64::MAX] {
        all.extend([[n, 1, 0], [n, 64, 1], [n, 0, 0], [n, 65, u64::MAX]]);
    }
    for c in [0, 65, 66, 128, 1 << 32, 1 << 63, u64::MAX] {
        all.extend([[1, c, 0], [4, c, 0], [65536, c, 65536]]);
    }
    for (n, c) in [(1, 1), (1, 2), (2, 1), (8, 5), (64, 24), (65536, 64)] {
        all.extend([[n, c, c * n], [n, c, c * n + 1], [n, c, 1 << 48], [n, c, u64::MAX]]);
    }
    all
}

pub fn record(seed: u64) -> Vec<u64> {
    let mut r = Random::new(seed);
    let mut words = vec![];
    let mut count = 0;
    for log in 0..=16 {
        for c in COLUMNS {
            accepted(&mut r, 1 << log, c, &mut words);
            count += 1;
        }
    }
    let refused = bad_requests();
    for [n, c, cell] in &refused {
        let number = label(*n, *c, *cell).expect_err("a request that is turned down");
        words.extend([*n, *c, *cell, number, representatives(*n, *c).err().unwrap_or(0)]);
    }
    [vec![VERSION, seed, count, refused.len() as u64], words].concat()
}
