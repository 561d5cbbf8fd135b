//! 01, "Gates and tree", up to the search: parameters, lookup modes, gate records,
//! and refusals 1 to 7.
use crate::labels::{c_in_range, n_in_range};

/// The eight parameter words, in the listing's order.
#[derive(Clone, Copy, Debug, PartialEq, Eq)]
pub struct Parameters {
    pub n: u64,
    pub c: u64,
    pub a: u64,
    pub s: u64,
    pub v: u64,
    pub mode: u64,
    pub w: u64,
    pub flag: u64,
}

impl From<[u64; 8]> for Parameters {
    fn from([n, c, a, s, v, mode, w, flag]: [u64; 8]) -> Self {
        Parameters { n, c, a, s, v, mode, w, flag }
    }
}

/// "A gate is three words: kind, degree, constants."
#[derive(Clone, Copy, Debug, PartialEq, Eq)]
pub struct Gate {
    /// Its place in the list.
    pub index: usize,
    pub kind: u64,
    pub degree: u64,
    /// "Mode 2 gives the lookup gate one constant": that one is counted here.
    pub constants: u64,
}

impl Gate {
    /// "Degree at depth d: d + degree; for the lookup gate the greater of d and 2."
    pub fn degree_at(&self, depth: u64) -> u64 {
        if self.kind == 3 {
            depth.max(2)
        } else {
            depth + self.degree
        }
    }
}

/// "1 a parameter outside its range (W 1..16 in modes 1 to 4; flag 0 or 1; W and flag 0
/// in mode 0; S at least 1 in mode 4)".
fn in_range(p: &Parameters) -> bool {
    let lookup = match p.mode {
        0 => p.w == 0 && p.flag == 0,
        1..=3 => (1..=16).contains(&p.w) && p.flag <= 1,
        4 => (1..=16).contains(&p.w) && p.flag <= 1 && p.s >= 1,
        _ => false,
    };
    n_in_range(p.n) && c_in_range(p.c) && p.a <= 16 && p.s <= 16 && p.v <= 1048576 && lookup
}

/// "Kind 0 evaluated, degree 1..64, constants 0..16; 1 marker with selector; 2 marker
/// without; 3 lookup marker. Kinds 1 to 3 have degree and constants 0."
fn good_record(record: &[u64]) -> bool {
    match record[0] {
        0 => (1..=64).contains(&record[1]) && record[2] <= 16,
        1..=3 => record[1] == 0 && record[2] == 0,
        _ => false,
    }
}

fn read_gates(mode: u64, words: &[u64]) -> Vec<Gate> {
    let mut gates = vec![];
    for (index, record) in words.chunks(3).enumerate() {
        let table_id = if record[0] == 3 && mode == 2 { 1 } else { 0 };
        gates.push(Gate {
            index,
            kind: record[0],
            degree: record[1],
            constants: record[2] + table_id,
        });
    }
    gates
}

/// "5 kind 3 elsewhere than first in mode 1 or 2, missing there, or a single gate in a
/// lookup mode".
fn lookup_misplaced(mode: u64, gates: &[Gate]) -> bool {
    let asked = mode == 1 || mode == 2;
    let first = gates[0].kind == 3;
    let later = gates[1..].iter().any(|gate| gate.kind == 3);
    later || first != asked || (gates.len() == 1 && mode != 0)
}

/// The gates of a list that refusals 1 to 7 do not turn down.
pub fn check(parameters: [u64; 8], words: &[u64]) -> Result<Vec<Gate>, u64> {
    let p = Parameters::from(parameters);
    if !in_range(&p) {
        return Err(1);
    }
    // "2 flag 0 in mode 2 or 4"
    if p.flag == 0 && (p.mode == 2 || p.mode == 4) {
        return Err(2);
    }
    // "3 words that are not three each for 1..128 gates"
    if words.len() % 3 != 0 || !(1..=128).contains(&(words.len() / 3)) {
        return Err(3);
    }
    // "4 first bad record"
    if !words.chunks(3).all(good_record) {
        return Err(4);
    }
    let gates = read_gates(p.mode, words);
    if lookup_misplaced(p.mode, &gates) {
        return Err(5);
    }
    // "6 several gates, none of kind 0 or 3"
    if gates.len() > 1 && !gates.iter().any(|gate| gate.kind == 0 || gate.kind == 3) {
        return Err(6);
    }
    // "7 G (or a lone gate's constants) above A"
    if most_constants(&placed(&gates)) > p.a {
        return Err(7);
    }
    Ok(gates)
}

/// "A gate list's only gate counts as placed." "Otherwise kind 2 is dropped; the n others
/// are placed".
pub fn placed(gates: &[Gate]) -> Vec<Gate> {
    if gates.len() == 1 {
        return gates.to_vec();
    }
    gates.iter().copied().filter(|gate| gate.kind != 2).collect()
}

/// "G the greatest number of constants".
pub fn most_constants(placed: &[Gate]) -> u64 {
    placed.iter().map(|gate| gate.constants).max().unwrap_or(0)
}
