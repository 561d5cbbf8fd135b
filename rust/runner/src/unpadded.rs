//! Random unpadded circuits: columns of any height N, fewer or more rows, tables of any height;
//! and faults in them.
use crate::circuit::{Circuit, PLACEHOLDER};
use crate::generate::{cell, planned, rows, tables, unblocked, Size};
use crate::random::Random;
use model::field::P;

const MARKER: [u64; 3] = [1, 0, 0];

/// Whether the original looks at N: "where a specialised column of height N exists or N is at most
/// the rows plus one".
pub fn shared(x: &Circuit) -> bool {
    let [n, _, _, s, _, mode, ..] = x.parameters;
    s >= 1 || mode >= 3 || n <= x.rows.len() as u64 + 1
}

/// A number around `n`, one of its ends as often as any between 0 and twice as many.
fn around(r: &mut Random, n: u64) -> u64 {
    r.ends(&[0, n - 1, n, n + 1], 0, 2 * n)
}

/// Puts a kind 1 gate into a list that has none: in a lone gate's place, else after the first.
fn with_marker(r: &mut Random, gates: &mut Vec<[u64; 3]>) {
    match gates.len() as u64 {
        _ if gates.contains(&MARKER) => {}
        1 => gates[0] = MARKER,
        128 => {}
        many => gates.insert(r.within(1, many) as usize, MARKER),
    }
}

/// Most have a kind 1 gate and a length up to 65,536.
pub fn circuit(r: &mut Random, size: Size) -> Circuit {
    let (mut parameters, mut gates) = planned(r, size);
    if !r.once_in(20) {
        with_marker(r, &mut gates);
    }
    unblocked(r, parameters, &mut gates);
    let [n, c, _, s, v, mode, w, _] = parameters;
    let height = around(r, n).min(65536);
    parameters[0] = height;
    let used = around(r, n);
    let mut rows = rows(r, used, &gates, mode);
    // padding brings the first kind 1 gate's rows
    if r.once_in(3) {
        let first = gates.iter().position(|gate| *gate == MARKER);
        rows.retain(|row| Some(row[0] as usize) != first);
    }
    let (holes, noise) = (r.pick(&[0, 5, 50, 90, 100]), r.once_in(2));
    let stacked = around(r, n);
    Circuit {
        parameters,
        rows,
        gates,
        s_words: (0..s * height).map(|_| r.element()).collect(),
        cells: (0..c * height).map(|_| cell(r, v, holes, noise)).collect(),
        tables: if mode == 0 { vec![] } else { tables(r, stacked, w) },
    }
}

fn any<'a, T>(r: &mut Random, items: &'a mut [T]) -> Option<&'a mut T> {
    let last = (items.len() as u64).checked_sub(1)?;
    items.get_mut(r.within(0, last) as usize)
}

/// One word more or one fewer.
fn shift(r: &mut Random, words: &mut Vec<u64>, new: u64) {
    match r.within(0, 1) {
        0 => words.push(new),
        _ => drop(words.pop()),
    }
}

fn gate_fault(r: &mut Random, x: &mut Circuit) {
    let other = [r.within(0, 3), r.within(0, 2), 0];
    match r.within(0, 2) {
        0 => x.gates.iter_mut().filter(|gate| **gate == MARKER).for_each(|gate| gate[0] = 2),
        1 => any(r, &mut x.gates).into_iter().for_each(|gate| *gate = other),
        _ => x.gates.push(other),
    }
}

fn row_fault(r: &mut Random, x: &mut Circuit) {
    let gate = r.within(0, x.gates.len() as u64);
    match r.within(0, 3) {
        0 => x.rows.retain(|row| row[0] != gate),
        1 => any(r, &mut x.rows).into_iter().for_each(|row| row[0] = gate),
        2 => x.rows.push(vec![gate, 1, r.element()]),
        _ => x.rows.push(vec![gate, 1, P]),
    }
}

/// Tables of no words among them, whose rows add up past 64 bits.
fn table_fault(r: &mut Random, x: &mut Circuit) {
    let w = x.parameters[6];
    let vast = vec![0, r.pick(&[1, 65536, 65537, 1 << 63, u64::MAX])];
    match r.within(0, 4) {
        0 => x.tables.extend([vast.clone(), vast]),
        1 => x.tables.push(vast),
        2 => x.tables.push([vec![w, 1], vec![P; w as usize]].concat()),
        3 => x.tables.extend(vec![vec![w, 0]; 256]),
        _ => x.tables.push(vec![w + 1, 0]),
    }
}

/// One fault, or a circuit that is near one.
pub fn fault(r: &mut Random, x: &mut Circuit) {
    match r.within(0, 9) {
        0 => x.parameters[0] = r.pick(&[0, 65535, 65536, 65537, 131072, u64::MAX]),
        1 => {
            let ends = [(1, 0), (1, 65), (2, 0), (2, 17), (3, 17), (4, 1048577), (6, 17), (7, 0)];
            let (place, word) = r.pick(&ends);
            x.parameters[place] = word;
        }
        2 => gate_fault(r, x),
        3 | 4 => row_fault(r, x),
        5 => shift(r, &mut x.s_words, 7),
        6 => any(r, &mut x.s_words).into_iter().for_each(|word| *word = P),
        7 => shift(r, &mut x.cells, PLACEHOLDER),
        8 => {
            let new = r.pick(&[x.parameters[4], 1 << 32, (1 << 48) - 1]);
            any(r, &mut x.cells).into_iter().for_each(|word| *word = new);
        }
        _ => table_fault(r, x),
    }
}
