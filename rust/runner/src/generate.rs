//! Random circuits, most of which document 01 accepts.
use crate::circuit::{blocked, Circuit, PLACEHOLDER};
use crate::random::Random;

/// How tall and wide a circuit may be.
#[derive(Clone, Copy, PartialEq, Eq, Debug)]
pub enum Size {
    /// Up to about 1,000 cells.
    Small,
    /// The coset region: N at least 64 and C at least 24.
    Coset,
    /// N up to 4,096, C up to 64.
    Tall,
    /// N = 65,536.
    Tallest,
}

pub fn size(r: &mut Random) -> Size {
    match r.within(1, 2000) {
        1..=2 => Size::Tallest,
        3..=40 => Size::Tall,
        41..=240 => Size::Coset,
        _ => Size::Small,
    }
}

fn evaluated(r: &mut Random, degree: u64, constants: u64) -> [u64; 3] {
    [0, r.within(1, degree), r.within(0, constants)]
}

/// Lists of several gates: uniform ones of many shapes, and lists of like gates that
/// fill the tree up to each target and past the last.
fn several(r: &mut Random, most: u64) -> Vec<[u64; 3]> {
    let count = match r.within(0, 3) {
        0 => r.within(2, 6.min(most)),
        1 => r.within(2, 16.min(most)),
        _ => r.within(2, most),
    };
    let degree = r.pick(&[1, 1, 2, 2, 2, 3, 3, 5, 9, 17, 33, 64]);
    let constants = r.pick(&[0, 0, 1, 2, 4, 8, 16]);
    let markers = r.pick(&[0, 3, 10, 10, 50]);
    let alike = evaluated(r, degree, constants);
    let one_shape = r.once_in(4);
    let mut gates = vec![];
    for _ in 0..count {
        gates.push(match r.within(0, 99) {
            x if x < markers => [r.within(1, 2), 0, 0],
            _ if one_shape => alike,
            _ => evaluated(r, degree, constants),
        });
    }
    gates
}

fn gates(r: &mut Random, mode: u64, most: u64) -> Vec<[u64; 3]> {
    if mode == 0 && (most == 1 || r.once_in(12)) {
        return vec![r.pick(&[[1, 0, 0], [2, 0, 0], [0, 1, 0], [0, 64, 16], [0, 5, 3]])];
    }
    let mut gates = several(r, most.max(2));
    if mode == 1 || mode == 2 {
        gates[0] = [3, 0, 0];
    } else if gates.iter().all(|gate| gate[0] != 0) {
        let place = r.within(0, gates.len() as u64 - 1) as usize;
        gates[place] = evaluated(r, 4, 2);
    }
    gates
}

/// Trace length and copy columns.
fn extent(r: &mut Random, size: Size, gates: u64) -> (u64, u64) {
    let least = gates.next_power_of_two().ilog2() as u64;
    match size {
        Size::Small => {
            let n = 1 << r.within(least, least.max(6));
            let most = (1024 / n).clamp(1, 64);
            (n, r.ends(&[1, most], 1, most))
        }
        Size::Coset => (1 << r.within(least.max(6), 9), r.ends(&[24, 25, 64], 24, 64)),
        Size::Tall => {
            let c = r.ends(&[1, 8, 64], 1, 64);
            (1 << r.within(10, 12), c)
        }
        Size::Tallest => (65536, r.pick(&[1, 2, 5, 24])),
    }
}

fn variables(r: &mut Random, cells: u64) -> u64 {
    match r.within(0, 99) {
        0..=4 => 0,
        5..=14 => 1,
        15 => 1048576,
        16..=49 => r.within(1, 8),
        50..=69 => cells.min(1048576),
        _ => r.within(1, cells.min(1048576)),
    }
}

/// Noise where document 01 reads nothing: bits 48 to 62 of an index, all bits but 63 of
/// a placeholder.
pub fn cell(r: &mut Random, v: u64, holes: u64, noise: bool) -> u64 {
    let dirt = if noise { r.word() & !PLACEHOLDER } else { 0 };
    if v == 0 || r.within(0, 99) < holes {
        return PLACEHOLDER | dirt;
    }
    let index = match r.within(0, 9) {
        0 => r.pick(&[0, v - 1]),
        _ => r.within(0, v - 1),
    };
    index | (dirt >> 48 << 48)
}

pub fn rows(r: &mut Random, n: u64, gates: &[[u64; 3]], mode: u64) -> Vec<Vec<u64>> {
    let count = gates.len() as u64;
    let mut order: Vec<u64> = (0..count).collect();
    order.extend((count..n).map(|_| r.within(0, count - 1)));
    r.shuffle(&mut order);
    let mut rows = vec![];
    for gate in order {
        let [kind, _, constants] = gates[gate as usize];
        let has = if kind == 3 && mode == 2 { 1 } else { constants };
        let given = r.ends(&[has], 0, has);
        let mut record = vec![gate, given];
        record.extend((0..given).map(|_| r.element()));
        rows.push(record);
    }
    rows
}

pub fn tables(r: &mut Random, n: u64, w: u64) -> Vec<Vec<u64>> {
    let count = match r.within(0, 19) {
        0..=3 => 0,
        4 => 255,
        _ => r.within(1, 8),
    };
    let mut left = r.ends(&[n], 0, n).min(2048);
    let mut all = vec![];
    for i in 0..count {
        let rows = match r.within(0, 3) {
            0 => 0,
            1 if i + 1 == count => left,
            _ => r.within(0, left.min(12)),
        };
        left -= rows;
        let mut record = vec![w, rows];
        record.extend((0..rows * w).map(|_| r.element()));
        all.push(record);
    }
    all
}

/// Parameters and gates.
pub fn planned(r: &mut Random, size: Size) -> ([u64; 8], Vec<[u64; 3]>) {
    let mode = r.within(0, 4);
    let most = match size {
        Size::Small => r.pick(&[1, 4, 16, 32, 64, 128]),
        Size::Coset => r.pick(&[4, 64, 128]),
        _ => 128,
    };
    let gates = gates(r, mode, most);
    let (n, c) = extent(r, size, gates.len() as u64);
    let extra = if mode == 2 { 1 } else { 0 };
    let needed = gates.iter().map(|gate| gate[2]).max().unwrap().max(extra);
    let a = r.ends(&[needed, 16], needed, 16);
    let least = if mode == 4 { 1 } else { 0 };
    let s = match size {
        Size::Small => r.ends(&[least, 1, 16], least, 16),
        _ => r.within(least, 2),
    };
    let v = variables(r, c * n);
    let w = if mode == 0 { 0 } else { r.ends(&[1, 16], 1, 16) };
    let flag = match mode {
        0 => 0,
        2 | 4 => 1,
        _ => r.within(0, 1),
    };
    ([n, c, a, s, v, mode, w, flag], gates)
}

/// Takes the kind 2 gates out of a list in which their rows are refused with 23, but for one such
/// list in ten. Where a lookup mode's only other gate would be left they become kind 1 gates.
pub fn unblocked(r: &mut Random, parameters: [u64; 8], gates: &mut Vec<[u64; 3]>) {
    let dropped = gates.iter().filter(|gate| gate[0] == 2).count();
    if dropped == 0 || gates.len() == 1 || !blocked(parameters, gates) || r.once_in(10) {
        return;
    }
    if gates.len() - dropped == 1 && parameters[5] != 0 {
        gates.iter_mut().filter(|gate| gate[0] == 2).for_each(|gate| gate[0] = 1);
    } else {
        gates.retain(|gate| gate[0] != 2);
    }
}

pub fn circuit(r: &mut Random, size: Size) -> Circuit {
    let (parameters, mut gates) = planned(r, size);
    unblocked(r, parameters, &mut gates);
    filled(r, parameters, gates)
}

/// Rows, S words, cells and tables for these parameters and gates.
fn filled(r: &mut Random, parameters: [u64; 8], gates: Vec<[u64; 3]>) -> Circuit {
    let [n, c, _, s, v, mode, w, _] = parameters;
    let (holes, noise) = (r.pick(&[0, 5, 50, 90, 100]), r.once_in(2));
    Circuit {
        parameters,
        rows: rows(r, n, &gates, mode),
        gates,
        s_words: (0..s * n).map(|_| r.element()).collect(),
        cells: (0..c * n).map(|_| cell(r, v, holes, noise)).collect(),
        tables: if mode == 0 { vec![] } else { tables(r, n, w) },
    }
}

/// As many gates as there may be. In modes 0, 2 and 4: 63 like ones, as many of kind 1 that one of
/// these ends on the all-0 path, and one of kind 2, whose rows are thus accepted. In modes 1 and 3:
/// many shapes, one of kind 1.
fn most_gates(r: &mut Random, mode: u64) -> Vec<[u64; 3]> {
    let mut gates: Vec<[u64; 3]> = (0..128).map(|_| evaluated(r, 64, 16)).collect();
    gates[1] = [1, 0, 0];
    if mode % 2 == 0 {
        gates[..64].fill([0, 64, 16]);
        gates[64..].fill([1, 0, 0]);
        gates[127] = [2, 0, 0];
    }
    match mode {
        0 | 4 => gates[63] = [1, 0, 0],
        1 | 2 => gates[0] = [3, 0, 0],
        _ => {}
    }
    gates
}

/// Every parameter at its upper end, and as many gates as there may be.
pub fn corner(r: &mut Random, mode: u64) -> Circuit {
    let gates = most_gates(r, mode);
    let (w, flag) = if mode == 0 { (0, 0) } else { (16, 1) };
    filled(r, [65536, 64, 16, 16, 1048576, mode, w, flag], gates)
}
