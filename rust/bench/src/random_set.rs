//! The seeded random circuits. Circuit i depends on the seed and i alone; twelve in a row have each N
//! from 32 to 65,536 once, sixty each pair of N and lookup mode, all else is drawn.
use crate::circuits::{blocked, table, Cells, Circuit, Random, PLACEHOLDER};

/// A circuit and what is to be said of it.
pub struct Drawn {
    pub circuit: Circuit,
    pub name: String,
}

/// How a circuit's words are laid out.
struct Manner {
    cells: Cells,
    /// Placeholders in a hundred cells.
    holes: u64,
    /// Gates take turns from row to row, each with all its constants; else in any order, with any
    /// number of them.
    in_turn: bool,
}

impl Manner {
    fn draw(r: &mut Random) -> Manner {
        Manner {
            cells: r.pick(&[Cells::Local, Cells::Random, Cells::Mixed]),
            holes: r.pick(&[0, 0, 5, 50, 90]),
            in_turn: r.once_in(2),
        }
    }

    fn name(&self) -> String {
        let rows = if self.in_turn { "in turn" } else { "irregular" };
        format!("rows {rows}, cells {}, {} % placeholders", self.cells.name(), self.holes)
    }
}

fn evaluated(r: &mut Random, degree: u64, constants: u64) -> [u64; 3] {
    [0, r.within(1, degree), r.within(0, constants)]
}

/// One gate in mode 0, or two to `most`, in the form that the mode asks for.
fn gates(r: &mut Random, mode: u64, most: u64) -> Vec<[u64; 3]> {
    let count = match r.within(0, 5) {
        0 if mode == 0 => 1,
        0 | 1 => r.within(2, 6),
        2 | 3 => r.within(2, most.min(24)),
        _ => r.within(2, most),
    };
    let degree = r.pick(&[1, 2, 3, 5, 9, 33]);
    let constants = r.pick(&[0, 0, 2, 4, 8, 16]);
    let markers = r.pick(&[0, 10]);
    let gate = |r: &mut Random| match r.within(0, 99) {
        x if x < markers => [r.within(1, 2), 0, 0],
        _ => evaluated(r, degree, constants),
    };
    let mut gates: Vec<[u64; 3]> = (0..count).map(|_| gate(r)).collect();
    gates[0] = if mode == 1 || mode == 2 { [3, 0, 0] } else { evaluated(r, degree, constants) };
    gates
}

fn parameters(r: &mut Random, n: u64, mode: u64, gates: &[[u64; 3]]) -> [u64; 8] {
    let most = gates.iter().map(|gate| gate[2]).max().unwrap();
    let needed = most.max(u64::from(mode == 2));
    let c = r.ends(&[1, 8, 64], 1, 64);
    let s = r.pick(&[0, 0, 1, 2, 8, 16]).max(u64::from(mode == 4));
    let v = variables(r, c * n);
    let w = if mode == 0 { 0 } else { r.ends(&[1, 4, 16], 1, 16) };
    let flag = match mode {
        0 => 0,
        2 | 4 => 1,
        _ => r.within(0, 1),
    };
    [n, c, r.within(needed, 16), s, v, mode, w, flag]
}

/// Few, fewer than cells, as many, and, seldom, the most there may be.
fn variables(r: &mut Random, cells: u64) -> u64 {
    let most = cells.min(1048576);
    match r.within(0, 11) {
        0 | 1 => r.within(1, 8),
        2 | 3 => r.within(1, most.isqrt()),
        4 => 1048576,
        5 | 6 => most,
        _ => r.within(1, most),
    }
}

fn rows(r: &mut Random, n: u64, mode: u64, gates: &[[u64; 3]], in_turn: bool) -> Vec<Vec<u64>> {
    let count = gates.len() as u64;
    let mut order: Vec<u64> = (0..n).map(|row| row % count).collect();
    if !in_turn {
        order[count as usize..].iter_mut().for_each(|gate| *gate = r.within(0, count - 1));
        r.shuffle(&mut order);
    }
    let mut row = |gate: u64| {
        let [kind, _, own] = gates[gate as usize];
        let has = if kind == 3 && mode == 2 { 1 } else { own };
        let given = if in_turn { has } else { r.within(0, has) };
        let mut record = vec![gate, given];
        record.extend((0..given).map(|_| r.element()));
        record
    };
    order.into_iter().map(&mut row).collect()
}

fn cells(r: &mut Random, count: u64, v: u64, manner: &Manner) -> Vec<u64> {
    let (mut local, mut left) = (manner.cells == Cells::Local, u64::MAX);
    if manner.cells == Cells::Mixed {
        left = 0;
    }
    let mut words = vec![];
    for cell in 0..count {
        if left == 0 {
            (local, left) = (r.once_in(2), r.within(1, 64));
        }
        left -= 1;
        words.push(match r.within(0, 99) {
            x if x < manner.holes => PLACEHOLDER,
            _ if local => cell / 2 % v,
            _ => r.within(0, v - 1),
        });
    }
    words
}

/// None, few that fill the columns or part of them, or 255.
fn tables(r: &mut Random, n: u64, w: u64) -> Vec<Vec<u64>> {
    let count = r.pick(&[0, 1, 8, 8, 255]);
    let filled = r.ends(&[n], 0, n);
    (0..count).map(|i| table(r, w, filled * (i + 1) / count - filled * i / count)).collect()
}

fn draw(r: &mut Random, n: u64, mode: u64) -> Option<Drawn> {
    let mut gates = gates(r, mode, n.min(128));
    let parameters = parameters(r, n, mode, &gates);
    // rows of kind 2 gates would be refused
    if gates.len() > 1 && blocked(parameters, &gates) {
        gates.retain(|gate| gate[0] != 2);
    }
    // lists that find no place are not timed
    let k = model::plan(parameters, &gates.concat()).ok()?.k;
    let manner = Manner::draw(r);
    let [n, c, _, s, v, mode, w, _] = parameters;
    let circuit = Circuit {
        parameters,
        rows: rows(r, n, mode, &gates, manner.in_turn),
        s_words: (0..s * n).map(|_| r.element()).collect(),
        cells: cells(r, c * n, v, &manner),
        tables: if mode == 0 { vec![] } else { tables(r, n, w) },
        gates,
    };
    let name = format!(
        "N = {n}, C = {c}, V = {v}, mode {mode}, S = {s}, W = {w}, {} gates, K = {k}, {}, {} tables",
        circuit.gates.len(),
        manner.name(),
        circuit.tables.len()
    );
    Some(Drawn { circuit, name })
}

/// Circuit i of a seed.
pub fn make(seed: u64, i: u64) -> Drawn {
    let mut r = Random::new(seed);
    let mut r = Random::new(r.word() ^ i.wrapping_mul(0x9e3779b97f4a7c15));
    loop {
        if let Some(drawn) = draw(&mut r, 32 << (i % 12), i % 5) {
            let name = format!("{i}: {}", drawn.name);
            return Drawn { name, ..drawn };
        }
    }
}
