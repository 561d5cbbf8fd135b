//! The fixed circuits.
#[allow(dead_code)]
#[path = "../../runner/src/circuit.rs"]
mod circuit;
#[allow(dead_code)]
#[path = "../../runner/src/random.rs"]
mod random;

pub use circuit::{blocked, Circuit, PLACEHOLDER};
pub use random::Random;

/// The order in which cells name their variables.
#[derive(Clone, Copy, PartialEq, Eq)]
pub enum Cells {
    /// Neighbours name neighbouring variables.
    Local,
    /// Any cell names any variable.
    Random,
    /// Runs of both, 1 to 64 cells long.
    Mixed,
}

impl Cells {
    pub fn name(self) -> &'static str {
        match self {
            Cells::Local => "local",
            Cells::Random => "random",
            Cells::Mixed => "mixed",
        }
    }
}

#[derive(Clone, Copy)]
pub struct Shape {
    pub n: u64,
    pub c: u64,
    /// Half as many as cells and at most 1,048,576 if not given.
    pub v: Option<u64>,
    pub cells: Cells,
}

impl Shape {
    pub fn name(self) -> String {
        format!("N = {}, C = {}, {}", self.n, self.c, self.cells.name())
    }
}

/// The table's shapes.
pub fn shapes() -> Vec<Shape> {
    let mut all = vec![];
    for n in [1 << 10, 1 << 13, 1 << 16] {
        for c in [8, 64] {
            all.extend([Cells::Local, Cells::Random].map(|cells| Shape { n, c, v: None, cells }));
        }
    }
    all
}

/// A lookup gate with its constant, 20 evaluated gates, two markers with selector, of which one ends on
/// the all-0 path, and one without, whose rows are accepted for that.
fn gates() -> Vec<[u64; 3]> {
    let mut gates = vec![[3, 0, 0]];
    gates.extend((0..20).map(|i| [0, 1 + i % 5, i % 9]));
    gates.extend([[1, 0, 0], [1, 0, 0], [2, 0, 0]]);
    gates
}

/// A row of a gate with all its constants.
fn row(r: &mut Random, gates: &[[u64; 3]], gate: u64) -> Vec<u64> {
    let [kind, _, own] = gates[gate as usize];
    let many = if kind == 3 { 1 } else { own };
    let mut record = vec![gate, many];
    record.extend((0..many).map(|_| r.element()));
    record
}

pub fn table(r: &mut Random, width: u64, rows: u64) -> Vec<u64> {
    let mut record = vec![width, rows];
    record.extend((0..width * rows).map(|_| r.element()));
    record
}

/// A circuit in lookup mode 2 with S = 2, W = 4 and tables that fill the columns.
pub fn make(shape: Shape) -> Circuit {
    let Shape { n, c, v, cells } = shape;
    let gates = gates();
    let count = gates.len() as u64;
    let v = v.unwrap_or((c * n / 2).min(1048576));
    let mut r = Random::new(7);
    let rows = (0..n).map(|i| row(&mut r, &gates, i % count)).collect();
    let mut r = Random::new(8);
    let mut name = |cell: u64| match cells {
        Cells::Local => cell / 2 % v,
        _ => r.within(0, v - 1),
    };
    let cells = (0..c * n).map(&mut name).collect();
    let s_words = (0..2 * n).map(|_| r.element()).collect();
    let tables = (0..8).map(|_| table(&mut r, 4, n / 8)).collect();
    Circuit { parameters: [n, c, 16, 2, v, 2, 4, 1], gates, rows, s_words, cells, tables }
}

/// A circuit for planning alone.
pub fn plain(gates: &[[u64; 3]]) -> Circuit {
    Circuit::plain([128, 1, 16, 0, 0, 0, 0, 0], gates)
}

pub fn gate_lists() -> Vec<(&'static str, Vec<[u64; 3]>)> {
    let mixed = (0..128).map(|i| [0, 1 + i * 7 % 60, i % 17]).collect();
    let like = vec![[0, 2, 0]; 64];
    let high = (0..128).map(|i| [0, 33 + i % 32, 16]).collect();
    vec![
        ("128 gates, mixed", mixed),
        ("128 gates, high degrees and 16 constants each", high),
        ("64 gates (0,2,0)", like),
    ]
}

/// So many gates of low degrees with up to eight constants.
pub fn usual(count: u64) -> Vec<[u64; 3]> {
    (0..count).map(|i| [0, 1 + i % 5, i % 9]).collect()
}
