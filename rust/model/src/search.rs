//! 01, "Gates and tree": the search.
use crate::gates::{most_constants, placed, Gate};

/// The inductive tree of the Rust.
#[derive(Clone, Debug, PartialEq, Eq)]
pub enum Tree {
    Leaf(Gate),
    Fork(Box<Tree>, Box<Tree>),
}

/// How far a search went: which of the four targets and which constants bound won.
#[derive(Clone, Debug)]
pub struct Found {
    pub tree: Tree,
    pub target_number: u64,
    pub bound_number: u64,
}

/// The limits of one attempt.
#[derive(Clone, Copy)]
struct Limits {
    target: u64,
    bound: u64,
}

impl Limits {
    /// "degree within target, constants plus depth within bound".
    fn fit(&self, gate: &Gate, depth: u64) -> bool {
        gate.degree_at(depth) <= self.target && gate.constants + depth <= self.bound
    }
}

/// "A leaf at depth d becomes a fork, old gate left, new right, if both fit one deeper
/// .... A fork offers left, then right."
fn offer(tree: &Tree, gate: Gate, limits: Limits, depth: u64) -> Option<Tree> {
    match tree {
        Tree::Leaf(old) => {
            if !limits.fit(old, depth + 1) || !limits.fit(&gate, depth + 1) {
                return None;
            }
            Some(Tree::Fork(Box::new(Tree::Leaf(*old)), Box::new(Tree::Leaf(gate))))
        }
        Tree::Fork(left, right) => {
            if let Some(grown) = offer(left, gate, limits, depth + 1) {
                return Some(Tree::Fork(Box::new(grown), right.clone()));
            }
            let grown = offer(right, gate, limits, depth + 1)?;
            Some(Tree::Fork(left.clone(), Box::new(grown)))
        }
    }
}

/// "start empty and offer the gates in order. An empty tree takes a gate whose degree and
/// constants fit at depth 0."
fn attempt(gates: &[Gate], limits: Limits) -> Option<Tree> {
    if !limits.fit(&gates[0], 0) {
        return None;
    }
    let mut tree = Tree::Leaf(gates[0]);
    for gate in &gates[1..] {
        tree = offer(&tree, *gate, limits, 0)?;
    }
    Some(tree)
}

/// "the smallest power of two not below the greater of 1 and" degree − 1.
pub fn quotient_factor(degree: u64) -> u64 {
    degree.saturating_sub(1).max(1).next_power_of_two()
}

/// "sorted by degree falling, then constants falling, ties in list order".
fn sorted(mut gates: Vec<Gate>) -> Vec<Gate> {
    gates.sort_by(|x, y| (y.degree, y.constants).cmp(&(x.degree, x.constants)));
    gates
}

/// The tree of a gate list that refusals 1 to 7 let through; 8: all targets failed.
pub fn search(gates: &[Gate]) -> Result<Found, u64> {
    let gates = match gates {
        // "A list of one gate is a lone leaf."
        [lone] => return Ok(Found { tree: Tree::Leaf(*lone), target_number: 0, bound_number: 0 }),
        _ => sorted(placed(gates)),
    };
    // "M is the greatest degree at depth 0"
    let m = gates.iter().map(|gate| gate.degree_at(0)).max().unwrap();
    let g = most_constants(&gates);
    // "L the exponent of the smallest power of two not below n"
    let l = gates.len().next_power_of_two().ilog2() as u64;
    let t = quotient_factor(m);
    // "Targets: t, 2t, 4t, 8t"; "for each target, for i = 0..L+1, constants bound G+i"
    for target_number in 0..4 {
        for bound_number in 0..=l + 1 {
            let limits = Limits { target: t << target_number, bound: g + bound_number };
            // "The first tree with all gates wins."
            if let Some(tree) = attempt(&gates, limits) {
                return Ok(Found { tree, target_number, bound_number });
            }
        }
    }
    Err(8)
}

impl Tree {
    /// Each leaf with its path: "1 left, 0 right".
    pub fn leaves(&self) -> Vec<(Gate, Vec<bool>)> {
        match self {
            Tree::Leaf(gate) => vec![(*gate, vec![])],
            Tree::Fork(left, right) => {
                let mut all = vec![];
                for (side, subtree) in [(true, left), (false, right)] {
                    for (gate, path) in subtree.leaves() {
                        all.push((gate, [vec![side], path].concat()));
                    }
                }
                all
            }
        }
    }

    /// The gate on the all-0 path; "where one gate is placed, its empty path counts as that path".
    pub fn all_0(&self) -> Gate {
        let mut leaves = self.leaves().into_iter();
        leaves.find(|(_, path)| !path.contains(&true)).unwrap().0
    }

    /// "D is the greatest degree at depth".
    pub fn d(&self) -> u64 {
        let depths =
            self.leaves().into_iter().map(|(gate, path)| gate.degree_at(path.len() as u64));
        depths.max().unwrap()
    }

    /// "K the greatest constants plus depth".
    pub fn k(&self) -> u64 {
        let all = self.leaves().into_iter().map(|(gate, path)| gate.constants + path.len() as u64);
        all.max().unwrap()
    }
}
