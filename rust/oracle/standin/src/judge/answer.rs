//! The upstream answer as words, and as the text that document 01 prints.
use super::assembly::{Assembly, F};
use crate::cs::implementations::setup::TreeNode;
use crate::field::SmallField;
use crate::worker::Worker;
use std::fmt::Write;

/// What document 01 prints of a setup.
pub struct Output {
    pub d: u64,
    pub k: u64,
    pub f: u64,
    /// Of every listed gate; a 1 (left) is true. `None` for a dropped gate.
    pub paths: Vec<Option<Vec<bool>>>,
    /// The tree in preorder: left child, right child, gate; 0 where there is none.
    pub nodes: Vec<[u64; 3]>,
    pub constants: Vec<Vec<u64>>,
    pub copies: Vec<Vec<u64>>,
    pub tables: Vec<Vec<u64>>,
    pub ids: Vec<u64>,
}

fn words(column: &[F]) -> Vec<u64> {
    column.iter().map(|x| x.as_u64_reduced()).collect()
}

fn preorder(node: &TreeNode, nodes: &mut Vec<[u64; 3]>) {
    let own = nodes.len();
    match node {
        TreeNode::Empty => panic!("the search never answers an empty tree"),
        TreeNode::GateOnly(gate) => nodes.push([0, 0, gate.gate_idx as u64]),
        TreeNode::Fork { left, right } => {
            nodes.push([own as u64 + 1, 0, 0]);
            preorder(left, nodes);
            nodes[own][1] = nodes.len() as u64;
            preorder(right, nodes);
        }
    }
}

pub fn create(assembly: &Assembly, gates: usize, worker: &Worker) -> Output {
    let base = assembly.create_base_setup(worker, &mut ());
    // create_base_setup keeps F to itself: it is asked for again
    let (constants, tree, f) = assembly.create_constant_setup_polys(worker);
    assert!(tree == base.selectors_placement && constants.len() == base.constant_columns.len());
    let (d, k) = tree.compute_stats();
    let mut nodes = vec![];
    preorder(&tree, &mut nodes);
    Output {
        d: d as u64,
        k: k as u64,
        f: f as u64,
        paths: (0..gates).map(|g| tree.output_placement(g)).collect(),
        nodes,
        constants: base.constant_columns.iter().map(|x| words(&x.storage)).collect(),
        copies: base.copy_permutation_polys.iter().map(|x| words(&x.storage)).collect(),
        tables: base.lookup_tables_columns.iter().map(|x| words(&x.storage)).collect(),
        ids: base.table_ids_column_idxes.iter().map(|x| *x as u64).collect(),
    }
}

impl Output {
    /// A gate's path: bits, the first step lowest, length, and 1 where there is no path.
    pub fn path_words(&self, gate: usize) -> [u64; 3] {
        let Some(path) = &self.paths[gate] else {
            return [0, 0, 1];
        };
        let bits = path.iter().enumerate().map(|(i, left)| (*left as u64) << i).sum();
        [bits, path.len() as u64, 0]
    }

    pub fn text(&self) -> String {
        let mut out = format!("plan {} {} {}\n", self.d, self.k, self.f);
        for (gate, path) in self.paths.iter().enumerate() {
            write!(out, "path {gate}").unwrap();
            match path {
                Some(path) if path.is_empty() => {}
                Some(path) => {
                    out.push(' ');
                    out.extend(path.iter().map(|left| if *left { '1' } else { '0' }));
                }
                None => out += " none",
            }
            out.push('\n');
        }
        columns(&mut out, "constant", &self.constants);
        columns(&mut out, "copy", &self.copies);
        columns(&mut out, "table", &self.tables);
        out += "ids";
        for id in &self.ids {
            write!(out, " {id}").unwrap();
        }
        out.push('\n');
        out
    }
}

fn columns(out: &mut String, name: &str, columns: &[Vec<u64>]) {
    for (i, column) in columns.iter().enumerate() {
        write!(out, "{name} {i}").unwrap();
        for word in column {
            write!(out, " {word}").unwrap();
        }
        out.push('\n');
    }
}
