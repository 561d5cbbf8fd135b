//! The plan: what planning hands on. 01, "Gates and tree" and refusal 19.
use crate::gates::{check, placed, Gate, Parameters};
use crate::search::{quotient_factor, search, Tree};

pub const MOST_GATES: usize = 128;
/// A tree with a leaf for each of 128 gates has 255 nodes.
pub const MOST_NODES: usize = 255;

/// All fields are public: a caller may make up any plan.
#[derive(Clone, Debug, PartialEq, Eq)]
pub struct Plan {
    pub parameters: [u64; 8],
    /// Number of listed gates; their records; unused slots are zero.
    pub gate_count: u64,
    pub gates: [[u64; 3]; MOST_GATES],
    /// The tree in preorder (node, left subtree, right subtree): left child, right
    /// child (both 0 for a leaf), gate (0 for a fork, where it is not read).
    pub node_count: u64,
    pub nodes: [[u64; 3]; MOST_NODES],
    pub d: u64,
    pub k: u64,
    pub f: u64,
}

impl Plan {
    /// "Refused planning ... hands back a plan ... of zeros".
    pub fn zero() -> Plan {
        Plan {
            parameters: [0; 8],
            gate_count: 0,
            gates: [[0; 3]; MOST_GATES],
            node_count: 0,
            nodes: [[0; 3]; MOST_NODES],
            d: 0,
            k: 0,
            f: 0,
        }
    }

    pub fn parameter(&self) -> Parameters {
        Parameters::from(self.parameters)
    }
}

/// Planning: refusals 1 to 8.
pub fn plan(parameters: [u64; 8], words: &[u64]) -> Result<Plan, u64> {
    let gates = check(parameters, words)?;
    let tree = search(&gates)?.tree;
    let mut plan = Plan::zero();
    plan.parameters = parameters;
    plan.gate_count = gates.len() as u64;
    for (slot, record) in plan.gates.iter_mut().zip(words.chunks(3)) {
        slot.copy_from_slice(record);
    }
    write_nodes(&tree, &mut plan);
    plan.d = tree.d();
    plan.k = tree.k();
    plan.f = quotient_factor(tree.d());
    Ok(plan)
}

fn write_nodes(tree: &Tree, plan: &mut Plan) {
    let own = plan.node_count as usize;
    plan.node_count += 1;
    match tree {
        Tree::Leaf(gate) => plan.nodes[own] = [0, 0, gate.index as u64],
        Tree::Fork(left, right) => {
            plan.nodes[own][0] = plan.node_count;
            write_nodes(left, plan);
            plan.nodes[own][1] = plan.node_count;
            write_nodes(right, plan);
        }
    }
}

/// The gates of a plan whose parameters and gates 1 to 7 do not turn down.
fn listed(plan: &Plan) -> Result<Vec<Gate>, u64> {
    if plan.gate_count > MOST_GATES as u64 {
        return Err(19);
    }
    let words = plan.gates[..plan.gate_count as usize].concat();
    check(plan.parameters, &words).map_err(|_| 19)
}

/// "a child not after its parent or past the nodes", of any counted node.
fn children_good(plan: &Plan) -> bool {
    if plan.node_count > MOST_NODES as u64 {
        return false;
    }
    let nodes = &plan.nodes[..plan.node_count as usize];
    let good = |parent: u64, child: u64| parent < child && child < plan.node_count;
    nodes.iter().zip(0..).all(|(node, i)| {
        let leaf = node[0] == 0 && node[1] == 0;
        leaf || (good(i, node[0]) && good(i, node[1]))
    })
}

/// The tree below a node. `met` marks the gates met so far, which bounds the walk:
/// "a leaf below depth 31, leaves other than each placed gate just once".
fn decode(
    plan: &Plan,
    placed: &[Gate],
    met: &mut Vec<u64>,
    node: u64,
    depth: u64,
) -> Result<Tree, u64> {
    let [left, right, gate] = plan.nodes[node as usize];
    if left != 0 {
        let left = decode(plan, placed, met, left, depth + 1)?;
        let right = decode(plan, placed, met, right, depth + 1)?;
        return Ok(Tree::Fork(Box::new(left), Box::new(right)));
    }
    if depth > 31 || met.contains(&gate) {
        return Err(19);
    }
    met.push(gate);
    match placed.iter().find(|x| x.index as u64 == gate) {
        Some(found) => Ok(Tree::Leaf(*found)),
        None => Err(19),
    }
}

/// The gates and the tree of a plan; 19 "is given for a made-up plan: parameters or gates
/// that 1 to 7 turn down, a child not after its parent or past the nodes, a leaf below
/// depth 31, leaves other than each placed gate just once, or D, K or F not the tree's."
pub fn decoded(plan: &Plan) -> Result<(Vec<Gate>, Tree), u64> {
    let gates = listed(plan)?;
    if !children_good(plan) || plan.node_count == 0 {
        return Err(19);
    }
    let placed = placed(&gates);
    let mut met = vec![];
    let tree = decode(plan, &placed, &mut met, 0, 0)?;
    let all_met = met.len() == placed.len();
    if !all_met || (plan.d, plan.k, plan.f) != (tree.d(), tree.k(), quotient_factor(tree.d())) {
        return Err(19);
    }
    Ok((gates, tree))
}

/// 02, Change 2: "The path answer becomes one of three: a path, no selector, or unknown gate".
#[derive(Clone, Debug, PartialEq, Eq)]
pub enum PathAnswer {
    /// The steps from the root, true for left: "1 left, 0 right".
    Path(Vec<bool>),
    NoSelector,
    UnknownGate,
}

/// The answer for a gate of a list whose tree this is. "A lone gate still has an empty path."
/// "Otherwise kind 2 is dropped": a dropped gate has no selector.
pub fn path_in(gates: &[Gate], tree: &Tree, gate: u64) -> PathAnswer {
    if gate >= gates.len() as u64 {
        return PathAnswer::UnknownGate;
    }
    if gates.len() > 1 && gates[gate as usize].kind == 2 {
        return PathAnswer::NoSelector;
    }
    let mut leaves = tree.leaves().into_iter();
    PathAnswer::Path(leaves.find(|(leaf, _)| leaf.index as u64 == gate).unwrap().1)
}

/// The answer to a caller: "unknown gate, still 12; 19 is tested before them as today".
pub fn path(plan: &Plan, gate: u64) -> Result<PathAnswer, u64> {
    let (gates, tree) = decoded(plan)?;
    match path_in(&gates, &tree, gate) {
        PathAnswer::UnknownGate => Err(12),
        listed => Ok(listed),
    }
}

/// "Table-id column: mode 2 the lookup path's length, mode 4 K, else none."
pub fn table_id(plan: &Plan) -> Result<Option<u64>, u64> {
    let (gates, tree) = decoded(plan)?;
    Ok(match plan.parameter().mode {
        2 => match path_in(&gates, &tree, 0) {
            PathAnswer::Path(steps) => Some(steps.len() as u64),
            PathAnswer::NoSelector | PathAnswer::UnknownGate => None,
        },
        4 => Some(plan.k),
        _ => None,
    })
}
