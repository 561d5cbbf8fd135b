//! Plans and states as words, in the order of crates/capi: parameters, gates, their count, nodes,
//! their count, D, K, F; then counts, marks and phase. Representatives as words.
use model::labels::{Representatives, MOST_COLUMNS};
use model::plan::{Plan, MOST_GATES, MOST_NODES};
use model::State;

pub const GATE_COUNT: usize = 8 + 3 * MOST_GATES;
pub const NODE_COUNT: usize = GATE_COUNT + 1 + 3 * MOST_NODES;
pub const PLAN_WORDS: usize = NODE_COUNT + 4;
pub const COUNTS: usize = PLAN_WORDS;
pub const USED: usize = COUNTS + 5;
pub const PHASE: usize = USED + MOST_GATES;
pub const STATE_WORDS: usize = PHASE + 1;
pub const REPRESENTATIVES_WORDS: usize = 2 * MOST_COLUMNS + 1;

pub fn plan_words(plan: &Plan) -> Vec<u64> {
    let mut words = plan.parameters.to_vec();
    words.extend(plan.gates.iter().flatten());
    words.push(plan.gate_count);
    words.extend(plan.nodes.iter().flatten());
    words.extend([plan.node_count, plan.d, plan.k, plan.f]);
    words
}

fn threes<const COUNT: usize>(words: &[u64]) -> [[u64; 3]; COUNT] {
    std::array::from_fn(|i| [words[3 * i], words[3 * i + 1], words[3 * i + 2]])
}

/// "words that encode none, or of the wrong length, are a made-up one": a plan of zeros is.
pub fn plan_of(words: &[u64]) -> Plan {
    if words.len() != PLAN_WORDS {
        return Plan::zero();
    }
    Plan {
        parameters: std::array::from_fn(|i| words[i]),
        gates: threes(&words[8..]),
        gate_count: words[GATE_COUNT],
        nodes: threes(&words[GATE_COUNT + 1..]),
        node_count: words[NODE_COUNT],
        d: words[NODE_COUNT + 1],
        k: words[NODE_COUNT + 2],
        f: words[NODE_COUNT + 3],
    }
}

/// The state of any words.
pub fn state_of(words: &[u64]) -> State {
    if words.len() != STATE_WORDS {
        return State::zero();
    }
    State {
        plan: plan_of(&words[..PLAN_WORDS]),
        rows: words[COUNTS],
        s_words: words[COUNTS + 1],
        cells: words[COUNTS + 2],
        tables: words[COUNTS + 3],
        height: words[COUNTS + 4],
        used: std::array::from_fn(|gate| words[USED + gate]),
        phase: words[PHASE],
    }
}

pub fn state_words(state: &State) -> Vec<u64> {
    let mut words = plan_words(&state.plan);
    words.extend([state.rows, state.s_words, state.cells, state.tables, state.height]);
    words.extend(state.used);
    words.push(state.phase);
    words
}

/// Values, then powers, each with zeros up to the most columns; and how many powers were taken.
pub fn representatives_words(found: &Representatives) -> Vec<u64> {
    let mut words = found.values.clone();
    words.resize(MOST_COLUMNS, 0);
    words.extend(&found.powers);
    words.resize(2 * MOST_COLUMNS, 0);
    words.push(found.taken);
    words
}
