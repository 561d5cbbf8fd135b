//! Plans that no planning gives.
use model::plan::Plan;

/// Parameters that hold each gate once in a row.
pub fn parameters(mode: u64, gates: usize) -> [u64; 8] {
    let n = gates.next_power_of_two() as u64;
    let (w, flag) = if mode == 0 { (0, 0) } else { (3, 1) };
    [n, 2, 16, if mode == 4 { 1 } else { 0 }, 5, mode, w, flag]
}

/// A chain: each left child a leaf, the right one the rest. Depth `gates` - 1.
pub fn chain(gates: usize) -> Plan {
    let mut plan = Plan::zero();
    plan.parameters = parameters(0, gates);
    plan.gate_count = gates as u64;
    plan.node_count = 2 * gates as u64 - 1;
    for gate in 0..gates {
        plan.gates[gate] = [0, 1, 0];
        plan.nodes[2 * gate] = [0, 0, gate as u64];
        if gate + 1 < gates {
            plan.nodes[2 * gate] = [2 * gate as u64 + 1, 2 * gate as u64 + 2, 0];
            plan.nodes[2 * gate + 1] = [0, 0, gate as u64];
        }
    }
    let deepest = gates as u64 - 1;
    (plan.d, plan.k) = (deepest + 1, deepest);
    plan.f = deepest.max(1).next_power_of_two();
    plan
}

/// A balanced tree of 65 gates (0,2,0), which the search turns down with 8.
pub fn balanced_65() -> Plan {
    let mut plan = Plan::zero();
    plan.parameters = parameters(0, 65);
    plan.gate_count = 65;
    plan.gates[..65].fill([0, 2, 0]);
    fn grow(plan: &mut Plan, first: u64, count: u64) {
        let own = plan.node_count as usize;
        plan.node_count += 1;
        if count == 1 {
            plan.nodes[own] = [0, 0, first];
            return;
        }
        plan.nodes[own][0] = plan.node_count;
        grow(plan, first, count - count / 2);
        plan.nodes[own][1] = plan.node_count;
        grow(plan, first + count - count / 2, count / 2);
    }
    grow(&mut plan, 0, 65);
    (plan.d, plan.k, plan.f) = (9, 7, 8);
    plan
}
