//! Plans, paths and table-id indexes: the original's where the plan is accepted, the
//! model's refusals; then made-up plans with the model's answer.
use crate::circuit::Circuit;
use crate::made_up::{balanced_65, chain, parameters};
use crate::random::Random;
use model::plan::Plan;

/// 2 since a gate has a third word.
const VERSION: u64 = 2;

type Request = ([u64; 8], Vec<u64>);

fn request(mode: u64, gates: &[[u64; 3]]) -> Request {
    (parameters(mode, gates.len()), gates.concat())
}

fn lone_gates() -> Vec<Request> {
    let kinds = [[0, 1, 0], [0, 2, 0], [0, 3, 5], [0, 64, 16], [1, 0, 0], [2, 0, 0], [3, 0, 0]];
    kinds.iter().flat_map(|gate| (0..5).map(|mode| request(mode, &[*gate]))).collect()
}

/// Parameters at their ends and one past them.
fn boundary_parameters() -> Vec<Request> {
    let ends: [&[u64]; 8] = [
        &[0, 1, 2, 3, 65536, 65537, 131072, 1 << 63, u64::MAX],
        &[0, 1, 64, 65, u64::MAX],
        &[0, 2, 3, 16, 17, u64::MAX],
        &[0, 16, 17, u64::MAX],
        &[0, 1048576, 1048577, u64::MAX],
        &[0, 1, 2, 3, 4, 5, u64::MAX],
        &[0, 1, 16, 17, u64::MAX],
        &[0, 1, 2, u64::MAX],
    ];
    let mut all = vec![];
    for mode in [0, 2, 4] {
        let gates: &[[u64; 3]] = match mode {
            2 => &[[3, 0, 0], [0, 2, 3]],
            _ => &[[0, 2, 3], [1, 0, 0]],
        };
        // the words before S mean the same in every mode
        let first = if mode == 0 { 0 } else { 3 };
        for (place, values) in ends.iter().enumerate().skip(first) {
            for value in *values {
                let (mut parameters, words) = request(mode, gates);
                parameters[place] = *value;
                all.push((parameters, words));
            }
        }
    }
    all
}

/// Gate words at their ends and one past them, counts that are no gates, two faults.
fn boundary_gates() -> Vec<Request> {
    let mut all = vec![];
    for gate in [
        [0, 0, 0],
        [0, 1, 16],
        [0, 64, 0],
        [0, 65, 0],
        [0, 1, 17],
        [0, 64, 16],
        [0, u64::MAX, 0],
        [0, 1, u64::MAX],
        [1, 1, 0],
        [1, 0, 1],
        [2, 1, 0],
        [2, 0, 1],
        [3, 1, 0],
        [3, 0, 1],
        [4, 0, 0],
        [1 << 32, 1, 0],
        [u64::MAX, 0, 0],
        [1, 0, 0],
        [2, 0, 0],
        [3, 0, 0],
    ] {
        for mode in [0, 2] {
            all.push(request(mode, &[gate, [0, 2, 1]]));
            all.push(request(mode, &[[3, 0, 0], [0, 1, 0], gate]));
        }
    }
    for words in [0, 1, 2, 4, 5, 7] {
        all.push((parameters(0, 2), vec![0; words]));
    }
    all.push((parameters(0, 128), [0, 1, 0].repeat(129)));
    all
}

/// Two faults at once: the number of the first in 01's order.
fn two_faults() -> Vec<Request> {
    let mut all = vec![];
    let faulty_gates: [&[u64]; 6] = [
        &[],
        &[0, 1],
        &[0, 65, 0, 3, 0, 0],
        &[0, 1, 0, 3, 0, 0],
        &[1, 0, 0, 2, 0, 0],
        &[0, 1, 9, 1, 0, 0],
    ];
    for gates in faulty_gates {
        for parameters in [
            [1, 1, 0, 0, 0, 4, 1, 0],
            [1, 1, 0, 1, 0, 4, 1, 0],
            [2, 1, 8, 0, 0, 0, 0, 0],
            [2, 1, 8, 0, 0, 1, 1, 1],
            [2, 0, 8, 0, 0, 2, 1, 0],
            [2, 1, 0, 0, 0, 2, 1, 1],
        ] {
            all.push((parameters, gates.to_vec()));
        }
    }
    // 7 before 8, 6 before 7
    all.push(([128, 1, 0, 0, 0, 0, 0, 0], [0, 2, 1].repeat(65)));
    all.push(([128, 1, 16, 0, 0, 0, 0, 0], [0, 2, 1].repeat(65)));
    all
}

fn random_gates(r: &mut Random, mode: u64, count: u64) -> Request {
    let degree = r.pick(&[1, 2, 3, 4, 7, 16, 64]);
    let constants = r.pick(&[0, 1, 3, 16]);
    let mut gates: Vec<[u64; 3]> = vec![];
    for _ in 0..count {
        gates.push(match r.within(0, 9) {
            0 => [1, 0, 0],
            1 => [2, 0, 0],
            _ => [0, r.within(1, degree), r.within(0, constants)],
        });
    }
    if mode == 1 || mode == 2 {
        gates[0] = [3, 0, 0];
    }
    request(mode, &gates)
}

fn random_lists(r: &mut Random) -> Vec<Request> {
    let mut all = vec![];
    for mode in 0..5 {
        for count in 2..=6 {
            all.extend((0..2).map(|_| random_gates(r, mode, count)));
        }
        for count in [8, 12, 17] {
            all.push(random_gates(r, mode, count));
        }
    }
    for (mode, count) in [(0, 33), (1, 63), (2, 128), (4, 65)] {
        all.push(random_gates(r, mode, count));
    }
    // 01's run only cases, and the fullest trees
    all.push(request(0, &[[0, 2, 0]; 64]));
    all.push(request(0, &[[0, 2, 0]; 65]));
    all.push(request(0, &[[0, 1, 0]; 128]));
    all.push(request(2, &[[&[[3, 0, 0]][..], &[[0, 3, 2]; 31]].concat()].concat()));
    all
}

/// Eight parameters, the number of gate words, these, the answer's number; if 0 then D, K,
/// F, for each gate its path as bits and length and 1 where it has no selector, and the number
/// of ids (0 or 1) and the index.
fn plan_record((parameters, gates): &Request, words: &mut Vec<u64>) {
    words.extend(parameters);
    words.push(gates.len() as u64);
    words.extend(gates);
    if let Err(number) = model::plan(*parameters, gates) {
        words.push(number);
        return;
    }
    let records: Vec<[u64; 3]> = gates.chunks(3).map(|x| x.try_into().unwrap()).collect();
    // planning knows no rows: the original wants each gate in one, so N is raised
    let mut room = *parameters;
    room[0] = room[0].max(records.len().next_power_of_two() as u64);
    let made = oracle::run(&Circuit::plain(room, &records).listing()).expect("an accepted plan");
    words.extend([0, made.d, made.k, made.f]);
    for gate in 0..records.len() {
        words.extend(made.path_words(gate));
    }
    words.extend([made.ids.len() as u64, made.ids.first().copied().unwrap_or(0)]);
}

/// Eight parameters, stated number of gates, number of gate words that follow, these,
/// stated number of nodes, number of node words that follow, these, D, K, F, 0 or 19.
fn made_up_record(plan: &Plan, words: &mut Vec<u64>) {
    words.extend(plan.parameters);
    for (count, slots) in [(plan.gate_count, &plan.gates[..]), (plan.node_count, &plan.nodes[..])] {
        let used = slots.iter().rposition(|slot| *slot != [0; 3]).map_or(0, |last| last + 1);
        words.extend([count, 3 * used as u64]);
        words.extend(slots[..used].iter().flatten());
    }
    words.extend([plan.d, plan.k, plan.f]);
    words.push(model::path(plan, 0).err().unwrap_or(0));
}

/// A good plan with one word changed, each word of it in turn.
fn one_word_changed(good: &Plan) -> Vec<Plan> {
    let mut all = vec![good.clone()];
    let mut with = |change: &dyn Fn(&mut Plan)| {
        let mut plan = good.clone();
        change(&mut plan);
        all.push(plan);
    };
    for place in 0..8 {
        for value in [0, u64::MAX] {
            with(&|plan| plan.parameters[place] = value);
        }
    }
    for count in [0, 1, good.gate_count + 1, 129, u64::MAX] {
        with(&|plan| plan.gate_count = count);
    }
    for slot in 0..=good.gate_count as usize {
        for word in 0..3 {
            with(&|plan| plan.gates[slot][word] += 1);
        }
    }
    for count in [0, good.node_count - 1, good.node_count + 1, 255, 256, u64::MAX] {
        with(&|plan| plan.node_count = count);
    }
    for slot in 0..=good.node_count as usize {
        for word in 0..3 {
            for value in [0, good.nodes[slot][word] + 1] {
                with(&|plan| plan.nodes[slot][word] = value);
            }
        }
    }
    for step in [1, u64::MAX] {
        with(&|plan| plan.d = plan.d.wrapping_add(step));
        with(&|plan| plan.k = plan.k.wrapping_add(step));
        with(&|plan| plan.f = plan.f.wrapping_add(step));
    }
    all
}

/// Spare nodes, and nodes reached twice.
fn spare_and_shared() -> Vec<Plan> {
    let lone = model::plan(parameters(0, 1), &[1, 0, 0]).unwrap();
    let mut all = vec![];
    for spare in [[0, 0, 0], [0, 0, 9], [0, 9, 0], [1, 1, 0], [2, 2, 0], [u64::MAX; 3]] {
        let mut plan = lone.clone();
        plan.node_count = 2;
        plan.nodes[1] = spare;
        all.push(plan);
    }
    // every node a fork that reaches the next one twice: 2^254 leaves, were they all walked
    let mut plan = chain(2);
    plan.node_count = 255;
    for node in 0..254 {
        plan.nodes[node] = [node as u64 + 1, node as u64 + 1, 0];
    }
    all.push(plan);
    all
}

fn made_up() -> Vec<Plan> {
    let mut all = vec![Plan::zero()];
    for (mode, gates) in [
        (0, &[[0, 2, 1], [0, 1, 0], [1, 0, 0]][..]),
        (0, &[[2, 0, 0]]),
        (2, &[[3, 0, 0], [0, 3, 2]]),
    ] {
        let (parameters, words) = request(mode, gates);
        all.extend(one_word_changed(&model::plan(parameters, &words).unwrap()));
    }
    all.extend([chain(2), chain(32), chain(33), balanced_65()]);
    all.extend(spare_and_shared());
    all
}

pub fn record(seed: u64) -> Vec<u64> {
    let mut r = Random::new(seed);
    let mut requests = lone_gates();
    requests.extend(boundary_parameters());
    requests.extend(boundary_gates());
    requests.extend(two_faults());
    requests.extend(random_lists(&mut r));
    let mut words = vec![];
    requests.iter().for_each(|request| plan_record(request, &mut words));
    let plans = made_up();
    plans.iter().for_each(|plan| made_up_record(plan, &mut words));
    [vec![VERSION, seed, requests.len() as u64, plans.len() as u64], words].concat()
}
