//! Every list of a few gates over small degrees and constants, in modes 0 to 2; and every choice
//! of six gates beside three dropped ones. Each as the smallest circuit that has them.
use crate::circuit::Circuit;

const DEGREES: std::ops::RangeInclusive<u64> = 1..=4;
const CONSTANTS: std::ops::RangeInclusive<u64> = 0..=2;

fn kinds() -> Vec<[u64; 3]> {
    let mut all = vec![[1, 0, 0], [2, 0, 0]];
    for degree in DEGREES {
        all.extend(CONSTANTS.map(|constants| [0, degree, constants]));
    }
    all
}

/// List number i of that length: the digits of i name the gates.
fn list(kinds: &[[u64; 3]], length: u32, mut i: usize) -> Vec<[u64; 3]> {
    let mut gates = vec![];
    for _ in 0..length {
        gates.push(kinds[i % kinds.len()]);
        i /= kinds.len();
    }
    gates
}

/// In modes 1 and 2 the lookup gate stands before the list.
fn circuit(mode: u64, gates: &[[u64; 3]]) -> Circuit {
    let all = if mode == 0 { gates.to_vec() } else { [&[[3, 0, 0]], gates].concat() };
    let n = all.len().next_power_of_two() as u64;
    let (w, flag) = if mode == 0 { (0, 0) } else { (1, 1) };
    Circuit::plain([n, 1, 16, 0, 0, mode, w, flag], &all)
}

/// Gives every list of up to `longest` gates; false as soon as one is not taken.
pub fn short(longest: u32, mut take: impl FnMut(Circuit) -> bool) -> bool {
    let kinds = kinds();
    let all = (0..3).flat_map(|mode| (1..=longest).map(move |length| (mode, length)));
    all.into_iter().all(|(mode, length)| {
        let mut numbers = 0..kinds.len().pow(length);
        numbers.all(|i| take(circuit(mode, &list(&kinds, length, i))))
    })
}

/// Every choice of that many of the kinds, the same one more than once.
fn choices(kinds: &[[u64; 3]], count: usize) -> Vec<Vec<[u64; 3]>> {
    if count == 0 {
        return vec![vec![]];
    }
    let mut all = vec![];
    for (i, kind) in kinds.iter().enumerate() {
        for rest in choices(&kinds[i..], count - 1) {
            all.push([vec![*kind], rest].concat());
        }
    }
    all
}

/// Six placed gates beside three dropped ones: the bounds must count the placed ones.
pub fn dropped(mut take: impl FnMut(Circuit) -> bool) -> bool {
    let mut kinds = vec![[1, 0, 0]];
    kinds.extend((1..=7).map(|degree| [0, degree, 0]));
    choices(&kinds, 6).into_iter().all(|mut gates| {
        gates.extend([[2, 0, 0]; 3]);
        take(circuit(0, &gates))
    })
}
