use super::Checks;
use crate::made_up::{balanced_65, chain};
use model::field::{add, is_non_residue, mul, pow, sub, P};
use model::labels::{label, representatives, Representatives};
use model::plan::Plan;
use model::{path, plan, table_id, PathAnswer};

pub fn field(c: &mut Checks) {
    c.same("P1", add(P - 1, P - 1), P - 2);
    c.same("P2", mul(1 << 32, 1 << 32), 4294967295);
    c.same("P3", mul(1 << 48, 1 << 48), P - 1);
    c.same("a sum that does not wrap", add(P - 1, 1), 0);
    c.same("words read modulo p", add(u64::MAX, u64::MAX), 8589934588);
    c.same("0 - 1", sub(0, 1), P - 1);
    c.same("0 - p", sub(0, P), 0);
    c.same("the exponent is a plain count", pow(2, P), 2);
    c.same("0 to the power 0", pow(0, 0), 1);
    c.same("p to the power 0", pow(P, 0), 1);
    c.same("residues", [0, 1, P, 7, P + 7].map(is_non_residue), [false, false, false, true, true]);
}

pub fn labels(c: &mut Checks) {
    let (values, powers) = (vec![1, 7, 11, 13, 14], vec![1, 49, 121, 169, 196]);
    let p4 = Representatives { values, powers, taken: 4 };
    c.same("P4, its powers, and four taken", representatives(2, 5), Ok(p4));
    let (at_32, at_64) = (representatives(32, 24).unwrap(), representatives(64, 24).unwrap());
    c.same("column 23 at N = 32", at_32.values[23], 56);
    c.same("column 23 at N = 64: 56 is in the coset of 7", at_64.values[23], 57);
    c.same("its power is 57's", at_64.powers[23], 5831129045225821067);
    c.same("56's power is taken, kept or not", [at_32, at_64].map(|x| x.taken), [23, 24]);
    let one = Representatives { values: vec![1], powers: vec![1], taken: 0 };
    c.same("one column", representatives(65536, 1), Ok(one));
    for (n, columns) in [(0, 1), (3, 1), (131072, 1), (1, 0), (1, 65)] {
        c.same("range of N and C", representatives(n, columns), Err(1));
        c.same("range of N and C", label(n, columns, 0), Err(1));
    }
    c.same("a cell outside", label(1, 1, 1), Err(1));
    c.same("the last cell", label(2, 2, 3), Ok(P - 7));
}

/// A path, written as its digits.
fn digits(text: &str) -> PathAnswer {
    PathAnswer::Path(text.chars().map(|digit| digit == '1').collect())
}

fn paths(mode: u64, a: u64, gates: &[u64]) -> Result<(Vec<PathAnswer>, [u64; 3]), u64> {
    let (w, flag) = if mode == 0 { (0, 0) } else { (1, 1) };
    let plan = plan([1, 1, a, 1, 0, mode, w, flag], gates)?;
    let all = (0..plan.gate_count).map(|gate| path(&plan, gate).unwrap()).collect();
    Ok((all, [plan.d, plan.k, plan.f]))
}

pub fn planning(c: &mut Checks) {
    let lookup = model::gates::Gate { index: 0, kind: 3, degree: 0, constants: 0 };
    c.same("P5", [0, 2, 5].map(|depth| lookup.degree_at(depth)), [2, 2, 5]);
    let p6 = [0, 2, 1, 0, 1, 0, 1, 0, 0];
    c.same("P6", paths(0, 1, &p6), Ok((["1", "01", "00"].map(digits).to_vec(), [3, 2, 2])));
    c.same("P10", paths(0, 0, &[1, 0, 0]), Ok((vec![digits("")], [0, 0, 1])));
    c.same("64 gates at target 8", paths(0, 0, &[0, 2, 0].repeat(64)).map(|x| x.1), Ok([8, 6, 8]));
    c.same("65 gates", paths(0, 0, &[0, 2, 0].repeat(65)), Err(8));
    let both = Ok((["0", "1"].map(digits).to_vec(), [2, 1, 1]));
    c.same("the lookup gate sorts by its degree word", paths(1, 0, &[3, 0, 0, 0, 1, 0]), both);
    let one_placed = Ok((vec![digits(""), PathAnswer::NoSelector], [64, 0, 64]));
    c.same("one placed gate of two", paths(0, 0, &[0, 64, 0, 2, 0, 0]), one_placed);
    c.same("a lone kind 2 gate", paths(0, 0, &[2, 0, 0]), Ok((vec![digits("")], [0, 0, 1])));
    let middle = vec![digits("1"), PathAnswer::NoSelector, digits("0")];
    let with_middle = paths(0, 0, &[0, 2, 0, 2, 0, 0, 1, 0, 0]);
    c.same("a kind 2 gate in the middle", with_middle, Ok((middle, [3, 1, 2])));
    let first = vec![PathAnswer::NoSelector, PathAnswer::NoSelector, digits("")];
    let with_first = paths(0, 0, &[2, 0, 0, 2, 0, 0, 0, 1, 0]);
    c.same("two kind 2 gates before the placed one", with_first, Ok((first, [1, 0, 1])));
    for (name, mode, a, gates, number) in [
        ("4 before 5", 0, 0, &[3, 0, 0, 0, 1, 0, 4, 0, 0][..], 4),
        ("a lookup record with a constant", 2, 1, &[3, 0, 1, 0, 1, 0], 4),
        ("kind 3 in mode 0", 0, 0, &[0, 1, 0, 3, 0, 0], 5),
        ("kind 3 in mode 3", 3, 0, &[3, 0, 0, 0, 1, 0], 5),
        ("two of kind 3", 1, 0, &[3, 0, 0, 3, 0, 0], 5),
        ("a single gate in mode 3", 3, 0, &[0, 1, 0], 5),
        ("no kind 0 or 3", 0, 0, &[1, 0, 0, 2, 0, 0], 6),
        ("mode 2 with A = 0", 2, 0, &[3, 0, 0, 0, 1, 0], 7),
        ("a lone gate's constants", 0, 2, &[0, 1, 3], 7),
        ("no gate", 0, 0, &[], 3),
        ("four words", 0, 0, &[1, 0, 0, 1], 3),
    ] {
        c.same(name, paths(mode, a, gates), Err(number));
    }
    c.same("mode 4, S = 0 and flag 0", plan([1, 1, 0, 0, 0, 4, 1, 0], &[]), Err(1));
    c.same("mode 4 and flag 0", plan([1, 1, 0, 1, 0, 4, 1, 0], &[]), Err(2));
    c.same("mode 5", plan([1, 1, 0, 0, 0, 5, 1, 1], &[1, 0, 0]), Err(1));
    let good = plan([1, 1, 0, 0, 0, 0, 0, 0], &[1, 0, 0]).unwrap();
    c.same("gate not listed", path(&good, 1), Err(12));
    c.same("gate not listed", path(&good, u64::MAX), Err(12));
    let dropped = plan([2, 1, 0, 0, 0, 0, 0, 0], &[0, 1, 0, 2, 0, 0]).unwrap();
    c.same("no gate after a dropped one", path(&dropped, 2), Err(12));
}

pub fn made_up(c: &mut Checks) {
    c.same("a plan of zeros", path(&Plan::zero(), 0), Err(19));
    c.same("19 before 12", path(&Plan::zero(), 9), Err(19));
    c.same("a plan of zeros", table_id(&Plan::zero()), Err(19));
    c.same("a list that the search refuses", path(&balanced_65(), 0), Ok(digits("1111111")));
    c.same("a leaf at depth 31", path(&chain(32), 31), Ok(digits(&"0".repeat(31))));
    c.same("a leaf at depth 32", path(&chain(33), 0), Err(19));
    let lone = plan([1, 1, 0, 0, 0, 0, 0, 0], &[1, 0, 0]).unwrap();
    let with_spare = |spare: [u64; 3], count: u64| {
        let mut plan = lone.clone();
        plan.node_count = count;
        plan.nodes[1] = spare;
        path(&plan, 0)
    };
    c.same("a spare leaf", with_spare([0, 0, 0], 2), Ok(digits("")));
    c.same("a spare fork with bad children", with_spare([0, 9, 0], 2), Err(19));
    c.same("a spare fork that is not counted", with_spare([0, 9, 0], 1), Ok(digits("")));
    c.same("nodes past the slots", with_spare([0, 0, 0], 256), Err(19));
    c.same("no node", with_spare([0, 0, 0], 0), Err(19));
    let two = plan([2, 1, 0, 0, 0, 0, 0, 0], &[0, 1, 0, 1, 0, 0]).unwrap();
    let with_root = |root: [u64; 3]| {
        let mut plan = two.clone();
        plan.nodes[0] = root;
        path(&plan, 0)
    };
    c.same("a node reached twice", with_root([1, 1, 0]), Err(19));
    c.same("a child that is its parent", with_root([0, 1, 0]), Err(19));
    c.same("a child past the nodes", with_root([1, 3, 0]), Err(19));
    for change in [[1, 0, 0], [0, 1, 0], [0, 0, 1]] {
        let mut plan = two.clone();
        (plan.d, plan.k, plan.f) = (plan.d + change[0], plan.k + change[1], plan.f + change[2]);
        c.same("D, K or F not the tree's", path(&plan, 0), Err(19));
    }
}
