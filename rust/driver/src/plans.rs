//! Planning of all short gate lists, and plans that no planning gives.
use crate::circuit::Circuit;
use crate::encoding::{plan_words, NODE_COUNT};
use crate::figures::Figures;
use crate::random::Random;
use crate::script::named;
use crate::sides::{Call, Sides, OUT, PLAN};
use crate::{lists, made_up};
use model::Plan;

const LONGEST: u32 = 4;

/// Plans a list, and asks for D, K, F and every path.
fn planned(sides: &mut Sides, f: &mut Figures, x: &Circuit) -> Result<(), String> {
    if sides.make(f, Call::Plan(&x.parameters, &x.gates.concat()))? == 0 {
        sides.make(f, Call::Stats)?;
        for gate in 0..x.gates.len() as u64 {
            sides.make(f, Call::Path(gate))?;
        }
    }
    Ok(())
}

fn gate_lists(sides: &mut Sides, f: &mut Figures) -> Result<(), String> {
    let mut done = Ok(());
    let mut take = |x: Circuit| {
        done = planned(sides, f, &x);
        done.is_ok()
    };
    let _ = lists::short(LONGEST, &mut take) && lists::dropped(&mut take);
    done
}

/// Lists whose gates have a path, an empty one or no selector.
const SELECTORS: [&[[u64; 3]]; 4] =
    [&[[1, 0, 0]], &[[2, 0, 0]], &[[0, 64, 0], [2, 0, 0]], &[[0, 2, 0], [2, 0, 0], [1, 0, 0]]];

/// Every gate's path and that of two not listed, in results of every length that were junk.
fn results(sides: &mut Sides, f: &mut Figures, gates: u64) -> Result<(), String> {
    for length in 0..=sides.library[OUT].len() {
        for gate in (0..=gates).chain([u64::MAX]) {
            (0..sides.library[OUT].len()).for_each(|place| sides.set(OUT, place, 77));
            sides.lent[OUT] = length;
            sides.make(f, Call::Path(gate))?;
        }
    }
    Ok(())
}

/// As above of good plans, then of the same ones with another D.
fn selectors(sides: &mut Sides, f: &mut Figures) -> Result<(), String> {
    for gates in SELECTORS {
        let (n, count) = (gates.len().next_power_of_two() as u64, gates.len() as u64);
        sides.lent[OUT] = 3;
        planned(sides, f, &Circuit::plain([n, 1, 0, 0, 0, 0, 0, 0], gates))?;
        results(sides, f, count)?;
        let d = sides.library[PLAN][NODE_COUNT + 1];
        sides.set(PLAN, NODE_COUNT + 1, d + 1);
        results(sides, f, count)?;
    }
    Ok(())
}

/// Every call that reads a plan.
fn asked(r: &mut Random, f: &mut Figures, plan: &Plan) -> Result<(), String> {
    let mut sides = Sides::new(r);
    for (place, word) in plan_words(plan).into_iter().enumerate() {
        sides.set(PLAN, place, word);
    }
    sides.allocate(r, named(&sides));
    for gate in [0, 1, plan.gate_count - 1, plan.gate_count] {
        sides.make(f, Call::Path(gate))?;
    }
    for call in [Call::Stats, Call::TableId, Call::Open, Call::Rows(&[]), Call::Finish] {
        sides.make(f, call)?;
    }
    Ok(())
}

/// Chains up to the deepest, one of which has its last leaves at depth 31, and a balanced tree.
fn shapes(r: &mut Random, f: &mut Figures) -> Result<(), String> {
    (2..=128).try_for_each(|gates| asked(r, f, &made_up::chain(gates)))?;
    asked(r, f, &made_up::balanced_65())
}

pub fn run(f: &mut Figures) -> Result<(), String> {
    let mut r = Random::new(2);
    gate_lists(&mut Sides::new(&mut r), f)?;
    selectors(&mut Sides::new(&mut r), f)?;
    shapes(&mut r, f)
}
