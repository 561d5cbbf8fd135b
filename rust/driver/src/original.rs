//! The library's answer to a whole circuit beside the original's.
use crate::encoding::{GATE_COUNT, NODE_COUNT};
use crate::figures::Figures;
use crate::random::Random;
use crate::script::{accepted, named, End};
use crate::sides::*;
use model::labels::MOST_COLUMNS;
use oracle::{Outcome, Output};

/// How many paths of a circuit are asked for.
const PATHS: u64 = 8;

fn asked<'a>(sides: &'a mut Sides, figures: &mut Figures, call: Call) -> Result<&'a [u64], String> {
    sides.lent[OUT] = 3;
    accepted(sides, figures, call)?;
    Ok(&sides.library[OUT])
}

/// D, K, F, paths and which gates have none, nodes and table ids.
fn plan_differs(
    r: &mut Random,
    sides: &mut Sides,
    figures: &mut Figures,
    o: &Output,
) -> Result<Option<String>, String> {
    if asked(sides, figures, Call::Stats)?[..3] != [o.d, o.k, o.f] {
        return Ok(Some("D, K or F".to_string()));
    }
    let ids: &[u64] = match asked(sides, figures, Call::TableId)? {
        [0, ..] => &[],
        out => &out[1..2],
    };
    if ids != o.ids {
        return Ok(Some("table ids".to_string()));
    }
    let gates = o.paths.len() as u64;
    for i in 0..gates.min(PATHS) {
        let gate = if gates <= PATHS { i } else { r.within(0, gates - 1) };
        if asked(sides, figures, Call::Path(gate))?[..3] != o.path_words(gate as usize) {
            return Ok(Some(format!("path of gate {gate}")));
        }
    }
    let nodes = &sides.library[PLAN][GATE_COUNT + 1..=NODE_COUNT];
    let known = o.nodes.len();
    let same = nodes[..3 * known] == o.nodes.concat() && nodes.last() == Some(&(known as u64));
    Ok((!same).then(|| "nodes".to_string()))
}

fn columns_differ(sides: &Sides, o: &Output) -> Option<String> {
    let [constants, copies, _, tables] = named(sides);
    let parts = [
        (CONSTANTS, &o.constants, constants),
        (COPIES, &o.copies, copies),
        (TABLES, &o.tables, tables),
    ];
    parts.into_iter().find_map(|(buffer, columns, length)| {
        let own = &sides.library[buffer][..length as usize];
        (own != columns.concat()).then(|| format!("{} columns", NAMES[buffer]))
    })
}

/// Compares with what the original made; it takes rows that are refused with 23.
pub fn compare(
    r: &mut Random,
    figures: &mut Figures,
    outcome: Outcome,
    end: End,
) -> Result<(), String> {
    let what = match (end, outcome) {
        (End::NoPlace, Outcome::Panicked(_)) => None,
        (End::Barred(mut sides), Outcome::Made(o)) => plan_differs(r, &mut sides, figures, &o)?,
        (End::Finished(mut sides), Outcome::Made(o)) => {
            let what = plan_differs(r, &mut sides, figures, &o)?;
            figures.originals += 1;
            what.or_else(|| columns_differ(&sides, &o))
        }
        _ => return Err("library and original: one refuses, the other does not".to_string()),
    };
    match what {
        None => Ok(()),
        Some(what) => Err(format!("library and original differ: {what}")),
    }
}

/// Compares representatives that the library left, and their powers, with the original's.
pub fn representatives(sides: &Sides, figures: &mut Figures, n: u64, c: u64) -> Result<(), String> {
    let (values, powers) = oracle::representatives(n, c);
    let (own_values, own_powers) = sides.library[OUT].split_at(MOST_COLUMNS);
    figures.representatives += 1;
    match own_values.starts_with(&values) && own_powers.starts_with(&powers) {
        true => Ok(()),
        false => Err(format!("N = {n}, C = {c}: library and original differ: representatives")),
    }
}
