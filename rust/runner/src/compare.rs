//! One circuit before both judges.
use crate::circuit::Circuit;
use crate::pieces;
use crate::random::Random;
use crate::switched;
use model::field::P;
use model::listing::Buffers;
use model::plan::MOST_NODES;
use model::{PathAnswer, Plan, State};
use oracle::{Outcome, Output};

/// What both judges said of a circuit that document 01 accepts or turns down.
pub enum Verdict {
    Same,
    /// Turned down by the model; the original panicked (with this message) or not.
    Refused(u64, Option<String>),
    Different(String),
}

/// Buffers whose words are not fresh, longer than needed by a few words: an opening
/// must not depend on them and must keep those beyond.
fn lent(lengths: [u64; 4], beyond: u64) -> Buffers {
    let junk = |length: u64, salt: u64| {
        (0..length + beyond).map(|i| u64::MAX - salt - i * 7919).collect::<Vec<u64>>()
    };
    let [constants, copies, scratch, tables] = lengths;
    Buffers {
        constants: junk(constants, 1),
        copies: junk(copies, 2),
        scratch: junk(scratch, 3),
        tables: junk(tables, 4),
    }
}

/// The named lengths of the four buffers under a plan.
pub fn lengths(plan: &Plan) -> [u64; 4] {
    use model::columns::*;
    [constants_length(plan), copies_length(plan), scratch_length(plan), tables_length(plan)]
}

/// The model's answer to a whole circuit, and the buffers as lent and as left.
pub struct Modelled {
    pub plan: Plan,
    pub state: State,
    pub before: Buffers,
    pub after: Buffers,
}

pub fn modelled(words: &[u64]) -> Result<Modelled, u64> {
    let all = model::listing::sections(words).ok_or(20u64)?;
    let plan = model::plan(all.parameters, all.gates);
    let needed = plan.as_ref().map(lengths).unwrap_or([0; 4]);
    let before = lent(needed, 5);
    let mut after = before.clone();
    let (plan, state) = model::run_listing(words, &mut after)?;
    Ok(Modelled { plan, state, before, after })
}

/// Both judges on a circuit. With a source of random words, the original's chunks are cut
/// at random and the model is run a second time, in pieces.
pub fn compare(circuit: &Circuit, cuts: Option<&mut Random>) -> Verdict {
    let words = circuit.listing();
    let mut cuts = cuts;
    let cores = cuts.as_mut().map_or(1, |r| r.pick(&[1, 1, 2, 3, 7]));
    let outcome = oracle::outcome(&words, cores);
    match (modelled(&words), outcome) {
        (_, Outcome::Malformed) => Verdict::Different("the oracle took no listing".to_string()),
        (Err(number), Outcome::Panicked(message)) => Verdict::Refused(number, Some(message)),
        (Err(23), Outcome::Made(o)) => match barred_difference(circuit, &o) {
            None => Verdict::Refused(23, None),
            Some(what) => Verdict::Different(what),
        },
        (Err(number), Outcome::Made(_)) => Verdict::Refused(number, None),
        (Ok(_), Outcome::Panicked(message)) => {
            Verdict::Different(format!("the original panicked: {message}"))
        }
        (Ok(m), Outcome::Made(o)) => {
            let rows = circuit.rows.iter().map(|row| row[0]);
            let switched = || switched::wrong(&circuit.gates, &o.paths, rows, &o.constants);
            let cut = || pieces::difference(cuts?, circuit, &m);
            match difference(&m, &o).or_else(switched).or_else(cut) {
                None => Verdict::Same,
                Some(what) => Verdict::Different(what),
            }
        }
    }
}

/// Of a circuit that the model refused with 23 and the original took: its plan is the original's,
/// and by the original's paths a row of it is one that 02 refuses.
fn barred_difference(circuit: &Circuit, o: &Output) -> Option<String> {
    let plan = match model::plan(circuit.parameters, &circuit.gates.concat()) {
        Ok(plan) => plan,
        Err(number) => return Some(format!("refused 23, and planning says {number}")),
    };
    let listed = circuit.rows.iter().map(|row| row[0] as usize).filter(|g| *g < o.paths.len());
    let barred = listed.into_iter().any(|gate| switched::barred(&circuit.gates, &o.paths, gate));
    let free = || (!barred).then(|| "refused 23, and no row of it may be".to_string());
    plan_difference(&plan, o).or_else(free)
}

/// D, K, F and the tree.
fn plan_difference(plan: &Plan, o: &Output) -> Option<String> {
    let stats = (plan.d, plan.k, plan.f);
    if stats != (o.d, o.k, o.f) {
        return Some(format!("D K F: model {stats:?}, original {:?}", (o.d, o.k, o.f)));
    }
    tree_difference(plan, o)
}

/// The first thing in which the two answers differ.
pub fn difference(m: &Modelled, o: &Output) -> Option<String> {
    if let Some(what) = plan_difference(&m.plan, o) {
        return Some(what);
    }
    let [constants, copies, _, tables] = lengths(&m.plan);
    let n = m.plan.parameters[0] as usize;
    let parts = [
        ("constant", &o.constants, &m.after.constants, &m.before.constants, constants),
        ("copy", &o.copies, &m.after.copies, &m.before.copies, copies),
        ("table", &o.tables, &m.after.tables, &m.before.tables, tables),
    ];
    for (name, columns, after, before, length) in parts {
        let length = length as usize;
        if columns.iter().any(|c| c.len() != n) || columns.len() * n != length {
            return Some(format!("number or length of {name} columns"));
        }
        let all = columns.iter().flatten();
        if let Some(i) = all.zip(after).position(|(x, y)| x != y || *y >= P) {
            return Some(format!("{name} column {} row {}", i / n, i % n));
        }
        if after[length..] != before[length..] {
            return Some(format!("words beyond the {name} columns"));
        }
    }
    None
}

fn tree_difference(plan: &Plan, o: &Output) -> Option<String> {
    let mut nodes = o.nodes.clone();
    if nodes.len() as u64 != plan.node_count {
        return Some("number of nodes".to_string());
    }
    nodes.resize(MOST_NODES, [0; 3]);
    if nodes[..] != plan.nodes[..] {
        return Some("nodes".to_string());
    }
    for (gate, path) in o.paths.iter().enumerate() {
        let own = path.clone().map_or(PathAnswer::NoSelector, PathAnswer::Path);
        let modelled = model::path(plan, gate as u64);
        if modelled != Ok(own) {
            return Some(format!("path of gate {gate}: model {modelled:?}, original {path:?}"));
        }
    }
    let ids: Vec<u64> = model::table_id(plan).unwrap().into_iter().collect();
    if ids != o.ids {
        return Some(format!("ids: model {ids:?}, original {:?}", o.ids));
    }
    None
}
