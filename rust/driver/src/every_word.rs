//! Good plans and states with one word changed, every word in turn.
use crate::batches::Batch;
use crate::circuit::Circuit;
use crate::encoding::{GATE_COUNT, NODE_COUNT, PHASE, PLAN_WORDS, STATE_WORDS, USED};
use crate::figures::Figures;
use crate::random::Random;
use crate::rest::{Rest, SECTIONS};
use crate::script::{accepted, opened, planned, refused};
use crate::sides::{Call, Sides, PLAN, STATE};

/// A circuit of a mode, with a gate of each kind that it may have; a kind 1 gate ends on the all-0
/// path.
fn circuit(mode: u64) -> Circuit {
    let (w, flag) = if mode == 0 { (0, 0) } else { (2, 1) };
    let mut gates = vec![[0, 3, 2], [0, 1, 0], [1, 0, 0], [2, 0, 0], [0, 2, 1], [1, 0, 0]];
    if mode == 1 || mode == 2 {
        gates[0] = [3, 0, 0];
    }
    let mut x = Circuit::plain([8, 2, 2, 2, 5, mode, w, flag], &gates);
    x.cells = (0..16).map(|cell| cell * 3 % 5).collect();
    x.s_words = (20..36).collect();
    if mode != 0 {
        x.tables = vec![vec![2, 1, 7, 8], vec![2, 0], vec![2, 2, 1, 2, 3, 4]];
    }
    x
}

/// Values in a word's place: many for a word that stands alone, a few for one of an array.
fn values(place: usize, word: u64) -> Vec<u64> {
    let near = [word.wrapping_add(1), word.wrapping_sub(1), u64::MAX];
    let more = [0, 1, 2, 3, 4, 5, 8, 16, 17, 64, 255, 256, 65536, 131072, word + (1 << 32)];
    let gates = 8..GATE_COUNT;
    let nodes = GATE_COUNT + 1..NODE_COUNT;
    let array = gates.contains(&place) || nodes.contains(&place) || (USED..PHASE).contains(&place);
    let mut all = near.to_vec();
    if !array {
        all.extend(more);
    } else if word != 0 {
        all.extend([0, word + (1 << 32)]);
    }
    all.retain(|value| *value != word);
    all
}

/// Every call that reads a plan, for each value in each place.
fn plans(f: &mut Figures, sides: &Sides) -> Result<(), String> {
    let mut aside = sides.clone();
    for place in 0..PLAN_WORDS {
        let word = sides.library[PLAN][place];
        for value in values(place, word) {
            aside.set(PLAN, place, value);
            // of a placed gate, of one without selector, and of one not listed
            let paths = [0, 3, 6].map(Call::Path);
            for call in [Call::Stats, Call::TableId, Call::Open].into_iter().chain(paths) {
                aside.make(f, call).map_err(|what| format!("word {place} {value}: {what}"))?;
            }
        }
        aside.set(PLAN, place, word);
    }
    Ok(())
}

/// Every call that reads a state, for each value in each place, with what comes next.
fn states(r: &mut Random, f: &mut Figures, sides: &Sides, rest: &Rest) -> Result<(), String> {
    let pieces = SECTIONS.map(|section| rest.all(section));
    let mut all = Batch::default();
    SECTIONS.iter().zip(&pieces).for_each(|(section, piece)| all.piece(*section, piece));
    all.finish(r);
    let mut calls = vec![Call::Finish, Call::Calls(&all.words)];
    calls.extend(SECTIONS.iter().zip(&pieces).map(|(section, piece)| section.call(piece)));
    let mut aside = sides.clone();
    for place in 0..STATE_WORDS {
        for value in values(place, sides.library[STATE][place]) {
            for call in &calls {
                aside.set(STATE, place, value);
                let number = aside.make(f, *call);
                if number.map_err(|what| format!("word {place} {value}: {what}"))? == 0 {
                    aside.clone_from(sides);
                }
            }
        }
        aside.set(STATE, place, sides.library[STATE][place]);
    }
    Ok(())
}

fn mode(f: &mut Figures, mode: u64) -> Result<(), String> {
    let mut r = Random::new(mode);
    let x = circuit(mode);
    let mut sides = Sides::new(&mut r);
    if !planned(&mut r, &mut sides, f, &x)? {
        return Err("planning was refused: 8".to_string());
    }
    plans(f, &sides)?;
    opened(&mut r, &mut sides, f)?;
    // a state half way, then one that only finishing is left for
    let mut rest = Rest::of(&x);
    for section in SECTIONS {
        let piece = rest.piece(&mut r, section);
        accepted(&mut sides, f, section.call(&piece))?;
    }
    states(&mut r, f, &sides, &rest)?;
    for section in SECTIONS {
        accepted(&mut sides, f, section.call(&rest.all(section)))?;
    }
    states(&mut r, f, &sides, &Rest::default())
}

/// A state half way, of a circuit whose next rows are refused with 23: an evaluated gate is on the
/// all-0 path, and a kind 1 gate on another.
fn barred(f: &mut Figures) -> Result<(), String> {
    let mut r = Random::new(5);
    let gates = [[0, 1, 0], [0, 1, 0], [1, 0, 0], [2, 0, 0]];
    let x = Circuit::plain([4, 2, 0, 1, 1, 0, 0, 0], &gates);
    let mut sides = Sides::new(&mut r);
    planned(&mut r, &mut sides, f, &x)?;
    opened(&mut r, &mut sides, f)?;
    let mut rest = Rest::of(&x);
    accepted(&mut sides, f, Call::Rows(&rest.rows[..2].concat()))?;
    rest.rows = &rest.rows[2..];
    refused(&mut sides, f, Call::Rows(&rest.rows.concat()), 23)?;
    states(&mut r, f, &sides, &rest)
}

pub fn run(f: &mut Figures) -> Result<(), String> {
    (0..5)
        .try_for_each(|number| mode(f, number).map_err(|what| format!("mode {number}: {what}")))?;
    barred(f).map_err(|what| format!("rows that are refused with 23: {what}"))
}
