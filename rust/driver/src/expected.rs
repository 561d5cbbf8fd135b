//! What the model says of each call over words: its number, and every word that it leaves.
use crate::encoding::*;
use model::listing::Buffers;
use model::plan::Plan;
use model::{PathAnswer, State};

/// Words go to the front of a slice that has room for them.
fn hand(words: &[u64], out: &mut [u64]) {
    if words.len() <= out.len() {
        out[..words.len()].copy_from_slice(words);
    }
}

fn short(words: &[u64], out: &[u64]) -> bool {
    out.len() < words.len()
}

/// 20, 10, then 1 to 8; 20 and 1 to 8 leave a plan of zeros.
pub fn plan(parameters: &[u64], gates: &[u64], out: &mut [u64]) -> u64 {
    let Ok(parameters) = parameters.try_into() else {
        hand(&plan_words(&Plan::zero()), out);
        return 20;
    };
    if out.len() < PLAN_WORDS {
        return 10;
    }
    let (number, plan) = match model::plan(parameters, gates) {
        Ok(plan) => (0, plan),
        Err(number) => (number, Plan::zero()),
    };
    hand(&plan_words(&plan), out);
    number
}

/// Bits, the first step lowest, length, and 1 for a gate without selector; zeros for one not listed.
fn path_words(answer: &PathAnswer) -> [u64; 3] {
    match answer {
        PathAnswer::Path(steps) => {
            let bits = steps.iter().rev().fold(0, |bits, left| 2 * bits + *left as u64);
            [bits, steps.len() as u64, 0]
        }
        PathAnswer::NoSelector => [0, 0, 1],
        PathAnswer::UnknownGate => [0; 3],
    }
}

/// 19, 10, 12; a refused path is of zeros.
pub fn path(plan: &[u64], gate: u64, out: &mut [u64]) -> u64 {
    let (number, words) = match model::path(&plan_of(plan), gate) {
        Ok(answer) => (0, path_words(&answer)),
        Err(number) => (number, [0; 3]),
    };
    hand(&words, out);
    match number {
        19 => 19,
        _ if short(&words, out) => 10,
        _ => number,
    }
}

/// The plan's refusal, then 10; then the words are handed out.
fn asked<const COUNT: usize>(words: Result<[u64; COUNT], u64>, out: &mut [u64]) -> u64 {
    match words {
        Err(number) => number,
        Ok(words) if short(&words, out) => 10,
        Ok(words) => {
            hand(&words, out);
            0
        }
    }
}

pub fn table_id(plan: &[u64], out: &mut [u64]) -> u64 {
    let id = model::table_id(&plan_of(plan));
    asked(id.map(|id| id.map_or([0, 0], |index| [1, index])), out)
}

pub fn stats(plan: &[u64], out: &mut [u64]) -> u64 {
    let plan = plan_of(plan);
    let good = model::plan::decoded(&plan);
    asked(good.map(|_| [plan.d, plan.k, plan.f]), out)
}

/// 10, then 1 and 9, which leave 0.
pub fn label(n: u64, c: u64, cell: u64, out: &mut [u64]) -> u64 {
    if out.is_empty() {
        return 10;
    }
    let label = model::labels::label(n, c, cell);
    out[0] = label.unwrap_or(0);
    label.err().unwrap_or(0)
}

/// 10, then 1 and 9, which leave zeros.
pub fn representatives(n: u64, c: u64, out: &mut [u64]) -> u64 {
    if out.len() < REPRESENTATIVES_WORDS {
        return 10;
    }
    let (number, words) = match model::labels::representatives(n, c) {
        Ok(found) => (0, representatives_words(&found)),
        Err(number) => (number, vec![0; REPRESENTATIVES_WORDS]),
    };
    hand(&words, out);
    number
}

/// 19, 10 for the state, then the model's own; a refused opening leaves a state of zeros.
pub fn open(
    plan: &[u64],
    state: &mut [u64],
    constants: &mut [u64],
    copies: &mut [u64],
    scratch: &mut [u64],
    tables: &mut [u64],
) -> u64 {
    let plan = plan_of(plan);
    if state.len() < STATE_WORDS {
        return if model::plan::decoded(&plan).is_err() { 19 } else { 10 };
    }
    let (number, opened) = match model::open(&plan, constants, copies, scratch, tables) {
        Ok(opened) => (0, opened),
        Err(number) => (number, State::zero()),
    };
    hand(&state_words(&opened), state);
    number
}

/// The number; the state's words are written where the call is accepted.
fn taken(after: Result<State, u64>, words: &mut [u64]) -> u64 {
    match after {
        Err(number) => number,
        Ok(after) => {
            hand(&state_words(&after), words);
            0
        }
    }
}

pub fn rows(state: &mut [u64], piece: &[u64], constants: &mut [u64]) -> u64 {
    taken(model::rows(&state_of(state), piece, constants), state)
}

pub fn s_words(state: &mut [u64], piece: &[u64], constants: &mut [u64]) -> u64 {
    taken(model::s_words(&state_of(state), piece, constants), state)
}

pub fn cells(state: &mut [u64], piece: &[u64], copies: &mut [u64], scratch: &mut [u64]) -> u64 {
    taken(model::cells(&state_of(state), piece, copies, scratch), state)
}

pub fn tables(state: &mut [u64], piece: &[u64], tables: &mut [u64]) -> u64 {
    taken(model::tables(&state_of(state), piece, tables), state)
}

/// The model is lent scratch to write and must not: any word that it wrote would differ from
/// the library's.
pub fn finish(state: &mut [u64], copies: &mut [u64], scratch: &mut [u64]) -> u64 {
    taken(model::finish(&state_of(state), copies, scratch), state)
}

/// Words of another number than a state's stay as they were: every call of the list is 19.
pub fn calls(
    state: &mut [u64],
    list: &[u64],
    numbers: &mut [u64],
    [constants, copies, scratch, tables]: [&mut [u64]; 4],
) -> u64 {
    let before = state_of(state);
    match model::run_calls(&before, list, numbers, constants, copies, scratch, tables) {
        Ok(_) if state.len() != STATE_WORDS => 0,
        after => taken(after, state),
    }
}

/// 20, 10 for the plan, then the circuit's own; a refused listing leaves the columns as they were
/// and a plan of zeros.
pub fn run(
    listing: &[u64],
    plan: &mut [u64],
    [constants, copies, scratch, tables]: [&mut [u64]; 4],
) -> u64 {
    if plan.len() < PLAN_WORDS {
        return if model::listing::sections(listing).is_none() { 20 } else { 10 };
    }
    let mut buffers = Buffers {
        constants: constants.to_vec(),
        copies: copies.to_vec(),
        scratch: scratch.to_vec(),
        tables: tables.to_vec(),
    };
    match model::run_listing(listing, &mut buffers) {
        Err(number) => {
            hand(&plan_words(&Plan::zero()), plan);
            number
        }
        Ok((made, _)) => {
            hand(&plan_words(&made), plan);
            constants.copy_from_slice(&buffers.constants);
            copies.copy_from_slice(&buffers.copies);
            scratch.copy_from_slice(&buffers.scratch);
            tables.copy_from_slice(&buffers.tables);
            0
        }
    }
}

/// The circuit's own, then 10; all leave a count of 0, where it has room, and the result as it was.
pub fn pad(listing: &[u64], out: &mut [u64], count: &mut [u64]) -> u64 {
    let (number, words) = match model::pad(listing) {
        Ok(words) if short(&words, out) || count.is_empty() => (10, vec![]),
        Ok(words) => (0, words),
        Err(number) => (number, vec![]),
    };
    hand(&[words.len() as u64], count);
    hand(&words, out);
    number
}
