//! Calls that a circuit does not ask for: faulty pieces, short buffers, made-up plans and states.
//! Those that may be accepted are made on a copy of both sides.
use crate::circuit::{Circuit, PLACEHOLDER};
use crate::encoding::{GATE_COUNT, PLAN_WORDS, REPRESENTATIVES_WORDS, STATE_WORDS, USED};
use crate::figures::Figures;
use crate::random::Random;
use crate::rest::{Rest, Section, SECTIONS};
use crate::sides::*;
use model::field::P;

/// Copies of longer columns than this take too long to be made often.
pub const MOST_COPIED: usize = 20000;

/// Another value for a word: near it, at an end, or with one bit turned.
pub fn other(r: &mut Random, word: u64) -> u64 {
    match r.within(0, 9) {
        0..=1 => word.wrapping_add(1),
        2..=3 => word.wrapping_sub(1),
        4 => word ^ 1 << r.within(0, 63),
        5 => word.wrapping_add(1 << 32),
        6 => r.pick(&[P - 1, P, u64::MAX, 1 << 63]),
        7 => r.within(0, 20),
        8 => 1 << r.within(0, 17),
        _ => 0,
    }
}

/// A place of a plan or state: a single word as often as one of the long arrays.
pub fn place(r: &mut Random, length: usize) -> usize {
    let single = r.pick(&[0, 1, 2, 3, 4, 5, 6, 7, 392, 1158, 1159, 1160, 1161]);
    let later = r.within(PLAN_WORDS as u64, STATE_WORDS as u64 - 1);
    let place = match r.within(0, 4) {
        0..=1 => single,
        2 if length > PLAN_WORDS => r.ends(&[1162, 1163, 1164, 1165, 1166, 1295], later, later),
        3 => r.within(8, 60),
        _ => r.within(0, length as u64 - 1),
    };
    place as usize
}

/// Another word on both sides.
pub fn change(r: &mut Random, sides: &mut Sides, buffer: usize, place: usize) {
    let word = other(r, sides.library[buffer][place]);
    sides.set(buffer, place, word);
}

/// A record or word at which the section's call stops, and what may stand after it.
fn fault(r: &mut Random, x: &Circuit, section: Section) -> Vec<u64> {
    let [n, _, _, _, v, _, w, _] = x.parameters;
    let gate = r.within(0, x.gates.len() as u64 - 1);
    let has = x.gates[gate as usize][2];
    let dropped = x.gates.iter().position(|gate| gate[0] == 2);
    let bad = r.pick(&[P, P + 1, u64::MAX]);
    let table = |rows: u64, words: u64, word: u64| {
        let mut record = vec![w, rows];
        record.resize(2 + (words as usize).min(2000), word);
        record
    };
    match (section, r.within(0, 5)) {
        (Section::Rows, 0) => vec![r.pick(&[x.gates.len() as u64, 128, u64::MAX]), 0],
        (Section::Rows, 1) => [vec![gate, has + 1], vec![3; has as usize + 1]].concat(),
        (Section::Rows, 2) => vec![gate, r.pick(&[1, 2, has + 2, u64::MAX, u64::MAX - 1]), 4],
        (Section::Rows, 3) => vec![gate],
        // 23, where the all-0 path is not a kind 1 gate's
        (Section::Rows, 4) if dropped.is_some() => vec![dropped.unwrap() as u64, 0],
        (Section::Rows, _) => vec![gate, 1, bad],
        (Section::SWords, _) => vec![bad, r.word()],
        (Section::Cells, 0) => vec![1 << 48, v],
        (Section::Cells, 1) => vec![(1 << 48) - 1, 0],
        (Section::Cells, 2) => vec![1 << 32, PLACEHOLDER],
        (Section::Cells, _) => vec![v | r.word() >> 49 << 48],
        (Section::Tables, 0) => vec![other(r, w), 0],
        (Section::Tables, 1) => table(r.pick(&[n + 1, u64::MAX, 1 << 60]), w, 1),
        (Section::Tables, 2) => table(1, w.saturating_sub(1), 1),
        (Section::Tables, 3) => [w, 0].repeat(256),
        (Section::Tables, 4) => vec![w],
        (Section::Tables, _) => table(1, w, bad),
    }
}

/// Some of what is next, or all of it, and then a fault or one record too many.
pub fn faulty(r: &mut Random, x: &Circuit, rest: &Rest, section: Section) -> Vec<u64> {
    if r.once_in(3) {
        let more: &[u64] = match section {
            Section::Rows => &[0, 0],
            Section::Tables => &[x.parameters[6], 1],
            _ => &[PLACEHOLDER],
        };
        return [&rest.all(section)[..], more].concat();
    }
    let front = if r.once_in(2) { rest.peek(r, section) } else { vec![] };
    [front, fault(r, x, section)].concat()
}

/// A call on a made-up state, or on made-up scratch, with a piece that comes next.
fn made_up(r: &mut Random, aside: &mut Sides, figures: &mut Figures, rest: &Rest) -> Try {
    match r.within(0, 5) {
        0 if !aside.library[SCRATCH].is_empty() => {
            let place = r.within(0, aside.library[SCRATCH].len() as u64 - 1);
            change(r, aside, SCRATCH, place as usize);
        }
        1 => {
            let listed = aside.library[STATE][GATE_COUNT];
            aside.set(STATE, USED + r.within(0, listed - 1) as usize, 0);
        }
        _ => {
            let place = place(r, STATE_WORDS);
            change(r, aside, STATE, place);
        }
    }
    if rest.is_empty() {
        return aside.make(figures, Call::Finish).map(drop);
    }
    let section = r.pick(&SECTIONS);
    let piece = rest.peek(r, section);
    aside.make(figures, section.call(&piece))?;
    aside.make(figures, Call::Finish).map(drop)
}

type Try = Result<(), String>;

/// A call with one of its buffers short; `named` are the columns' lengths.
fn short(
    r: &mut Random,
    sides: &mut Sides,
    figures: &mut Figures,
    rest: &Rest,
    named: [u64; 4],
) -> Try {
    let section = r.pick(&SECTIONS);
    let piece = rest.peek(r, section);
    let (call, buffer) = match section {
        Section::Rows | Section::SWords => (section.call(&piece), CONSTANTS),
        Section::Cells => (section.call(&piece), r.pick(&[COPIES, SCRATCH])),
        Section::Tables if r.once_in(2) => (section.call(&piece), TABLES),
        Section::Tables => (Call::Finish, r.pick(&[COPIES, SCRATCH])),
    };
    sides.make_short(r, figures, call, buffer, named[buffer - CONSTANTS] as usize)
}

/// One call among a circuit's own, which leaves both sides as they were.
pub fn between(
    r: &mut Random,
    sides: &mut Sides,
    figures: &mut Figures,
    x: &Circuit,
    rest: &Rest,
    named: [u64; 4],
) -> Try {
    if r.once_in(4) || sides.size() > MOST_COPIED {
        return short(r, sides, figures, rest, named);
    }
    let mut aside = sides.clone();
    match r.within(0, 9) {
        0..=4 => {
            let section = r.pick(&SECTIONS);
            let piece = faulty(r, x, rest, section);
            aside.make(figures, section.call(&piece)).map(drop)
        }
        5..=7 => made_up(r, &mut aside, figures, rest),
        8 => {
            aside.lent[STATE] = r.pick(&[0, 1162, STATE_WORDS - 1, STATE_WORDS + 1]);
            let section = r.pick(&SECTIONS);
            let piece = rest.peek(r, section);
            aside.make(figures, section.call(&piece)).map(drop)
        }
        _ => aside.make(figures, r.pick(&[Call::Finish, Call::Open])).map(drop),
    }
}

/// Planning that is turned down, before the circuit's own.
pub fn planning(r: &mut Random, sides: &mut Sides, figures: &mut Figures, x: &Circuit) -> Try {
    let mut parameters = x.parameters.to_vec();
    let mut gates = x.gates.concat();
    match r.within(0, 8) {
        0 => drop(parameters.pop()),
        1 => parameters.push(0),
        2 => drop(gates.pop()),
        3 => {
            let place = r.within(0, 7) as usize;
            parameters[place] = other(r, parameters[place]);
        }
        4 => {
            let place = r.within(0, gates.len() as u64 - 1) as usize;
            gates[place] = other(r, gates[place]);
        }
        5 => gates.extend(vec![0; r.pick(&[3, 381, 384])]),
        6 => parameters[7] = 0,
        7 => parameters[2] = 0,
        _ => {
            let kind = r.within(1, 3);
            gates.chunks_mut(3).for_each(|gate| gate.copy_from_slice(&[kind, 0, 0]));
        }
    }
    if r.once_in(8) {
        return sides.make_short(r, figures, Call::Plan(&parameters, &gates), PLAN, PLAN_WORDS);
    }
    sides.make(figures, Call::Plan(&parameters, &gates)).map(drop)
}

/// A question to a plan, or one for labels or representatives by themselves.
fn question(r: &mut Random, x: &Circuit) -> Call<'static> {
    let [n, c, ..] = x.parameters;
    let gate = r.ends(&[x.gates.len() as u64, u64::MAX], 0, x.gates.len() as u64 - 1);
    let cell = r.ends(&[c * n, c * n - 1, u64::MAX], 0, c * n - 1);
    let (near_n, near_c) = (other(r, n), other(r, c));
    let (n, c) = r.pick(&[(n, c), (near_n, c), (n, near_c)]);
    r.pick(&[
        Call::Stats,
        Call::TableId,
        Call::Path(gate),
        Call::Label(n, c, cell),
        Call::Representatives(n, c),
    ])
}

/// Questions with results of any length; the plan may be made up or cut.
pub fn questions(r: &mut Random, sides: &mut Sides, figures: &mut Figures, x: &Circuit) -> Try {
    let call = question(r, x);
    let mut aside = sides.clone();
    aside.lent[OUT] = r.within(0, 6) as usize;
    if let Call::Representatives(..) = call {
        let all = REPRESENTATIVES_WORDS as u64;
        let length = r.ends(&[all - 1, all, all + 1], 0, 2 * all);
        aside.renew(r, OUT, length);
    }
    match r.within(0, 5) {
        0 => {
            let place = place(r, PLAN_WORDS);
            change(r, &mut aside, PLAN, place);
        }
        1 => aside.lent[PLAN] = r.pick(&[0, PLAN_WORDS - 1, PLAN_WORDS + 1]),
        _ => {}
    }
    aside.make(figures, call).map(drop)
}

/// A call before opening, an opening with a short buffer, or one of a made-up plan.
pub fn opening(r: &mut Random, sides: &mut Sides, figures: &mut Figures, named: [u64; 4]) -> Try {
    if r.once_in(6) {
        let early = SECTIONS.map(|section| section.call(&[]));
        return sides.make(figures, r.pick(&early)).map(drop);
    }
    if r.once_in(2) || sides.size() > MOST_COPIED {
        let buffer = r.pick(&[STATE, CONSTANTS, COPIES, SCRATCH, TABLES]);
        let length = if buffer == STATE { 1296 } else { named[buffer - CONSTANTS] };
        return sides.make_short(r, figures, Call::Open, buffer, length as usize);
    }
    let mut aside = sides.clone();
    match r.within(0, 3) {
        0 => aside.lent[PLAN] = r.pick(&[0, PLAN_WORDS - 1, PLAN_WORDS + 1]),
        _ => {
            let place = place(r, PLAN_WORDS);
            change(r, &mut aside, PLAN, place);
        }
    }
    if r.once_in(4) {
        aside.lent[STATE] = r.within(0, 1295) as usize;
    }
    aside.make(figures, Call::Open).map(drop)
}
