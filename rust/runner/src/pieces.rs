//! The model on a circuit cut at random, sections alternating, with empty pieces and
//! refused calls among them: state and buffers must end as if given whole.
use crate::circuit::Circuit;
use crate::compare::{lengths, Modelled};
use crate::random::Random;
use model::listing::Buffers;
use model::State;

/// What is left to give of each section.
struct Rest<'a> {
    rows: &'a [Vec<u64>],
    s_words: &'a [u64],
    cells: &'a [u64],
    tables: &'a [Vec<u64>],
}

impl Rest<'_> {
    fn is_empty(&self) -> bool {
        self.rows.is_empty()
            && self.s_words.is_empty()
            && self.cells.is_empty()
            && self.tables.is_empty()
    }
}

/// Cuts off the front: nothing, all, or some of it.
fn cut<'a, T>(r: &mut Random, rest: &mut &'a [T]) -> &'a [T] {
    let all = rest.len() as u64;
    let length = match r.within(0, 9) {
        0 => 0,
        1..=3 => all,
        _ => r.within(0, all),
    };
    let (piece, after) = rest.split_at(length as usize);
    *rest = after;
    piece
}

fn one_call(r: &mut Random, rest: &mut Rest, state: &State, b: &mut Buffers) -> Result<State, u64> {
    match r.within(0, 3) {
        0 => {
            let piece = cut(r, &mut rest.rows).concat();
            model::rows(state, &piece, &mut b.constants)
        }
        1 => model::s_words(state, cut(r, &mut rest.s_words), &mut b.constants),
        2 => {
            let piece = cut(r, &mut rest.cells);
            model::cells(state, piece, &mut b.copies, &mut b.scratch)
        }
        _ => {
            let piece = cut(r, &mut rest.tables).concat();
            model::tables(state, &piece, &mut b.tables)
        }
    }
}

/// A call that document 01 turns down whatever the circuit: it must write nothing.
fn refused_call(state: &State, b: &mut Buffers) -> bool {
    let before = b.clone();
    let numbers = [
        model::rows(state, &[128, 0], &mut b.constants),
        model::s_words(state, &[u64::MAX], &mut b.constants),
        model::cells(state, &[(1 << 48) - 1], &mut b.copies, &mut b.scratch),
        model::tables(state, &[17, 0], &mut b.tables),
        model::cells(state, &[], &mut [], &mut b.scratch),
    ];
    numbers.iter().all(|x| x.is_err()) && *b == before
}

/// "Opening zeroes all named words ...; words beyond them keep their values." The copy
/// columns are compared at the end.
fn opening_wrong(whole: &Modelled, b: &Buffers) -> bool {
    let [constants, _, scratch, tables] = lengths(&whole.plan);
    let parts = [
        (&b.constants, &whole.before.constants, constants as usize),
        (&b.scratch, &whole.before.scratch, scratch as usize),
        (&b.tables, &whole.before.tables, tables as usize),
    ];
    parts.iter().any(|(now, before, named)| {
        now[..*named].iter().any(|word| *word != 0) || now[*named..] != before[*named..]
    })
}

/// What differs from the whole run, if anything.
pub fn difference(r: &mut Random, circuit: &Circuit, whole: &Modelled) -> Option<String> {
    let mut b = whole.before.clone();
    let opened =
        model::open(&whole.plan, &mut b.constants, &mut b.copies, &mut b.scratch, &mut b.tables);
    let mut state = opened.unwrap();
    if opening_wrong(whole, &b) {
        return Some("opening left a named word or wrote another".to_string());
    }
    // rows and S words write every named word of the constant buffer, zeros too
    let named = lengths(&whole.plan)[0] as usize;
    b.constants[..named].iter_mut().for_each(|word| *word = r.word());
    let mut rest = Rest {
        rows: &circuit.rows,
        s_words: &circuit.s_words,
        cells: &circuit.cells,
        tables: &circuit.tables,
    };
    let refused_at = r.within(0, 8);
    let mut calls = 0;
    while !rest.is_empty() {
        if calls == refused_at && !refused_call(&state, &mut b) {
            return Some("a refused call was taken or wrote".to_string());
        }
        match one_call(r, &mut rest, &state, &mut b) {
            Ok(after) => state = after,
            Err(number) => return Some(format!("a piece was refused: {number}")),
        }
        calls += 1;
    }
    match model::finish(&state, &mut b.copies, &mut b.scratch) {
        Ok(after) if after == whole.state && b == whole.after => None,
        Ok(_) => Some("pieces and whole differ".to_string()),
        Err(number) => Some(format!("finishing was refused: {number}")),
    }
}
