use super::Checks;
use model::columns::{FINISHED, OPEN};
use model::field::P;
use model::listing::Buffers;
use model::{plan, State};

const HOLE: u64 = 1 << 63;

fn lent(length: usize) -> Buffers {
    let words = vec![99; length];
    Buffers {
        constants: words.clone(),
        copies: words.clone(),
        scratch: words.clone(),
        tables: words,
    }
}

/// An opening with 64 words in each buffer.
fn opened(parameters: [u64; 8], gates: &[u64]) -> (State, Buffers) {
    let mut b = lent(64);
    let plan = plan(parameters, gates).unwrap();
    let state = model::open(&plan, &mut b.constants, &mut b.copies, &mut b.scratch, &mut b.tables);
    (state.unwrap(), b)
}

/// The number of a rows call, and whether it left the buffer as it was.
fn rows_number(parameters: [u64; 8], gates: &[u64], piece: &[u64]) -> (u64, bool) {
    let (state, b) = opened(parameters, gates);
    let mut after = b.constants.clone();
    let number = model::rows(&state, piece, &mut after).err().unwrap_or(0);
    (number, after == b.constants)
}

pub fn rows(c: &mut Checks) {
    let p7 = [0, 2, 1, 0, 1, 0, 1, 0, 0];
    let (state, mut b) = opened([4, 1, 1, 0, 0, 0, 0, 0], &p7);
    let state = model::rows(&state, &[0, 1, 5, 1, 0, 2, 0, 2, 0], &mut b.constants).unwrap();
    c.same("P7", &b.constants[..9], &[1, 0, 0, 0, 5, 1, 0, 0, 99]);
    c.same("P7's state", (state.rows, &state.used[..4]), (4, &[1, 1, 1, 0][..]));
    let four = [4, 1, 1, 0, 0, 0, 0, 0];
    let two = [2, 1, 1, 0, 0, 0, 0, 0];
    let lone = [0, 1, 1];
    for (name, parameters, piece, number) in [
        ("first faulty record: 11 before a later 12", four, &[0, 1, P, 3, 0][..], 11),
        ("first faulty record: 12 before a later 11", four, &[3, 0, 0, 1, P], 12),
        ("one record unknown and past N", two, &[0, 0, 0, 0, 1, 0], 12),
        ("one record not below p and past N", two, &[0, 0, 0, 0, 0, 1, P], 11),
        ("past N", two, &[0, 0, 0, 0, 0, 1, 4], 13),
        ("past N before an unknown gate", two, &[0, 0, 0, 0, 0, 0, 7, 0], 13),
        ("more constants than the gate has", four, &[0, 2, 1, 1], 12),
        ("cut short", four, &[0], 12),
        ("cut short", four, &[0, 1], 12),
        ("a number that would wrap", four, &[0, u64::MAX], 12),
        ("fewer constants", four, &[0, 0], 0),
        ("an empty piece", four, &[], 0),
    ] {
        let got = rows_number(parameters, &lone, piece);
        c.same(name, got.0, number);
        c.same(name, got.1 || number == 0, true);
    }
    // a row writes K words, zeros too, and leaves the S columns alone
    let (state, mut b) = opened([2, 1, 1, 1, 0, 0, 0, 0], &lone);
    b.constants[..4].fill(77);
    model::rows(&state, &[0, 0], &mut b.constants).unwrap();
    c.same("zeros are written", &b.constants[..5], &[0, 77, 77, 77, 99]);
}

/// "23 a kind 2 row in a longer list whose all-0 path is not of kind 1, tested for each row after 12."
pub fn barred(c: &mut Checks) {
    let (two, gates) = ([2, 1, 1, 0, 0, 0, 0, 0], [0, 1, 1, 2, 0, 0]);
    for (name, piece, number) in [
        ("a barred row", &[1, 0][..], 23),
        ("12 before 23: a constant", &[1, 1, 5], 12),
        ("12 before 23: a constant not below p", &[1, 1, P], 12),
        ("12 before 23: cut short", &[1], 12),
        ("12 before 23: cut short", &[1, 1], 12),
        ("12 before 23: cut short", &[1, u64::MAX], 12),
        ("the gate after a barred one", &[2, 0], 12),
        ("first faulty record: 23 before a later 11", &[1, 0, 0, 1, P], 23),
        ("first faulty record: 11 before a later 23", &[0, 1, P, 1, 0], 11),
        ("first faulty record: 23 before a later 12", &[1, 0, 2, 0], 23),
        ("first faulty record: 23 before a later 12", &[1, 0, 0], 23),
        ("first faulty record: 12 before a later 23", &[0, 2, 1, 1, 1, 0], 12),
        ("barred after a good row", &[0, 1, 4, 1, 0], 23),
        ("barred and past N", &[0, 0, 0, 0, 1, 0], 23),
        ("past N before a barred one", &[0, 0, 0, 0, 0, 0, 1, 0], 13),
        ("12 and past N", &[0, 0, 0, 0, 1, 1, 5], 12),
        ("rows of the other gate", &[0, 0, 0, 1, 4], 0),
    ] {
        let got = rows_number(two, &gates, piece);
        c.same(name, got.0, number);
        c.same(name, got.1 || number == 0, true);
    }
    let in_mode = |mode: u64| [4, 1, 1, 1, 0, mode, (mode != 0) as u64, (mode != 0) as u64];
    for (name, mode, gates, number) in [
        ("one placed gate, of kind 0", 0, &[2, 0, 0, 0, 1, 0][..], 23),
        ("a lone kind 2 gate", 0, &[2, 0, 0], 0),
        ("the all-0 path is of kind 1", 0, &[2, 0, 0, 0, 2, 0, 1, 0, 0], 0),
        ("the all-0 path is of kind 0", 0, &[2, 0, 0, 0, 2, 0, 0, 1, 0], 23),
        ("kind 1 on another path", 0, &[2, 0, 0, 0, 1, 0, 0, 1, 0, 1, 0, 0], 23),
        ("kind 1 twice", 0, &[2, 0, 0, 0, 1, 0, 0, 1, 0, 1, 0, 0, 1, 0, 0], 0),
        ("kind 2 twice", 0, &[2, 0, 0, 0, 2, 0, 2, 0, 0], 23),
        ("in mode 3", 3, &[2, 0, 0, 0, 2, 0], 23),
        ("in mode 4", 4, &[2, 0, 0, 0, 2, 0, 1, 0, 0], 0),
    ] {
        c.same(name, rows_number(in_mode(mode), gates, &[0, 0]).0, number);
    }
    for (name, mode, gates, number) in [
        ("the lookup gate placed alone", 1, &[3, 0, 0, 2, 0, 0][..], 23),
        ("the lookup gate placed alone, with its constant", 2, &[3, 0, 0, 2, 0, 0], 23),
        ("the lookup gate on the all-0 path", 1, &[3, 0, 0, 2, 0, 0, 0, 2, 0, 1, 0, 0], 23),
        ("kind 1 on it", 1, &[3, 0, 0, 2, 0, 0, 0, 2, 0, 1, 0, 0, 1, 0, 0], 0),
        ("kind 1 on it", 2, &[3, 0, 0, 2, 0, 0, 1, 0, 0], 0),
    ] {
        c.same(name, rows_number(in_mode(mode), gates, &[1, 0]).0, number);
    }
    others(c, two, &gates);
}

/// 23 among other calls and other numbers.
fn others(c: &mut Checks, two: [u64; 8], gates: &[u64]) {
    let (state, mut b) = opened(two, gates);
    let barred = |state: &State, b: &mut Buffers| model::rows(state, &[1, 0], &mut b.constants);
    c.same("10 before 23", barred(&state, &mut lent(1)), Err(10));
    let finished = State { phase: FINISHED, ..state.clone() };
    c.same("19 before 23", barred(&finished, &mut b), Err(19));
    // refused, accepted, refused, cells, finishing: the gate is in no row
    let list = [1, 2, 1, 0, 1, 4, 0, 0, 0, 0, 1, 2, 1, 0, 3, 2, HOLE, HOLE, 5, 0];
    let (mut numbers, before) = ([99; 6], b.clone());
    let Buffers { constants, copies, scratch, tables } = &mut b;
    let after = model::run_calls(&state, &list, &mut numbers, constants, copies, scratch, tables);
    c.same("such a list does not finish", numbers, [23, 0, 23, 0, 17, 99]);
    let used = [1].into_iter().chain([0; 127]).collect::<Vec<u64>>().try_into().unwrap();
    c.same("what is refused is left out", after, Ok(State { rows: 2, cells: 2, used, ..state }));
    c.same("and leaves its words", b.constants, before.constants);
    // a made-up plan: the tree decides
    let three = [0, 2, 0, 1, 0, 0, 2, 0, 0];
    let (mut state, mut b) = opened([4, 1, 0, 0, 0, 0, 0, 0], &three);
    let row = |state: &State, b: &mut Buffers| model::rows(state, &[2, 0], &mut b.constants).err();
    c.same("kind 1 right", row(&state, &mut b), None);
    c.same("a row of zeros", &b.constants[..5], &[0, 0, 0, 0, 99]);
    state.plan.nodes.swap(1, 2);
    c.same("kind 1 left", row(&state, &mut b), Some(23));
}

pub fn words(c: &mut Checks) {
    let nop = [1, 0, 0];
    let s_number = |s: u64, piece: &[u64]| {
        let (state, mut b) = opened([2, 1, 0, s, 0, 0, 0, 0], &nop);
        model::s_words(&state, piece, &mut b.constants).err().unwrap_or(0)
    };
    c.same("S = 0", s_number(0, &[0]), 13);
    c.same("S words to the end", s_number(1, &[0, P - 1]), 0);
    c.same("13 before 11 in one word", s_number(1, &[0, 0, P]), 13);
    c.same("an earlier 11", s_number(1, &[0, P, 0]), 11);
    let cells_number = |v: u64, piece: &[u64]| {
        let (state, mut b) = opened([2, 1, 0, 0, v, 0, 0, 0], &nop);
        model::cells(&state, piece, &mut b.copies, &mut b.scratch).err().unwrap_or(0)
    };
    c.same("index V-1", cells_number(3, &[2]), 0);
    c.same("index V", cells_number(3, &[3]), 14);
    c.same("index 2^32 is not variable 0", cells_number(3, &[1 << 32]), 14);
    c.same("bits 48 to 62 unread", cells_number(3, &[0x7fff << 48 | 2]), 0);
    c.same("V = 0", cells_number(0, &[0]), 14);
    c.same("a placeholder with every bit", cells_number(0, &[u64::MAX]), 0);
    c.same("13 before 14 in one word", cells_number(1, &[0, 0, 9]), 13);
    c.same("a placeholder past the section", cells_number(1, &[0, 0, HOLE]), 13);
    let (state, mut b) = opened([1, 1, 0, 0, 1, 0, 0, 0], &nop);
    b.copies[0] = 5;
    model::cells(&state, &[0], &mut b.copies, &mut b.scratch).unwrap();
    c.same("the word that stands in the cell is stored", &b.scratch[..3], &[5, 0, 99]);
    c.same("a placeholder's cell is not written", b.copies[0], 5);
    let (state, mut b) = opened([2, 2, 0, 0, 1, 0, 0, 0], &nop);
    let piece = [0, 0, 0, HOLE];
    let state = model::cells(&state, &piece, &mut b.copies, &mut b.scratch).unwrap();
    let state = model::rows(&state, &[0, 0, 0, 0], &mut b.constants).unwrap();
    model::finish(&state, &mut b.copies, &mut b.scratch).unwrap();
    c.same("P9", &b.copies[..5], &[7, 1, P - 1, P - 7, 99]);
}

pub fn tables(c: &mut Checks) {
    let number = |parameters: [u64; 8], gates: &[u64], piece: &[u64]| {
        let (state, mut b) = opened(parameters, gates);
        model::tables(&state, piece, &mut b.tables).err().unwrap_or(0)
    };
    let (lookup, gates) = ([2, 1, 0, 0, 0, 1, 2, 1], [3, 0, 0, 0, 1, 0]);
    for (name, piece, wanted) in [
        ("an empty piece", &[][..], 0),
        ("a table", &[2, 1, 5, 6], 0),
        ("width not W", &[1, 1, 5], 15),
        ("an empty table of another width", &[0, 0], 15),
        ("rows past N", &[2, 3, 0, 0, 0, 0, 0, 0], 15),
        ("the sum of rows past N", &[2, 2, 0, 0, 0, 0, 2, 1, 0, 0], 15),
        ("rows that would wrap", &[2, u64::MAX], 15),
        ("rows that would wrap", &[2, 1 << 63], 15),
        ("cut short", &[2], 15),
        ("cut short", &[2, 1, 0], 15),
        ("not below p", &[2, 1, 0, P], 11),
        ("15 before 11 in one record", &[1, 1, P], 15),
        ("an earlier 11", &[2, 1, 0, P, 9], 11),
    ] {
        c.same(name, number(lookup, &gates, piece), wanted);
    }
    c.same("mode 0, empty piece", number([1, 1, 0, 0, 0, 0, 0, 0], &[1, 0, 0], &[]), 0);
    c.same("mode 0", number([1, 1, 0, 0, 0, 0, 0, 0], &[1, 0, 0], &[0, 0]), 15);
    c.same("255 empty tables", number(lookup, &gates, &[2, 0].repeat(255)), 0);
    c.same("256 empty tables", number(lookup, &gates, &[2, 0].repeat(256)), 15);
    let (state, mut b) = opened(lookup, &gates);
    b.tables[1] = 44;
    model::tables(&state, &[2, 0, 2, 1, 5, 6], &mut b.tables).unwrap();
    c.same("stacked, empty ones counted", &b.tables[..7], &[5, 44, 6, 0, 2, 0, 99]);
}

/// The numbers of an empty call of each kind on a state.
fn empty_calls(state: &State, b: &mut Buffers) -> [u64; 5] {
    [
        model::rows(state, &[], &mut b.constants),
        model::s_words(state, &[], &mut b.constants),
        model::cells(state, &[], &mut b.copies, &mut b.scratch),
        model::tables(state, &[], &mut b.tables),
        model::finish(state, &mut b.copies, &mut b.scratch),
    ]
    .map(|answer| answer.err().unwrap_or(0))
}

pub fn states(c: &mut Checks) {
    let (open, _) = opened([2, 1, 0, 1, 3, 0, 0, 0], &[1, 0, 0]);
    let numbers = |change: &dyn Fn(&mut State), length: usize| {
        let mut state = open.clone();
        change(&mut state);
        empty_calls(&state, &mut lent(length))
    };
    c.same("open", numbers(&|_| (), 64), [0, 0, 0, 0, 16]);
    c.same("10 for an empty piece", numbers(&|_| (), 1), [10, 10, 10, 0, 10]);
    c.same("scratch too short", numbers(&|_| (), 5), [0, 0, 10, 0, 10]);
    for change in [
        (&|s: &mut State| s.phase = 0) as &dyn Fn(&mut State),
        &|s| s.phase = FINISHED,
        &|s| s.phase = 3,
        &|s| s.rows = 3,
        &|s| s.s_words = 3,
        &|s| s.cells = 3,
        &|s| s.tables = 1,
        &|s| s.height = 1,
        &|s| s.plan.k = 1,
        &|s| *s = State::zero(),
    ] {
        c.same("a made-up state", numbers(change, 64), [19; 5]);
        c.same("19 before 10", numbers(change, 0), [19; 5]);
    }
    let full = |s: &mut State| (s.rows, s.s_words, s.cells) = (2, 2, 2);
    c.same("counts at their ends", numbers(&full, 64), [0, 0, 0, 0, 17]);
    let (open, _) = opened([2, 1, 0, 0, 0, 1, 1, 0], &[3, 0, 0, 0, 1, 0]);
    let at = |tables: u64, height: u64| {
        let state = State { tables, height, ..open.clone() };
        empty_calls(&state, &mut lent(64))[3]
    };
    let all = [at(255, 2), at(256, 0), at(0, 2), at(0, 3)];
    c.same("tables and their height", all, [0, 19, 0, 19]);
}

/// Finishing with this scratch, all sections full, every gate used.
fn finished(scratch: &[u64]) -> Result<Vec<u64>, u64> {
    let (state, mut b) = opened([2, 2, 0, 0, 2, 0, 0, 0], &[1, 0, 0]);
    let state = State { rows: 2, cells: 4, used: [1; 128], ..state };
    b.scratch[..scratch.len()].copy_from_slice(scratch);
    let before = b.scratch.clone();
    let after = model::finish(&state, &mut b.copies, &mut b.scratch)?;
    assert_eq!(after, State { phase: FINISHED, ..state });
    assert_eq!(before, b.scratch);
    Ok(b.copies[..5].to_vec())
}

pub fn finishing(c: &mut Checks) {
    c.same("a value not below p", finished(&[P, 0]), Err(18));
    c.same("a first cell outside", finished(&[1, 4]), Err(18));
    c.same(
        "an unseen variable's cell is unread",
        finished(&[0, 4]),
        Ok(vec![1, P - 1, 7, P - 7, 99]),
    );
    c.same("by rising index", finished(&[5, 0, 6, 0]), Ok(vec![6, P - 1, 7, P - 7, 99]));
    c.same("beyond V is unread", finished(&[5, 3, 0, 0, P]), Ok(vec![1, P - 1, 7, 5, 99]));
    let (state, mut b) = opened([1, 1, 0, 0, 0, 0, 0, 0], &[1, 0, 0]);
    c.same("opened", state.phase, OPEN);
    let number = |state: &State, b: &mut Buffers| {
        model::finish(state, &mut b.copies, &mut b.scratch).err().unwrap_or(0)
    };
    c.same("16", number(&state, &mut b), 16);
    c.same("16 before 17", number(&State { rows: 1, ..state.clone() }, &mut b), 16);
    c.same("17", number(&State { rows: 1, cells: 1, ..state }, &mut b), 17);
}
