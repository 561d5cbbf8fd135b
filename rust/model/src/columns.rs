//! 01, "Columns by pieces" and the refusals of each call. Column c of a buffer is its
//! words cN to cN+N−1. Each call is lent just the buffers it may write.
use crate::field::P;
use crate::gates::{Gate, Parameters};
use crate::labels::all_labels;
use crate::plan::{decoded, path_in, PathAnswer, Plan, MOST_GATES};
use crate::search::Tree;

pub const NEVER: u64 = 0;
pub const OPEN: u64 = 1;
pub const FINISHED: u64 = 2;

/// All fields are public: a caller may make up any state.
#[derive(Clone, Debug, PartialEq, Eq)]
pub struct State {
    pub plan: Plan,
    /// Records and words accepted so far.
    pub rows: u64,
    pub s_words: u64,
    pub cells: u64,
    pub tables: u64,
    /// Rows of the tables stacked so far.
    pub height: u64,
    /// A mark for each gate: 0 where no row has used it.
    pub used: [u64; MOST_GATES],
    /// Never opened 0, open 1, finished 2.
    pub phase: u64,
}

impl State {
    /// "Refused ... opening hands back a ... state of zeros, which counts as never opened."
    pub fn zero() -> State {
        State {
            plan: Plan::zero(),
            rows: 0,
            s_words: 0,
            cells: 0,
            tables: 0,
            height: 0,
            used: [0; MOST_GATES],
            phase: NEVER,
        }
    }
}

/// The named words of each buffer.
pub fn constants_length(plan: &Plan) -> u64 {
    (plan.k + plan.parameter().s) * plan.parameter().n
}

pub fn copies_length(plan: &Plan) -> u64 {
    plan.parameter().c * plan.parameter().n
}

pub fn scratch_length(plan: &Plan) -> u64 {
    2 * plan.parameter().v
}

/// "Table buffer, modes 1 to 4: W content columns and one of table numbers".
pub fn tables_length(plan: &Plan) -> u64 {
    let p = plan.parameter();
    if p.mode == 0 {
        0
    } else {
        (p.w + 1) * p.n
    }
}

/// "10, a buffer too short".
fn long_enough(buffer: &[u64], length: u64) -> Result<(), u64> {
    if (buffer.len() as u64) < length {
        Err(10)
    } else {
        Ok(())
    }
}

/// Opening: "19; 10; 9". "Opening zeroes all named words and writes labels; words beyond
/// them keep their values."
pub fn open(
    plan: &Plan,
    constants: &mut [u64],
    copies: &mut [u64],
    scratch: &mut [u64],
    tables: &mut [u64],
) -> Result<State, u64> {
    decoded(plan)?;
    long_enough(constants, constants_length(plan))?;
    long_enough(copies, copies_length(plan))?;
    long_enough(scratch, scratch_length(plan))?;
    long_enough(tables, tables_length(plan))?;
    let labels = all_labels(plan.parameter().n, plan.parameter().c)?;
    constants[..constants_length(plan) as usize].fill(0);
    scratch[..scratch_length(plan) as usize].fill(0);
    tables[..tables_length(plan) as usize].fill(0);
    copies[..labels.len()].copy_from_slice(&labels);
    Ok(State { plan: plan.clone(), phase: OPEN, ..State::zero() })
}

/// "a made-up state too: such a plan, a count past its section, never opened, or finished."
fn opened(state: &State) -> Result<(Parameters, Vec<Gate>, Tree), u64> {
    let (gates, tree) = decoded(&state.plan)?;
    let p = state.plan.parameter();
    let (most_tables, most_height) = if p.mode == 0 { (0, 0) } else { (255, p.n) };
    let past = state.rows > p.n
        || state.s_words > p.s * p.n
        || state.cells > p.c * p.n
        || state.tables > most_tables
        || state.height > most_height;
    if past || state.phase != OPEN {
        return Err(19);
    }
    Ok((p, gates, tree))
}

/// 02, Change 4, of each gate: whether its row is "a kind 2 row in a longer list whose all-0 path is
/// not of kind 1".
fn barred(gates: &[Gate], tree: &Tree) -> Vec<bool> {
    let all_0 = tree.all_0();
    gates.iter().map(|gate| gates.len() > 1 && gate.kind == 2 && all_0.kind != 1).collect()
}

/// One row record at the front of the words: gate, constants, and the words after it.
/// "12 record cut short, gate unknown, or more constants than its gate has; 11 a word not
/// below p; 13 past N." 02's 23 is "tested for each row after 12".
fn row_record<'a>(
    words: &'a [u64],
    gates: &[Gate],
    barred: &[bool],
    room: u64,
) -> Result<(u64, &'a [u64], &'a [u64]), u64> {
    if words.len() < 2 || words[1] > words.len() as u64 - 2 {
        return Err(12);
    }
    let (gate, count) = (words[0], words[1] as usize);
    if gate >= gates.len() as u64 || count as u64 > gates[gate as usize].constants {
        return Err(12);
    }
    if barred[gate as usize] {
        return Err(23);
    }
    let (constants, rest) = words[2..].split_at(count);
    if constants.iter().any(|word| *word >= P) {
        return Err(11);
    }
    if room == 0 {
        return Err(13);
    }
    Ok((gate, constants, rest))
}

/// A row's words before its constants: its gate's path, and none for a gate without selector.
fn selectors(answer: &PathAnswer) -> Result<Vec<u64>, u64> {
    match answer {
        PathAnswer::Path(steps) => Ok(steps.iter().map(|left| *left as u64).collect()),
        PathAnswer::NoSelector => Ok(vec![]),
        PathAnswer::UnknownGate => Err(12),
    }
}

/// Rows, "first faulty record: 19; 10; 12 ...; 11 ...; 13 past N", 23 after 12. "A row writes its
/// gate's path, then its constants, then zeros".
pub fn rows(state: &State, piece: &[u64], constants: &mut [u64]) -> Result<State, u64> {
    let (p, gates, tree) = opened(state)?;
    long_enough(constants, constants_length(&state.plan))?;
    let paths: Vec<_> = (0..gates.len() as u64).map(|gate| path_in(&gates, &tree, gate)).collect();
    let barred = barred(&gates, &tree);
    let mut after = state.clone();
    let mut written = vec![];
    let mut words = piece;
    while !words.is_empty() {
        let (gate, row_constants, rest) = row_record(words, &gates, &barred, p.n - after.rows)?;
        let mut row = selectors(&paths[gate as usize])?;
        row.extend(row_constants);
        row.resize(state.plan.k as usize, 0);
        written.push((after.rows, row));
        after.used[gate as usize] = 1;
        after.rows += 1;
        words = rest;
    }
    for (r, row) in written {
        for (column, word) in row.into_iter().enumerate() {
            constants[column * p.n as usize + r as usize] = word;
        }
    }
    Ok(after)
}

/// S words, "19; 10; for the first faulty word 13 past the section, then 11". "the S
/// columns follow", and S words "come column by column".
pub fn s_words(state: &State, piece: &[u64], constants: &mut [u64]) -> Result<State, u64> {
    let (p, _, _) = opened(state)?;
    long_enough(constants, constants_length(&state.plan))?;
    for (place, word) in (state.s_words..).zip(piece) {
        if place >= p.s * p.n {
            return Err(13);
        }
        if *word >= P {
            return Err(11);
        }
    }
    let start = state.plan.k * p.n + state.s_words;
    for (place, word) in (start..).zip(piece) {
        constants[place as usize] = *word;
    }
    let mut after = state.clone();
    after.s_words += piece.len() as u64;
    Ok(after)
}

/// "A word with bit 63 set is a placeholder". "Otherwise the low 48 bits are the index,
/// bits 48 to 62 unread."
pub fn variable(word: u64) -> Option<u64> {
    if word >> 63 == 1 {
        None
    } else {
        Some(word % (1 << 48))
    }
}

/// Cells, "19; 10; for the first faulty word 13 past the section, then ... 14 index not
/// below V". "An unseen variable stores the label and cell; a seen one exchanges its value
/// with the cell's word."
pub fn cells(
    state: &State,
    piece: &[u64],
    copies: &mut [u64],
    scratch: &mut [u64],
) -> Result<State, u64> {
    let (p, _, _) = opened(state)?;
    long_enough(copies, copies_length(&state.plan))?;
    long_enough(scratch, scratch_length(&state.plan))?;
    for (cell, word) in (state.cells..).zip(piece) {
        if cell >= p.c * p.n {
            return Err(13);
        }
        if variable(*word).is_some_and(|index| index >= p.v) {
            return Err(14);
        }
    }
    for (cell, word) in (state.cells as usize..).zip(piece) {
        let Some(index) = variable(*word) else { continue };
        let (value, first) = (2 * index as usize, 2 * index as usize + 1);
        if scratch[value] == 0 {
            scratch[value] = copies[cell];
            scratch[first] = cell as u64;
        } else {
            std::mem::swap(&mut scratch[value], &mut copies[cell]);
        }
    }
    let mut after = state.clone();
    after.cells += piece.len() as u64;
    Ok(after)
}

/// One table record at the front of the words: its contents, and the words after it.
/// "15 cut short, mode 0, width not W, over 255 tables, or rows past N; 11."
fn table_record<'a>(
    words: &'a [u64],
    p: &Parameters,
    after: &State,
) -> Result<(&'a [u64], &'a [u64]), u64> {
    if words.len() < 2 || p.mode == 0 || words[0] != p.w || after.tables >= 255 {
        return Err(15);
    }
    let (width, rows) = (words[0], words[1]);
    let length = width as u128 * rows as u128;
    if rows > p.n - after.height || length > words.len() as u128 - 2 {
        return Err(15);
    }
    let (contents, rest) = words[2..].split_at(length as usize);
    if contents.iter().any(|word| *word >= P) {
        return Err(11);
    }
    Ok((contents, rest))
}

/// Tables, "first faulty record: 19; 10; 15 ...; 11". "W content columns and one of table
/// numbers from 1, tables stacked, zeros below."
pub fn tables(state: &State, piece: &[u64], tables: &mut [u64]) -> Result<State, u64> {
    let (p, _, _) = opened(state)?;
    long_enough(tables, tables_length(&state.plan))?;
    let mut after = state.clone();
    let mut written = vec![];
    let mut words = piece;
    while !words.is_empty() {
        let (contents, rest) = table_record(words, &p, &after)?;
        // "tables are numbered from 1, empty ones counted"
        after.tables += 1;
        for row in contents.chunks(p.w as usize) {
            written.push((after.height, row, after.tables));
            after.height += 1;
        }
        words = rest;
    }
    for (height, row, number) in written {
        for (column, word) in row.iter().chain([&number]).enumerate() {
            tables[column * p.n as usize + height as usize] = *word;
        }
    }
    Ok(after)
}

/// "18 scratch with a value not below p or, where seen, a first cell outside."
fn scratch_good(p: &Parameters, scratch: &[u64]) -> bool {
    let variables = scratch[..2 * p.v as usize].chunks(2);
    let mut all = variables.map(|pair| pair[0] < P && (pair[0] == 0 || pair[1] < p.c * p.n));
    all.all(|good| good)
}

/// Finishing: "19; 10; 16 rows, S words or cells incomplete; 17 a gate in no row; 18".
/// "Finishing takes the seen variables by rising index and writes each value to its first
/// cell."
pub fn finish(state: &State, copies: &mut [u64], scratch: &mut [u64]) -> Result<State, u64> {
    let (p, gates, _) = opened(state)?;
    long_enough(copies, copies_length(&state.plan))?;
    long_enough(scratch, scratch_length(&state.plan))?;
    if state.rows < p.n || state.s_words < p.s * p.n || state.cells < p.c * p.n {
        return Err(16);
    }
    if gates.iter().any(|gate| state.used[gate.index] == 0) {
        return Err(17);
    }
    if !scratch_good(&p, scratch) {
        return Err(18);
    }
    for pair in scratch[..2 * p.v as usize].chunks(2) {
        if pair[0] != 0 {
            copies[pair[1] as usize] = pair[0];
        }
    }
    let mut after = state.clone();
    after.phase = FINISHED;
    Ok(after)
}
