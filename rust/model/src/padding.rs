//! 02, "Change 1. Padding to the trace length": an unpadded circuit's listing to the padded
//! one's. "Parameter and gate faults come first; S words and cells are counted against the given N
//! (13, 16); other faults are the padded circuit's".
use crate::columns::{
    cells, constants_length, copies_length, finish, open, rows, s_words, scratch_length, tables,
    tables_length, variable,
};
use crate::field::P;
use crate::gates::Parameters;
use crate::listing::{row_length, sections, table_length, Buffers, Sections};
use crate::plan::{plan, Plan};

/// "An unpadded circuit's N is 0..65,536"; "22 the length passes 65,536".
const MOST_LENGTH: u64 = 65536;
/// "missing cells 9223372036854775808".
const PLACEHOLDER: u64 = 9223372036854775808;

/// The records of a section that was read, each as long as its own words say.
fn records(words: &[u64], length: fn(&[u64]) -> Option<u128>) -> Vec<&[u64]> {
    let mut all = vec![];
    let mut rest = words;
    while !rest.is_empty() {
        let (record, after) = rest.split_at(length(rest).unwrap() as usize);
        all.push(record);
        rest = after;
    }
    all
}

/// "The length is the smallest power of two not below used rows plus one, the table rows and N."
fn trace_length(all: &Sections) -> u128 {
    let used = records(all.rows, row_length).len() as u128;
    let tables = records(all.tables, table_length);
    let table_rows: u128 = tables.iter().map(|table| table[1] as u128).sum();
    let least = (used + 1).max(table_rows).max(all.parameters[0] as u128);
    least.next_power_of_two()
}

/// The plan of the padded circuit: 1 to 8 with any N of an unpadded one, then "21 no kind 1 gate
/// is listed, tested first; 22 the length passes 65,536, tested second". With it the first kind 1
/// gate.
fn planned(all: &Sections) -> Result<(Plan, u64), u64> {
    let mut parameters = all.parameters;
    if parameters[0] > MOST_LENGTH {
        return Err(1);
    }
    // in range, as the padded circuit's will be
    parameters[0] = 1;
    let mut plan = plan(parameters, all.gates)?;
    let filler = all.gates.chunks(3).position(|gate| gate[0] == 1).ok_or(21u64)?;
    let length = trace_length(all);
    if length > MOST_LENGTH as u128 {
        return Err(22);
    }
    // the search does not read N
    plan.parameters[0] = length as u64;
    Ok((plan, filler as u64))
}

/// For the first faulty word 13 past the section, then its own number.
fn counted(words: &[u64], most: u64, faulty: impl Fn(u64) -> bool, own: u64) -> Result<(), u64> {
    for (place, word) in (0..).zip(words) {
        if place >= most {
            return Err(13);
        }
        if faulty(*word) {
            return Err(own);
        }
    }
    Ok(())
}

/// "Missing rows become those of the first kind 1 gate".
fn with_rows(given: &[u64], filler: u64, length: u64) -> Vec<u64> {
    let missing = length - records(given, row_length).len() as u64;
    let mut all = given.to_vec();
    (0..missing).for_each(|_| all.extend([filler, 0]));
    all
}

/// Columns of height `from`, each lengthened with one word.
fn stretched(words: &[u64], columns: u64, from: u64, length: u64, fill: u64) -> Vec<u64> {
    let mut all = vec![];
    for column in 0..columns {
        all.extend(&words[(column * from) as usize..][..from as usize]);
        all.extend((from..length).map(|_| fill));
    }
    all
}

/// Room for the columns of a plan.
fn room(plan: &Plan) -> Buffers {
    let words = |length: u64| vec![0; length as usize];
    Buffers {
        constants: words(constants_length(plan)),
        copies: words(copies_length(plan)),
        scratch: words(scratch_length(plan)),
        tables: words(tables_length(plan)),
    }
}

/// A listing's words from its sections' numbers of records and words.
fn written(sections: [(u64, &[u64]); 6]) -> Vec<u64> {
    let mut all = vec![];
    for (count, words) in sections {
        all.push(count);
        all.extend(words);
    }
    all
}

/// Pads a listing: 20, 1 to 8, 21, 22, then as the sections come.
pub fn pad(words: &[u64]) -> Result<Vec<u64>, u64> {
    let all = sections(words).ok_or(20u64)?;
    let given = Parameters::from(all.parameters);
    let (plan, filler) = planned(&all)?;
    let p = plan.parameter();
    let mut b = room(&plan);
    let state = open(&plan, &mut b.constants, &mut b.copies, &mut b.scratch, &mut b.tables)?;
    let row_words = with_rows(all.rows, filler, p.n);
    let state = rows(&state, &row_words, &mut b.constants)?;
    let (most_s, most_cells) = (p.s * given.n, p.c * given.n);
    counted(all.s_words, most_s, |word| word >= P, 11)?;
    let unknown = |word| variable(word).is_some_and(|index| index >= p.v);
    counted(all.cells, most_cells, unknown, 14)?;
    let state = tables(&state, all.tables, &mut b.tables)?;
    if (all.s_words.len() as u64) < most_s || (all.cells.len() as u64) < most_cells {
        return Err(16);
    }
    let s = stretched(all.s_words, p.s, given.n, p.n, 0);
    let cell_words = stretched(all.cells, p.c, given.n, p.n, PLACEHOLDER);
    let state = s_words(&state, &s, &mut b.constants)?;
    let state = cells(&state, &cell_words, &mut b.copies, &mut b.scratch)?;
    finish(&state, &mut b.copies, &mut b.scratch)?;
    Ok(written([
        (8, &plan.parameters),
        (plan.gate_count, all.gates),
        (p.n, &row_words),
        (s.len() as u64, &s),
        (cell_words.len() as u64, &cell_words),
        (records(all.tables, table_length).len() as u64, all.tables),
    ]))
}
