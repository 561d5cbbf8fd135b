//! Circuits that documents 01 and 02 turn down: what the original does with each, and its
//! smallest input. Every line of the table comes from a run.
use crate::circuit::{Circuit, PLACEHOLDER};
use oracle::Outcome;

/// What the original does with such a circuit.
#[derive(Clone, Copy, PartialEq, Eq, PartialOrd, Ord, Debug)]
pub enum Rust {
    Takes,
    Panics,
}
use Rust::{Panics, Takes};

impl Rust {
    pub fn said(self) -> &'static str {
        match self {
            Takes => "takes it",
            Panics => "panics",
        }
    }
}

pub struct Case {
    pub number: u64,
    pub cause: &'static str,
    pub rust: Rust,
    pub circuit: Circuit,
}

const NOP: [u64; 3] = [1, 0, 0];
const LOOKUP: [u64; 3] = [3, 0, 0];
const ONE: [u64; 3] = [0, 1, 0];

fn case(number: u64, cause: &'static str, rust: Rust, circuit: Circuit) -> Case {
    Case { number, cause, rust, circuit }
}

/// The smallest circuit of all, a lone Nop gate in one row and one column, but for its
/// parameters.
fn lone(change: impl Fn(&mut [u64; 8])) -> Circuit {
    let mut parameters = [1, 1, 0, 0, 0, 0, 0, 0];
    change(&mut parameters);
    Circuit::plain(parameters, &[NOP])
}

/// Several gates in as few rows as hold them.
fn list(mode: u64, gates: &[[u64; 3]]) -> Circuit {
    let n = gates.len().next_power_of_two() as u64;
    let (w, flag) = if mode == 0 { (0, 0) } else { (1, 1) };
    let a = if mode == 2 { 1 } else { 0 };
    let s = if mode == 4 { 1 } else { 0 };
    Circuit::plain([n, 1, a, s, 0, mode, w, flag], gates)
}

/// The smallest circuits of modes 1 and 2, and 3 and 4.
fn lookup(mode: u64) -> Circuit {
    list(mode, if mode < 3 { &[LOOKUP, NOP] } else { &[ONE, NOP] })
}

fn edited(mut circuit: Circuit, edit: impl Fn(&mut Circuit)) -> Circuit {
    edit(&mut circuit);
    circuit
}

fn parameters() -> Vec<Case> {
    let in_mode =
        |mode: u64, place: usize, value: u64| edited(lookup(mode), |x| x.parameters[place] = value);
    let no_s_words = edited(in_mode(4, 3, 0), |x| x.s_words.clear());
    vec![
        case(1, "N = 0", Panics, lone(|p| p[0] = 0)),
        case(1, "N no power of two", Panics, lone(|p| p[0] = 3)),
        case(1, "N = 131,072", Takes, lone(|p| p[0] = 131072)),
        case(1, "C = 0", Panics, lone(|p| p[1] = 0)),
        case(1, "C = 65", Takes, lone(|p| p[1] = 65)),
        case(1, "A = 17", Takes, lone(|p| p[2] = 17)),
        case(1, "S = 17", Takes, lone(|p| p[3] = 17)),
        case(1, "V = 1,048,577", Takes, lone(|p| p[4] = 1048577)),
        case(1, "W = 0 in mode 1", Takes, in_mode(1, 6, 0)),
        case(1, "W = 17 in mode 1", Takes, in_mode(1, 6, 17)),
        case(1, "S = 0 in mode 4", Takes, no_s_words),
        case(2, "flag 0 in mode 2", Panics, in_mode(2, 7, 0)),
        case(2, "flag 0 in mode 4", Panics, in_mode(4, 7, 0)),
    ]
}

fn gates() -> Vec<Case> {
    vec![
        case(3, "no gate", Panics, edited(list(0, &[]), |x| x.rows.clear())),
        case(3, "129 gates", Takes, list(0, &[[0, 3, 0]; 129])),
        case(4, "degree 0", Takes, list(0, &[[0, 0, 0]])),
        case(4, "degree 65", Takes, list(0, &[[0, 65, 0]])),
        case(4, "17 constants", Takes, edited(list(0, &[[0, 1, 17]]), |x| x.parameters[2] = 16)),
        case(5, "kind 3 in mode 0", Takes, list(0, &[LOOKUP])),
        case(5, "kind 3 twice in mode 1", Takes, list(1, &[LOOKUP, LOOKUP])),
        case(5, "kind 3 not first in mode 1", Panics, list(1, &[ONE, LOOKUP])),
        case(5, "no kind 3 in mode 1", Panics, list(1, &[ONE, NOP])),
        case(5, "kind 3 first in mode 3", Panics, list(3, &[LOOKUP, NOP])),
        case(5, "kind 3 later in mode 3", Takes, list(3, &[ONE, LOOKUP])),
        case(5, "a single gate in mode 1", Panics, list(1, &[LOOKUP])),
        case(5, "a single gate in mode 3", Panics, list(3, &[ONE])),
        case(6, "kind 1 and kind 2", Takes, list(0, &[NOP, [2, 0, 0]])),
        case(6, "kind 1 twice", Panics, list(0, &[NOP, NOP])),
        case(6, "kind 2 twice", Panics, list(0, &[[2, 0, 0], [2, 0, 0]])),
        case(7, "a lone gate's constants above A", Takes, list(0, &[[0, 1, 1]])),
        case(7, "G above A", Panics, list(0, &[[0, 1, 1], NOP])),
        case(8, "65 gates of degree 2", Panics, list(0, &[[0, 2, 0]; 65])),
    ]
}

fn tall(edit: impl Fn(&mut Circuit)) -> Circuit {
    edited(lone(|p| p[0] = 2), edit)
}

fn rows() -> Vec<Case> {
    let nop = |edit: &dyn Fn(&mut Circuit)| edited(lone(|_| ()), edit);
    let two = list(0, &[[0, 2, 0], NOP]);
    let four = edited(two.clone(), |x| {
        x.parameters[0] = 4;
        x.rows = [0, 1, 2, 0].map(|gate| vec![gate, 0]).to_vec();
        x.cells = vec![PLACEHOLDER; 4];
    });
    let unused = edited(two, |x| x.rows[1] = vec![0, 0]);
    let lookup = list(1, &[LOOKUP, [2, 0, 0]]);
    vec![
        case(12, "gate unknown, no constant column", Takes, tall(|x| x.rows[1] = vec![1, 0])),
        case(12, "gate unknown, a constant column", Panics, four),
        case(12, "more constants than the gate has", Takes, nop(&|x| x.rows[0] = vec![0, 1, 5])),
        case(13, "a row past N", Takes, nop(&|x| x.rows.push(vec![0, 0]))),
        case(16, "rows missing", Takes, tall(|x| x.rows.truncate(1))),
        case(17, "a gate in no row", Panics, unused),
        case(23, "kind 2 beside an evaluated gate", Takes, list(0, &[ONE, [2, 0, 0]])),
        case(23, "kind 2 beside the lookup gate", Takes, lookup),
    ]
}

fn words() -> Vec<Case> {
    let nop = |edit: &dyn Fn(&mut Circuit)| edited(lone(|_| ()), edit);
    let special = |edit: &dyn Fn(&mut Circuit)| edited(lone(|p| (p[0], p[3]) = (2, 1)), edit);
    let cut = edited(lone(|p| p[4] = 1), |x| x.cells[0] = 1 << 32);
    vec![
        case(13, "an S word where S = 0", Panics, nop(&|x| x.s_words = vec![5])),
        case(13, "an S word past the section", Panics, special(&|x| x.s_words.push(5))),
        case(13, "a cell past the section", Takes, nop(&|x| x.cells.push(PLACEHOLDER))),
        case(14, "index V", Panics, nop(&|x| x.cells[0] = 0)),
        case(14, "index 2^32 and V = 1", Takes, cut),
        case(16, "S words missing", Panics, special(&|x| x.s_words.truncate(1))),
        case(16, "cells missing", Takes, nop(&|x| x.cells.clear())),
    ]
}

fn tables() -> Vec<Case> {
    let with = |tables: Vec<Vec<u64>>| edited(lookup(1), |x| x.tables = tables.clone());
    vec![
        case(15, "a table in mode 0", Takes, edited(lone(|_| ()), |x| x.tables = vec![vec![0, 0]])),
        case(15, "width not W", Panics, with(vec![vec![0, 0]])),
        case(15, "256 tables", Takes, with(vec![vec![1, 0]; 256])),
        case(15, "rows past N", Panics, with(vec![vec![1, 3, 0, 0, 0]])),
    ]
}

pub fn cases() -> Vec<Case> {
    let parts = [parameters(), gates(), rows(), words(), tables()];
    let mut all: Vec<Case> = parts.into_iter().flatten().collect();
    all.sort_by_key(|case| case.number);
    all
}

/// The original's answer in a few words: the text of the output, or of the panic.
fn answer(outcome: &Outcome) -> (Rust, String) {
    let cut = |text: &str, most: usize| text.chars().take(most).collect::<String>();
    match outcome {
        Outcome::Made(output) => {
            let lines: Vec<String> = output.text().lines().map(|line| cut(line, 30)).collect();
            let shown = if lines.len() > 8 { &lines[..1] } else { &lines[..] };
            (Takes, format!("{}: `{}`", Takes.said(), shown.join("; ")))
        }
        Outcome::Panicked(message) => {
            let line = message.lines().next().unwrap_or("");
            (Panics, format!("{}: {}", Panics.said(), cut(line, 70)))
        }
        Outcome::Malformed => panic!("a case that is no listing"),
    }
}

/// Unpadded circuits with N = 0; the last one is none that is turned down: its N is passed over.
pub fn padded_cases() -> Vec<Case> {
    let flat = |edit: &dyn Fn(&mut Circuit)| edited(lone(|p| p[0] = 0), edit);
    let tables = flat(&|x| x.tables = vec![vec![0, 65536], vec![0, 1]]);
    let evaluated = flat(&|x| (x.gates, x.rows) = (vec![ONE], vec![vec![0, 0]]));
    let high = edited(lone(|p| p[0] = 2), |x| x.rows.clear());
    let barred = flat(&|x| {
        x.gates = vec![ONE, ONE, NOP, [2, 0, 0]];
        x.rows = [0, 1, 3].map(|gate| vec![gate, 0]).to_vec();
    });
    vec![
        case(21, "no kind 1 gate", Panics, evaluated),
        case(22, "65,536 rows", Panics, flat(&|x| x.rows = vec![vec![0, 0]; 65536])),
        case(22, "65,537 table rows", Panics, tables),
        case(23, "kind 2, and the kind 1 gate on another path", Takes, barred),
        case(0, "N above the rows plus one, S = 0, mode 0", Takes, high),
    ]
}

/// A line of the table; false where the run does not give what the case says.
fn line(case: &Case, model: u64, outcome: &Outcome) -> bool {
    let (rust, text) = answer(outcome);
    println!("| {model} | {} | `{}` | {text} |", case.cause, case.circuit.written());
    let good = model == case.number && rust == case.rust;
    if !good {
        println!("DIFFERENT: {}: wanted {} and {:?}", case.cause, case.number, case.rust);
    }
    good
}

/// Prints both tables; false where a run does not give what the case says.
pub fn run() -> bool {
    let heads = "| number | cause | smallest input | the Rust |\n|---|---|---|---|";
    println!("{heads}");
    let mut good = true;
    for case in cases() {
        let words = case.circuit.listing();
        let model = crate::compare::modelled(&words).err().unwrap_or(0);
        good &= line(&case, model, &oracle::outcome(&words, 1));
    }
    println!("\nUnpadded circuits, padded by each side:\n\n{heads}");
    for case in padded_cases() {
        let words = case.circuit.listing();
        let model = model::pad(&words).err().unwrap_or(0);
        good &= line(&case, model, &oracle::padded(&words, 1));
    }
    good
}
