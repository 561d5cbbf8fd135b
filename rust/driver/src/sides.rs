//! One call made twice: by the library, and by the model over words. Each side has its own
//! buffers; after the call every word of them is compared, also those that were not lent.
use crate::encoding::{PLAN_WORDS, STATE_WORDS};
use crate::expected;
use crate::figures::Figures;
use crate::random::Random;
use kinchoyu::raw;
use model::calls::calls_of;

/// A call of the library. Plan, state, columns and results are the side's own buffers.
#[derive(Clone, Copy, Debug)]
pub enum Call<'a> {
    Plan(&'a [u64], &'a [u64]),
    Stats,
    TableId,
    Path(u64),
    Label(u64, u64, u64),
    Representatives(u64, u64),
    Open,
    Rows(&'a [u64]),
    SWords(&'a [u64]),
    Cells(&'a [u64]),
    Tables(&'a [u64]),
    Finish,
    Calls(&'a [u64]),
    Run(&'a [u64]),
    Pad(&'a [u64]),
}

impl Call<'_> {
    pub fn name(&self) -> &'static str {
        match self {
            Call::Plan(..) => "plan",
            Call::Stats => "stats",
            Call::TableId => "table_id",
            Call::Path(_) => "path",
            Call::Label(..) => "label",
            Call::Representatives(..) => "representatives",
            Call::Open => "open",
            Call::Rows(_) => "rows",
            Call::SWords(_) => "s_words",
            Call::Cells(_) => "cells",
            Call::Tables(_) => "tables",
            Call::Finish => "finish",
            Call::Calls(_) => "calls",
            Call::Run(_) => "run",
            Call::Pad(_) => "pad",
        }
    }
}

/// The buffers, by these numbers.
pub const PLAN: usize = 0;
pub const STATE: usize = 1;
pub const OUT: usize = 2;
pub const NUMBERS: usize = 3;
pub const PADDED: usize = 4;
pub const COUNT: usize = 5;
pub const CONSTANTS: usize = 6;
pub const COPIES: usize = 7;
pub const SCRATCH: usize = 8;
pub const TABLES: usize = 9;
pub const NAMES: [&str; 10] = [
    "plan",
    "state",
    "out",
    "numbers",
    "padded",
    "count",
    "constants",
    "copies",
    "scratch",
    "tables",
];

/// Room for the numbers of the longest list of calls.
pub const MOST_CALLS: usize = 24;

pub type Buffers = [Vec<u64>; 10];

/// Both sides, and how many words of each buffer the next call is lent.
#[derive(Clone)]
pub struct Sides {
    pub library: Buffers,
    pub model: Buffers,
    pub lent: [usize; 10],
}

fn by_library(call: Call, lent: Lent) -> u64 {
    let [plan, state, out, numbers, padded, count, constants, copies, scratch, tables] = lent;
    match call {
        Call::Plan(parameters, gates) => raw::plan(parameters, gates, plan),
        Call::Stats => raw::stats(plan, out),
        Call::TableId => raw::table_id(plan, out),
        Call::Path(gate) => raw::path(plan, gate, out),
        Call::Label(n, c, cell) => raw::label(n, c, cell, out),
        Call::Representatives(n, c) => raw::representatives(n, c, out),
        Call::Open => raw::open(plan, state, constants, copies, scratch, tables),
        Call::Rows(piece) => raw::rows(state, piece, constants),
        Call::SWords(piece) => raw::s_words(state, piece, constants),
        Call::Cells(piece) => raw::cells(state, piece, copies, scratch),
        Call::Tables(piece) => raw::tables(state, piece, tables),
        Call::Finish => raw::finish(state, copies, scratch),
        Call::Calls(list) => raw::calls(state, list, numbers, constants, copies, scratch, tables),
        Call::Run(listing) => raw::run(listing, plan, constants, copies, scratch, tables),
        Call::Pad(listing) => raw::pad(listing, padded, count),
    }
}

fn by_model(call: Call, lent: Lent) -> u64 {
    let [plan, state, out, numbers, padded, count, constants, copies, scratch, tables] = lent;
    match call {
        Call::Plan(parameters, gates) => expected::plan(parameters, gates, plan),
        Call::Stats => expected::stats(plan, out),
        Call::TableId => expected::table_id(plan, out),
        Call::Path(gate) => expected::path(plan, gate, out),
        Call::Label(n, c, cell) => expected::label(n, c, cell, out),
        Call::Representatives(n, c) => expected::representatives(n, c, out),
        Call::Open => expected::open(plan, state, constants, copies, scratch, tables),
        Call::Rows(piece) => expected::rows(state, piece, constants),
        Call::SWords(piece) => expected::s_words(state, piece, constants),
        Call::Cells(piece) => expected::cells(state, piece, copies, scratch),
        Call::Tables(piece) => expected::tables(state, piece, tables),
        Call::Finish => expected::finish(state, copies, scratch),
        Call::Calls(list) => {
            expected::calls(state, list, numbers, [constants, copies, scratch, tables])
        }
        Call::Run(listing) => expected::run(listing, plan, [constants, copies, scratch, tables]),
        Call::Pad(listing) => expected::pad(listing, padded, count),
    }
}

type Lent<'a> = [&'a mut [u64]; 10];

fn lend<'a>(buffers: &'a mut Buffers, lent: &[usize; 10]) -> Lent<'a> {
    let mut lent = lent.iter();
    buffers.each_mut().map(|buffer| &mut buffer[..*lent.next().unwrap()])
}

/// Words that no call leaves by chance.
pub fn junk(r: &mut Random, length: usize) -> Vec<u64> {
    let start = r.word();
    (0..length as u64).map(|i| start.wrapping_add(i.wrapping_mul(0x9e3779b97f4a7c15))).collect()
}

impl Sides {
    /// Room for a plan, a state, results and numbers, and no listing and columns yet.
    pub fn new(r: &mut Random) -> Sides {
        let lengths = [PLAN_WORDS + 3, STATE_WORDS + 3, 6, MOST_CALLS + 2, 0, 0, 0, 0, 0, 0];
        let library = lengths.map(|length| junk(r, length));
        let lent = [PLAN_WORDS, STATE_WORDS, 3, MOST_CALLS, 0, 0, 0, 0, 0, 0];
        Sides { model: library.clone(), library, lent }
    }

    /// Columns of these lengths and some words beyond, all junk. All of them are lent.
    pub fn allocate(&mut self, r: &mut Random, lengths: [u64; 4]) {
        for (buffer, length) in (CONSTANTS..).zip(lengths) {
            let beyond = r.within(0, 5);
            self.library[buffer] = junk(r, (length + beyond) as usize);
            self.model[buffer] = self.library[buffer].clone();
            self.lent[buffer] = self.library[buffer].len();
        }
    }

    /// So many words of a buffer are lent, and all are junk, also some words beyond.
    pub fn renew(&mut self, r: &mut Random, buffer: usize, length: u64) {
        let beyond = r.within(0, 5);
        self.library[buffer] = junk(r, (length + beyond) as usize);
        self.model[buffer] = self.library[buffer].clone();
        self.lent[buffer] = length as usize;
    }

    /// The same for a padded listing and for its count.
    pub fn allocate_padded(&mut self, r: &mut Random, lengths: [u64; 2]) {
        for (buffer, length) in (PADDED..).zip(lengths) {
            self.renew(r, buffer, length);
        }
    }

    /// Writes a word on both sides.
    pub fn set(&mut self, buffer: usize, place: usize, word: u64) {
        self.library[buffer][place] = word;
        self.model[buffer][place] = word;
    }

    /// How many words the columns have.
    pub fn size(&self) -> usize {
        self.library[CONSTANTS..].iter().map(|buffer| buffer.len()).sum()
    }

    /// Makes a call on both sides. Its number, or what differs.
    pub fn make(&mut self, figures: &mut Figures, call: Call) -> Result<u64, String> {
        let number = by_library(call, lend(&mut self.library, &self.lent));
        let wanted = by_model(call, lend(&mut self.model, &self.lent));
        figures.call(call.name(), number, self.library.iter().map(|buffer| buffer.len()).sum());
        if let (Call::Calls(list), 0) = (call, number) {
            let made = calls_of(list).map_or(0, |calls| calls.len());
            figures.in_lists(&self.library[NUMBERS][..made]);
        }
        let what = match self.difference() {
            None if number == wanted => return Ok(number),
            None => "the words are equal".to_string(),
            Some(what) => what,
        };
        let said: String = format!("{call:?}").chars().take(500).collect();
        Err(format!("{what}; answers {number} and {wanted}; lent {:?}; {said}", self.lent))
    }

    fn difference(&self) -> Option<String> {
        let buffer =
            (0..NAMES.len()).find(|buffer| self.library[*buffer] != self.model[*buffer])?;
        let (library, model) = (&self.library[buffer], &self.model[buffer]);
        let place = (0..library.len()).find(|place| library[*place] != model[*place])?;
        let (left, wanted) = (library[place], model[place]);
        Some(format!("{} word {place}: library {left}, model {wanted}", NAMES[buffer]))
    }

    /// The same call with some words fewer lent of one buffer, as often as not just one fewer
    /// than `named`.
    pub fn make_short(
        &mut self,
        r: &mut Random,
        figures: &mut Figures,
        call: Call,
        buffer: usize,
        named: usize,
    ) -> Result<(), String> {
        let all = self.lent[buffer];
        if named > 0 {
            self.lent[buffer] = r.ends(&[named as u64 - 1], 0, named as u64 - 1) as usize;
            let number = self.make(figures, call)?;
            if number == 0 {
                return Err(format!("{} was taken with a short {}", call.name(), NAMES[buffer]));
            }
        }
        self.lent[buffer] = all;
        Ok(())
    }
}
