//! The proved library with buffers lent to it.
use crate::circuits::Circuit;
use crate::times::Stopwatch;
use kinchoyu::raw;

/// A section's records, one after the other, and where each starts.
pub struct Records {
    pub words: Vec<u64>,
    starts: Vec<usize>,
}

impl Records {
    fn new(records: &[Vec<u64>]) -> Records {
        let mut starts = vec![0];
        starts.extend(records.iter().scan(0, |end, record| {
            *end += record.len();
            Some(*end)
        }));
        Records { words: records.concat(), starts }
    }

    /// Pieces of so many records.
    fn pieces(&self, most: usize) -> impl Iterator<Item = &[u64]> {
        let count = self.starts.len() - 1;
        let end = move |i: usize| self.starts[i.saturating_add(most).min(count)];
        (0..count).step_by(most).map(move |i| &self.words[self.starts[i]..end(i)])
    }
}

/// A circuit's words, and how long its buffers must be.
pub struct Words {
    parameters: [u64; 8],
    gates: Vec<u64>,
    pub rows: Records,
    pub s_words: Vec<u64>,
    pub cells: Vec<u64>,
    pub tables: Records,
    lengths: [usize; 4],
}

fn accepted(number: u64) {
    assert_eq!(number, 0, "a timed circuit was refused");
}

impl Words {
    pub fn new(x: &Circuit) -> Words {
        let [n, c, _, s, v, mode, w, _] = x.parameters;
        let gates = x.gates.concat();
        let (mut plan, mut stats) = (vec![0; raw::plan_words()], [0; 3]);
        accepted(raw::plan(&x.parameters, &gates, &mut plan));
        accepted(raw::stats(&plan, &mut stats));
        let [_, k, _] = stats;
        let tables = if mode == 0 { 0 } else { w + 1 };
        Words {
            parameters: x.parameters,
            gates,
            rows: Records::new(&x.rows),
            s_words: x.s_words.clone(),
            cells: x.cells.clone(),
            tables: Records::new(&x.tables),
            lengths: [(k + s) * n, c * n, 2 * v, tables * n].map(|words| words as usize),
        }
    }
}

/// The buffers. They are made where they are first needed, and stay as long as this does.
#[derive(Default)]
pub struct Lent {
    plan: Vec<u64>,
    state: Vec<u64>,
    pub constants: Vec<u64>,
    pub copies: Vec<u64>,
    pub scratch: Vec<u64>,
    pub tables: Vec<u64>,
}

impl Lent {
    pub fn plan(&mut self, x: &Words) {
        if self.plan.is_empty() {
            self.plan = vec![0; raw::plan_words()];
        }
        accepted(raw::plan(&x.parameters, &x.gates, &mut self.plan));
    }

    /// The buffers, if they are not there yet.
    pub fn make(&mut self, x: &Words) {
        if self.state.is_empty() {
            self.state = vec![0; raw::state_words()];
            let [constants, copies, scratch, tables] = x.lengths.map(|words| vec![0; words]);
            (self.constants, self.copies) = (constants, copies);
            (self.scratch, self.tables) = (scratch, tables);
        }
    }

    pub fn open(&mut self, x: &Words) {
        self.make(x);
        let (constants, copies) = (&mut self.constants, &mut self.copies);
        let (scratch, tables) = (&mut self.scratch, &mut self.tables);
        accepted(raw::open(&self.plan, &mut self.state, constants, copies, scratch, tables));
    }

    pub fn rows(&mut self, piece: &[u64]) {
        accepted(raw::rows(&mut self.state, piece, &mut self.constants));
    }

    fn s_words(&mut self, piece: &[u64]) {
        accepted(raw::s_words(&mut self.state, piece, &mut self.constants));
    }

    pub fn cells(&mut self, piece: &[u64]) {
        accepted(raw::cells(&mut self.state, piece, &mut self.copies, &mut self.scratch));
    }

    fn tables(&mut self, piece: &[u64]) {
        accepted(raw::tables(&mut self.state, piece, &mut self.tables));
    }

    fn finish(&mut self) {
        accepted(raw::finish(&mut self.state, &mut self.copies, &self.scratch));
    }

    /// Planning, opening, every section in pieces of at most so many records, finishing; the watch is
    /// told what comes. Finishing comes right after the cells, as it does in the original.
    pub fn run(&mut self, x: &Words, most: usize, watch: &mut impl Stopwatch) {
        watch.turn(0);
        self.plan(x);
        watch.turn(1);
        self.open(x);
        watch.turn(2);
        x.rows.pieces(most).for_each(|piece| self.rows(piece));
        x.s_words.chunks(most).for_each(|piece| self.s_words(piece));
        watch.turn(4);
        x.tables.pieces(most).for_each(|piece| self.tables(piece));
        watch.turn(3);
        x.cells.chunks(most).for_each(|piece| self.cells(piece));
        self.finish();
    }

    /// The machine's limit: all buffers set to zeros, and all pieces copied to their columns, rows
    /// without a column to the copy columns.
    pub fn limit(&mut self, x: &Words) {
        self.make(x);
        let all = [&mut self.constants, &mut self.copies, &mut self.scratch, &mut self.tables];
        all.into_iter().for_each(|buffer| buffer.fill(0));
        pour(&x.cells, &mut self.copies);
        pour(&x.tables.words, &mut self.tables);
        let columns =
            if self.constants.is_empty() { &mut self.copies } else { &mut self.constants };
        pour(&x.rows.words, columns);
        pour(&x.s_words, columns);
    }
}

/// Copies a piece, again from the start where the buffer is shorter.
fn pour(piece: &[u64], buffer: &mut [u64]) {
    for words in piece.chunks(buffer.len().max(1)) {
        let taken = words.len().min(buffer.len());
        buffer[..taken].copy_from_slice(&words[..taken]);
    }
}
