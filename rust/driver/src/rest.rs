//! What is left to give of a circuit, and pieces cut off its front.
use crate::circuit::Circuit;
use crate::random::Random;
use crate::sides::Call;

#[derive(Clone, Copy, Default)]
pub struct Rest<'a> {
    pub rows: &'a [Vec<u64>],
    pub s_words: &'a [u64],
    pub cells: &'a [u64],
    pub tables: &'a [Vec<u64>],
}

/// A section of a circuit.
#[derive(Clone, Copy, Debug, PartialEq, Eq)]
pub enum Section {
    Rows,
    SWords,
    Cells,
    Tables,
}

pub const SECTIONS: [Section; 4] =
    [Section::Rows, Section::SWords, Section::Cells, Section::Tables];

impl Section {
    pub fn call(self, piece: &[u64]) -> Call<'_> {
        match self {
            Section::Rows => Call::Rows(piece),
            Section::SWords => Call::SWords(piece),
            Section::Cells => Call::Cells(piece),
            Section::Tables => Call::Tables(piece),
        }
    }
}

/// Cuts off the front: nothing, all, or some of it.
fn cut<'a, T>(r: &mut Random, rest: &mut &'a [T]) -> &'a [T] {
    let all = rest.len() as u64;
    let length = match r.within(0, 9) {
        0 => 0,
        1..=4 => all,
        _ => r.within(0, all),
    };
    let (piece, after) = rest.split_at(length as usize);
    *rest = after;
    piece
}

impl<'a> Rest<'a> {
    pub fn of(circuit: &'a Circuit) -> Rest<'a> {
        Rest {
            rows: &circuit.rows,
            s_words: &circuit.s_words,
            cells: &circuit.cells,
            tables: &circuit.tables,
        }
    }

    pub fn is_empty(&self) -> bool {
        self.rows.is_empty()
            && self.s_words.is_empty()
            && self.cells.is_empty()
            && self.tables.is_empty()
    }

    /// The next piece of a section.
    pub fn piece(&mut self, r: &mut Random, section: Section) -> Vec<u64> {
        match section {
            Section::Rows => cut(r, &mut self.rows).concat(),
            Section::SWords => cut(r, &mut self.s_words).to_vec(),
            Section::Cells => cut(r, &mut self.cells).to_vec(),
            Section::Tables => cut(r, &mut self.tables).concat(),
        }
    }

    /// The same without taking it.
    pub fn peek(&self, r: &mut Random, section: Section) -> Vec<u64> {
        let mut copy = *self;
        copy.piece(r, section)
    }

    /// All that is left of a section.
    pub fn all(&self, section: Section) -> Vec<u64> {
        match section {
            Section::Rows => self.rows.concat(),
            Section::SWords => self.s_words.to_vec(),
            Section::Cells => self.cells.to_vec(),
            Section::Tables => self.tables.concat(),
        }
    }
}
