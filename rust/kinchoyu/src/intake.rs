//! The intake: an opened circuit that takes its sections piece by piece.
use crate::calls::Calls;
use crate::columns::Lent;
use crate::plan::Plan;
use crate::raw;
use crate::refusal::{answer, Refusal};
use std::fmt;

/// A cell of a copy column.
#[derive(Clone, Copy, Debug, PartialEq, Eq)]
pub enum Cell {
    /// A variable's index.
    Variable(u64),
    /// No variable: the cell keeps its own label.
    Placeholder,
}

impl Cell {
    /// The cell's word. It has 48 bits for an index; a longer one becomes the greatest, which is
    /// never below V, so that it is refused and not cut.
    pub fn word(self) -> u64 {
        match self {
            Cell::Variable(index) => index.min((1 << 48) - 1),
            Cell::Placeholder => 1 << 63,
        }
    }
}

/// A variable's index, or none for a placeholder.
impl From<Option<u64>> for Cell {
    fn from(variable: Option<u64>) -> Cell {
        variable.map_or(Cell::Placeholder, Cell::Variable)
    }
}

/// An open circuit and the buffers lent to it. A refused call writes no word of them and leaves
/// the intake as it was. Pieces hold whole records, may be empty, and sections may alternate.
pub struct Intake<'a> {
    state: Vec<u64>,
    lent: Lent<'a>,
}

/// The lengths of what it holds.
impl fmt::Debug for Intake<'_> {
    fn fmt(&self, f: &mut fmt::Formatter<'_>) -> fmt::Result {
        f.debug_struct("Intake")
            .field("state", &self.state.len())
            .field("lent", &self.lent)
            .finish()
    }
}

impl<'a> Intake<'a> {
    /// Opens the columns: named words are zeroed, labels written. Refusals 10 and 9.
    pub fn open(plan: &Plan, lent: Lent<'a>) -> Result<Intake<'a>, Refusal> {
        let mut state = vec![0; raw::state_words()];
        let Lent { constants, copies, scratch, tables } = lent;
        answer(raw::open(plan.words(), &mut state, constants, copies, scratch, tables))?;
        Ok(Intake { state, lent: Lent { constants, copies, scratch, tables } })
    }

    /// Goes on from a state kept as words, with the buffers that go with it. Refusals 19 and 10.
    pub fn resume(state: &[u64], lent: Lent<'a>) -> Result<Intake<'a>, Refusal> {
        let mut intake = Intake { state: state.to_vec(), lent };
        // empty pieces: they change nothing, and each tests the state and its own buffers
        intake.rows(&[])?;
        intake.cells(&[])?;
        intake.tables(&[])?;
        Ok(intake)
    }

    /// The state's words, for keeping.
    pub fn state(&self) -> &[u64] {
        &self.state
    }

    /// Row records: gate, number of constants, constants. Refusals 12, 23, 11, 13.
    pub fn rows(&mut self, piece: &[u64]) -> Result<(), Refusal> {
        answer(raw::rows(&mut self.state, piece, self.lent.constants))
    }

    /// Rows, each a gate and its constants, as one piece.
    pub fn rows_from<R: AsRef<[u64]>>(
        &mut self,
        rows: impl IntoIterator<Item = (u64, R)>,
    ) -> Result<(), Refusal> {
        let mut piece = vec![];
        for (gate, constants) in rows {
            let constants = constants.as_ref();
            piece.extend([gate, constants.len() as u64]);
            piece.extend(constants);
        }
        self.rows(&piece)
    }

    /// Words of the specialised constant columns, column by column. Refusals 13, 11.
    pub fn s_words(&mut self, piece: &[u64]) -> Result<(), Refusal> {
        answer(raw::s_words(&mut self.state, piece, self.lent.constants))
    }

    /// The same from an iterator, as one piece.
    pub fn s_words_from(&mut self, words: impl IntoIterator<Item = u64>) -> Result<(), Refusal> {
        let piece: Vec<u64> = words.into_iter().collect();
        self.s_words(&piece)
    }

    /// Cell words of the copy columns, column by column. Refusals 13, 14.
    pub fn cells(&mut self, piece: &[u64]) -> Result<(), Refusal> {
        answer(raw::cells(&mut self.state, piece, self.lent.copies, self.lent.scratch))
    }

    /// Cells, as one piece.
    pub fn cells_from(&mut self, cells: impl IntoIterator<Item = Cell>) -> Result<(), Refusal> {
        let piece: Vec<u64> = cells.into_iter().map(Cell::word).collect();
        self.cells(&piece)
    }

    /// Table records: width, rows, contents row by row. Refusals 15, 11.
    pub fn tables(&mut self, piece: &[u64]) -> Result<(), Refusal> {
        answer(raw::tables(&mut self.state, piece, self.lent.tables))
    }

    /// One table of rows that are `width` words each. A row of another length is refusal 15.
    pub fn table_from<R: AsRef<[u64]>>(
        &mut self,
        width: u64,
        rows: impl IntoIterator<Item = R>,
    ) -> Result<(), Refusal> {
        let mut piece = vec![width, 0];
        for row in rows {
            let row = row.as_ref();
            if row.len() as u64 != width {
                // 19 and 10 come before 15: an empty piece tests for them and changes nothing
                self.tables(&[])?;
                return Err(Refusal::Table);
            }
            piece[1] += 1;
            piece.extend(row);
        }
        self.tables(&piece)
    }

    /// Makes the calls of a list in order, in one call of the library. Each has its own answer;
    /// after a refused one the others are made all the same, as if it had not been in the list.
    ///
    /// ```
    /// use kinchoyu::{Calls, Columns, Gate, Intake, Lookup, Parameters, Plan, Refusal};
    ///
    /// let parameters = Parameters {
    ///     trace: 1,
    ///     copy: 2,
    ///     allowed: 0,
    ///     specialised: 0,
    ///     variables: 1,
    ///     lookup: Lookup::None,
    /// };
    /// let plan = Plan::new(&parameters, &[Gate::Marker])?;
    /// let mut columns = Columns::new(&plan);
    /// let mut intake = Intake::open(&plan, columns.lend())?;
    /// let mut list = Calls::new();
    /// list.rows(&[0, 0]).cells(&[0]).cells(&[1]).cells(&[0]).finish();
    /// let answers = intake.calls(&list);
    /// assert_eq!(answers, [Ok(()), Ok(()), Err(Refusal::Variable), Ok(()), Ok(())]);
    /// # Ok::<(), Refusal>(())
    /// ```
    pub fn calls(&mut self, list: &Calls) -> Vec<Result<(), Refusal>> {
        let mut numbers = vec![0; list.len()];
        let Lent { constants, copies, scratch, tables } = &mut self.lent;
        let state = &mut self.state;
        let number =
            raw::calls(state, list.words(), &mut numbers, constants, copies, scratch, tables);
        // 20 and 10 are for words that are no list and for short numbers
        answer(number).expect("a list of calls, with room for its numbers");
        numbers.into_iter().map(answer).collect()
    }

    /// Closes every variable's cycle. Refusals 16, 17, 18; after an accepted one every call is
    /// refusal 19.
    pub fn finish(&mut self) -> Result<(), Refusal> {
        answer(raw::finish(&mut self.state, self.lent.copies, self.lent.scratch))
    }
}
