//! The four buffers of a circuit.
use crate::parameters::Lookup;
use crate::plan::Plan;
use std::fmt;
use std::slice::ChunksExact;

/// Buffers that a caller lends: each at least as long as the plan needs ([`Lengths`]). Words beyond
/// keep their values.
pub struct Lent<'a> {
    /// The constant columns: K of paths and constants, then S specialised ones.
    pub constants: &'a mut [u64],
    /// The copy columns.
    pub copies: &'a mut [u64],
    /// For each variable what its cells have made so far; nothing of use after finishing.
    pub scratch: &'a mut [u64],
    /// The table columns: W of contents, then the tables' numbers. None without lookups.
    pub tables: &'a mut [u64],
}

/// How many words each has.
impl fmt::Debug for Lent<'_> {
    fn fmt(&self, f: &mut fmt::Formatter<'_>) -> fmt::Result {
        f.debug_struct("Lent")
            .field("constants", &self.constants.len())
            .field("copies", &self.copies.len())
            .field("scratch", &self.scratch.len())
            .field("tables", &self.tables.len())
            .finish()
    }
}

/// How many words of each buffer a plan names.
#[derive(Clone, Copy, Debug, PartialEq, Eq)]
#[non_exhaustive]
pub struct Lengths {
    /// (K + S) N.
    pub constants: usize,
    /// C N.
    pub copies: usize,
    /// 2 V.
    pub scratch: usize,
    /// (W + 1) N, or 0 without lookups.
    pub tables: usize,
}

impl Lengths {
    /// Those of a plan.
    pub fn of(plan: &Plan) -> Lengths {
        let parameters = plan.parameters();
        let trace = parameters.trace as usize;
        let [_, width, _] = parameters.lookup.words();
        let tables = match parameters.lookup {
            Lookup::None => 0,
            _ => width as usize + 1,
        };
        let constants = plan.stats().constants + parameters.specialised;
        Lengths {
            constants: constants as usize * trace,
            copies: parameters.copy as usize * trace,
            scratch: 2 * parameters.variables as usize,
            tables: tables * trace,
        }
    }
}

/// Buffers of just the words that a plan names, and their columns of N words each.
#[derive(Clone, Debug, PartialEq, Eq)]
pub struct Columns {
    trace: usize,
    constants: Vec<u64>,
    copies: Vec<u64>,
    scratch: Vec<u64>,
    tables: Vec<u64>,
}

impl Columns {
    /// Buffers for a plan, all zeros.
    pub fn new(plan: &Plan) -> Columns {
        let lengths = Lengths::of(plan);
        Columns {
            trace: plan.parameters().trace as usize,
            constants: vec![0; lengths.constants],
            copies: vec![0; lengths.copies],
            scratch: vec![0; lengths.scratch],
            tables: vec![0; lengths.tables],
        }
    }

    /// All four, for [`Intake::open`](crate::Intake::open).
    pub fn lend(&mut self) -> Lent<'_> {
        Lent {
            constants: &mut self.constants,
            copies: &mut self.copies,
            scratch: &mut self.scratch,
            tables: &mut self.tables,
        }
    }

    /// The constant columns, one after the other.
    pub fn constants(&self) -> &[u64] {
        &self.constants
    }

    /// The copy columns, one after the other.
    pub fn copies(&self) -> &[u64] {
        &self.copies
    }

    /// Scratch, which goes with a state that is kept ([`Intake::resume`](crate::Intake::resume)).
    pub fn scratch(&self) -> &[u64] {
        &self.scratch
    }

    /// The table columns, one after the other.
    pub fn tables(&self) -> &[u64] {
        &self.tables
    }

    /// Each constant column: K of paths and constants, then S specialised ones.
    pub fn constant_columns(&self) -> ChunksExact<'_, u64> {
        self.constants.chunks_exact(self.trace)
    }

    /// Each copy column: in each cell the label of the cell that comes before it in its cycle.
    pub fn copy_columns(&self) -> ChunksExact<'_, u64> {
        self.copies.chunks_exact(self.trace)
    }

    /// Each table column: W of contents, then the tables' numbers. None without lookups.
    pub fn table_columns(&self) -> ChunksExact<'_, u64> {
        self.tables.chunks_exact(self.trace)
    }
}
