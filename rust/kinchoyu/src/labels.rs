//! Labels of the copy columns' cells, and the representatives that they are multiples of.
use crate::raw;
use crate::refusal::{answer, Refusal};

/// The label of a cell of `copy` columns of `trace` rows: column c, row r has number
/// c * trace + r. Refusals 1 and 9.
pub fn label(trace: u64, copy: u64, cell: u64) -> Result<u64, Refusal> {
    let mut out = [0];
    answer(raw::label(trace, copy, cell, &mut out))?;
    Ok(out[0])
}

/// A representative for each copy column, and what the search for them took.
#[derive(Clone, Debug, PartialEq, Eq)]
#[non_exhaustive]
pub struct Representatives {
    /// That of each column, as many as there are columns: the label of its first cell. Column 0
    /// has 1.
    pub values: Vec<u64>,
    /// The N-th power of each, N being the trace length; no two are equal. Column 0 has 1.
    pub powers: Vec<u64>,
    /// How many N-th powers were taken: one for each non-residue tried, kept or not. That of
    /// column 0 is not counted.
    pub taken: u64,
}

/// The representatives of `copy` columns of `trace` rows. Refusals 1 and 9.
///
/// ```
/// let found = kinchoyu::representatives(2, 5)?;
/// assert_eq!(found.values, [1, 7, 11, 13, 14]);
/// assert_eq!(found.powers, [1, 49, 121, 169, 196]);
/// assert_eq!(found.taken, 4);
/// // 56 is in the coset of 7 here: its power is taken, and the next candidate is kept
/// let found = kinchoyu::representatives(64, 24)?;
/// assert_eq!((found.values[23], found.taken), (57, 24));
/// # Ok::<(), kinchoyu::Refusal>(())
/// ```
pub fn representatives(trace: u64, copy: u64) -> Result<Representatives, Refusal> {
    let mut out = [0; raw::REPRESENTATIVES_WORDS];
    answer(raw::representatives(trace, copy, &mut out))?;
    let [columns @ .., taken] = out;
    // both halves have room for the most columns, and zeros past those that there are
    let (values, powers) = columns.split_at(columns.len() / 2);
    let found = |words: &[u64]| words[..copy as usize].to_vec();
    Ok(Representatives { values: found(values), powers: found(powers), taken })
}
