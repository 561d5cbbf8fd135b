//! A whole listing in one call, and padding.
use crate::columns::{Columns, Lent};
use crate::plan::Plan;
use crate::raw;
use crate::refusal::{answer, Refusal};

/// The words of a listing kept as bytes, eight to a word, the least first: as the program `setup`
/// reads it. Refusal 20 where the last word is cut.
pub fn listing_from_bytes(bytes: &[u8]) -> Result<Vec<u64>, Refusal> {
    let words = bytes.chunks(8).map(|word| word.try_into().map(u64::from_le_bytes));
    words.collect::<Result<_, _>>().map_err(|_| Refusal::Listing)
}

/// Runs a listing in buffers that a caller lends; gives its plan. Refusal 20 where it is no whole
/// listing, then those of planning, opening, the sections and finishing; a refused one writes no
/// word.
pub fn run_in(listing: &[u64], lent: Lent<'_>) -> Result<Plan, Refusal> {
    let Lent { constants, copies, scratch, tables } = lent;
    Plan::handed(|plan| raw::run(listing, plan, constants, copies, scratch, tables))
}

/// The plan of a listing, which is not tested beyond its gates.
fn plan_of(listing: &[u64]) -> Result<Plan, Refusal> {
    let [8, rest @ ..] = listing else { return Err(Refusal::Listing) };
    let (parameters, rest) = rest.split_at_checked(8).ok_or(Refusal::Listing)?;
    let (count, rest) = rest.split_first().ok_or(Refusal::Listing)?;
    let words = count.checked_mul(3).ok_or(Refusal::Listing)?;
    let (gates, _) = rest.split_at_checked(words as usize).ok_or(Refusal::Listing)?;
    Plan::handed(|plan| raw::plan(parameters, gates, plan))
}

/// Runs a listing in buffers of just its size; gives its plan and its columns.
///
/// ```
/// let listing = [
///     8, 2, 2, 1, 0, 2, 0, 0, 0, // N, C, A, S, V, mode, W, share flag
///     2, 0, 2, 1, 1, 0, 0, // gates
///     2, 0, 1, 5, 1, 0, // rows
///     0, // S words
///     4, 0, 1, 1, 1 << 63, // cells
///     0, // tables
/// ];
/// let (plan, columns) = kinchoyu::run(&listing)?;
/// assert_eq!(plan.stats().constants, 2);
/// assert_eq!(columns.constants(), [1, 0, 5, 0]);
/// assert_eq!(kinchoyu::run(&listing[1..]), Err(kinchoyu::Refusal::Listing));
/// # Ok::<(), kinchoyu::Refusal>(())
/// ```
pub fn run(listing: &[u64]) -> Result<(Plan, Columns), Refusal> {
    let mut columns = match plan_of(listing) {
        Ok(plan) => Columns::new(&plan),
        // a listing that is not whole is refused as such before its plan is
        Err(refusal) => {
            let none =
                Lent { constants: &mut [], copies: &mut [], scratch: &mut [], tables: &mut [] };
            return Err(run_in(listing, none).err().unwrap_or(refusal));
        }
    };
    let plan = run_in(listing, columns.lend())?;
    Ok((plan, columns))
}

/// Pads the listing of a circuit that has too few rows, as it comes from synthesis: its N is 0 to
/// 65,536, the height of its S and cell columns, and its rows may be fewer or more. The length is the
/// smallest power of two not below the rows plus one, the rows of all tables, and N. Missing rows
/// become rows of the first [`Gate::Marker`](crate::Gate::Marker), missing cells placeholders, missing
/// S words 0. Gives the padded listing, which [`run`] takes.
///
/// ```
/// let listing = [
///     8, 3, 1, 1, 0, 2, 0, 0, 0, // N, C, A, S, V, mode, W, share flag
///     2, 0, 2, 1, 1, 0, 0, // gates
///     1, 0, 1, 5, // rows
///     0, // S words
///     3, 0, 1, 1, // cells
///     0, // tables
/// ];
/// let padded = kinchoyu::pad(&listing)?;
/// assert_eq!(padded[..2], [8, 4]);
/// let (_, columns) = kinchoyu::run(&padded)?;
/// assert!(columns.constant_columns().eq([[1, 0, 0, 0], [5, 0, 0, 0]]));
/// # Ok::<(), kinchoyu::Refusal>(())
/// ```
pub fn pad(listing: &[u64]) -> Result<Vec<u64>, Refusal> {
    // at least a row is added
    let mut padded = vec![0; 2 * listing.len() + 1];
    let mut count = [0];
    loop {
        match answer(raw::pad(listing, &mut padded, &mut count)) {
            // 10 comes last, and of a short result alone
            Err(Refusal::ShortBuffer) => padded.resize(2 * padded.len(), 0),
            Err(refusal) => return Err(refusal),
            Ok(()) => break,
        }
    }
    padded.truncate(count[0] as usize);
    Ok(padded)
}
