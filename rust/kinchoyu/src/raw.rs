//! The library's functions over words alone. Each takes any words at all and answers 0 or a
//! refusal's number; what it leaves in each slice stands in `include/kinchoyu.h`.
//!
//! Rust's references are all that the library asks of a slice: it may be read or written for its
//! whole length, and no written one overlaps another.
#![allow(unsafe_code)]
use crate::c;

/// How many words a plan has.
pub fn plan_words() -> usize {
    // SAFETY: it takes nothing.
    unsafe { c::kinchoyu_plan_words() as usize }
}

/// How many words a state has.
pub fn state_words() -> usize {
    // SAFETY: it takes nothing.
    unsafe { c::kinchoyu_state_words() as usize }
}

/// The plan for eight parameter words and the gates' words, three each.
pub fn plan(parameters: &[u64], gates: &[u64], plan: &mut [u64]) -> u64 {
    // SAFETY: pointers and lengths of references, as said above.
    unsafe {
        c::kinchoyu_plan(
            parameters.as_ptr(),
            parameters.len(),
            gates.as_ptr(),
            gates.len(),
            plan.as_mut_ptr(),
            plan.len(),
        )
    }
}

/// Bits and length of a gate's path, and 1 where the gate has no selector; bit i, from the least, is
/// step i from the root.
pub fn path(plan: &[u64], gate: u64, out: &mut [u64]) -> u64 {
    // SAFETY: pointers and lengths of references, as said above.
    unsafe { c::kinchoyu_path(plan.as_ptr(), plan.len(), gate, out.as_mut_ptr(), out.len()) }
}

/// The number of table-id columns, 0 or 1, and its index.
pub fn table_id(plan: &[u64], out: &mut [u64]) -> u64 {
    // SAFETY: pointers and lengths of references, as said above.
    unsafe { c::kinchoyu_table_id(plan.as_ptr(), plan.len(), out.as_mut_ptr(), out.len()) }
}

/// D, K and F.
pub fn stats(plan: &[u64], out: &mut [u64]) -> u64 {
    // SAFETY: pointers and lengths of references, as said above.
    unsafe { c::kinchoyu_stats(plan.as_ptr(), plan.len(), out.as_mut_ptr(), out.len()) }
}

/// The label of the cell whose number is cN + r.
pub fn label(n: u64, c: u64, cell: u64, out: &mut [u64]) -> u64 {
    // SAFETY: pointers and lengths of references, as said above.
    unsafe { c::kinchoyu_label(n, c, cell, out.as_mut_ptr(), out.len()) }
}

/// How many words [`representatives`] writes.
pub const REPRESENTATIVES_WORDS: usize = 129;

/// The columns' representatives and zeros, 64 words; their N-th powers and zeros, 64 words; and the
/// number of N-th powers taken.
pub fn representatives(n: u64, c: u64, out: &mut [u64]) -> u64 {
    // SAFETY: pointers and lengths of references, as said above.
    unsafe { c::kinchoyu_representatives(n, c, out.as_mut_ptr(), out.len()) }
}

/// Opens the columns of a plan.
pub fn open(
    plan: &[u64],
    state: &mut [u64],
    constants: &mut [u64],
    copies: &mut [u64],
    scratch: &mut [u64],
    tables: &mut [u64],
) -> u64 {
    // SAFETY: pointers and lengths of references, as said above.
    unsafe {
        c::kinchoyu_open(
            plan.as_ptr(),
            plan.len(),
            state.as_mut_ptr(),
            state.len(),
            constants.as_mut_ptr(),
            constants.len(),
            copies.as_mut_ptr(),
            copies.len(),
            scratch.as_mut_ptr(),
            scratch.len(),
            tables.as_mut_ptr(),
            tables.len(),
        )
    }
}

/// Row records: gate, number of constants, constants.
pub fn rows(state: &mut [u64], piece: &[u64], constants: &mut [u64]) -> u64 {
    // SAFETY: pointers and lengths of references, as said above.
    unsafe {
        c::kinchoyu_rows(
            state.as_mut_ptr(),
            state.len(),
            piece.as_ptr(),
            piece.len(),
            constants.as_mut_ptr(),
            constants.len(),
        )
    }
}

/// Words of the specialised constant columns.
pub fn s_words(state: &mut [u64], piece: &[u64], constants: &mut [u64]) -> u64 {
    // SAFETY: pointers and lengths of references, as said above.
    unsafe {
        c::kinchoyu_s_words(
            state.as_mut_ptr(),
            state.len(),
            piece.as_ptr(),
            piece.len(),
            constants.as_mut_ptr(),
            constants.len(),
        )
    }
}

/// Cell words of the copy columns.
pub fn cells(state: &mut [u64], piece: &[u64], copies: &mut [u64], scratch: &mut [u64]) -> u64 {
    // SAFETY: pointers and lengths of references, as said above.
    unsafe {
        c::kinchoyu_cells(
            state.as_mut_ptr(),
            state.len(),
            piece.as_ptr(),
            piece.len(),
            copies.as_mut_ptr(),
            copies.len(),
            scratch.as_mut_ptr(),
            scratch.len(),
        )
    }
}

/// Table records: width, rows, contents row by row.
pub fn tables(state: &mut [u64], piece: &[u64], tables: &mut [u64]) -> u64 {
    // SAFETY: pointers and lengths of references, as said above.
    unsafe {
        c::kinchoyu_tables(
            state.as_mut_ptr(),
            state.len(),
            piece.as_ptr(),
            piece.len(),
            tables.as_mut_ptr(),
            tables.len(),
        )
    }
}

/// Finishing; scratch is read alone.
pub fn finish(state: &mut [u64], copies: &mut [u64], scratch: &[u64]) -> u64 {
    // SAFETY: pointers and lengths of references, as said above.
    unsafe {
        c::kinchoyu_finish(
            state.as_mut_ptr(),
            state.len(),
            copies.as_mut_ptr(),
            copies.len(),
            scratch.as_ptr(),
            scratch.len(),
        )
    }
}

/// A list of calls in one call: for each its kind (1 rows, 2 S words, 3 cells, 4 tables,
/// 5 finishing), the number of its words, and the words.
pub fn calls(
    state: &mut [u64],
    list: &[u64],
    numbers: &mut [u64],
    constants: &mut [u64],
    copies: &mut [u64],
    scratch: &mut [u64],
    tables: &mut [u64],
) -> u64 {
    // SAFETY: pointers and lengths of references, as said above.
    unsafe {
        c::kinchoyu_calls(
            state.as_mut_ptr(),
            state.len(),
            list.as_ptr(),
            list.len(),
            numbers.as_mut_ptr(),
            numbers.len(),
            constants.as_mut_ptr(),
            constants.len(),
            copies.as_mut_ptr(),
            copies.len(),
            scratch.as_mut_ptr(),
            scratch.len(),
            tables.as_mut_ptr(),
            tables.len(),
        )
    }
}

/// A whole listing in one call.
pub fn run(
    listing: &[u64],
    plan: &mut [u64],
    constants: &mut [u64],
    copies: &mut [u64],
    scratch: &mut [u64],
    tables: &mut [u64],
) -> u64 {
    // SAFETY: pointers and lengths of references, as said above.
    unsafe {
        c::kinchoyu_run(
            listing.as_ptr(),
            listing.len(),
            plan.as_mut_ptr(),
            plan.len(),
            constants.as_mut_ptr(),
            constants.len(),
            copies.as_mut_ptr(),
            copies.len(),
            scratch.as_mut_ptr(),
            scratch.len(),
            tables.as_mut_ptr(),
            tables.len(),
        )
    }
}

/// The padded listing of an unpadded circuit's, and its number of words.
pub fn pad(listing: &[u64], out: &mut [u64], count: &mut [u64]) -> u64 {
    // SAFETY: pointers and lengths of references, as said above.
    unsafe {
        c::kinchoyu_pad(
            listing.as_ptr(),
            listing.len(),
            out.as_mut_ptr(),
            out.len(),
            count.as_mut_ptr(),
            count.len(),
        )
    }
}
