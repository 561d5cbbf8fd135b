//! The upstream representatives by themselves, and their powers in its field.
use super::assembly::F;
use crate::cs::implementations::utils::make_non_residues;
use crate::field::{Field, SmallField};

/// Those of columns 0 to C−1, as the upstream setup takes them: 1 and its non-residues; and the N-th
/// power of each.
pub fn representatives(n: u64, c: u64) -> (Vec<u64>, Vec<u64>) {
    let mut all = vec![F::ONE];
    all.extend(make_non_residues::<F>(c as usize - 1, n as usize));
    let words = |x: F| x.as_u64_reduced();
    (all.iter().map(|x| words(*x)).collect(), all.iter().map(|x| words(x.pow_u64(n))).collect())
}
