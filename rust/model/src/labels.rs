//! 01, "Labels", and 02, Change 3.
use crate::field::{generator, is_non_residue, mul, pow, P};

/// "N is the trace length, a power of two, 1..65,536."
pub fn n_in_range(n: u64) -> bool {
    n.is_power_of_two() && n <= 65536
}

pub const MOST_COLUMNS: usize = 64;

/// "C: copy columns, 1..64."
pub fn c_in_range(c: u64) -> bool {
    (1..=MOST_COLUMNS as u64).contains(&c)
}

/// "w is the generator squared 32−log2(N) times."
pub fn domain_generator(n: u64) -> u64 {
    let mut w = generator();
    for _ in 0..32 - n.ilog2() {
        w = mul(w, w);
    }
    w
}

/// What the search hands back, of columns 0 to C−1 in order.
#[derive(Clone, Debug, PartialEq, Eq)]
pub struct Representatives {
    pub values: Vec<u64>,
    /// "each representative's N-th power beside it".
    pub powers: Vec<u64>,
    /// "the number of N-th powers taken: one for each non-residue tried". Column 0 is not tried.
    pub taken: u64,
}

/// "Column 0 has representative 1." The others: "candidates 2, 3, 4, ...; kept is a
/// non-residue whose N-th power is neither 1 nor that of one kept before, until C−1
/// are kept." 1: N or C outside its range; 9: candidates reach p.
pub fn representatives(n: u64, c: u64) -> Result<Representatives, u64> {
    if !n_in_range(n) || !c_in_range(c) {
        return Err(1);
    }
    let mut kept = Representatives { values: vec![1], powers: vec![1], taken: 0 };
    let mut candidate = 2;
    while kept.values.len() < c as usize {
        if candidate == P {
            return Err(9);
        }
        if is_non_residue(candidate) {
            let power = pow(candidate, n);
            kept.taken += 1;
            if !kept.powers.contains(&power) {
                kept.values.push(candidate);
                kept.powers.push(power);
            }
        }
        candidate += 1;
    }
    Ok(kept)
}

/// "The label of cell (c, r) is its column's representative times w^r." The cell is
/// its number cN+r. 1: also "a cell outside the C columns".
pub fn label(n: u64, c: u64, cell: u64) -> Result<u64, u64> {
    if !n_in_range(n) || !c_in_range(c) || cell >= c * n {
        return Err(1);
    }
    let representative = representatives(n, c)?.values[(cell / n) as usize];
    Ok(mul(representative, pow(domain_generator(n), cell % n)))
}

/// The labels of all cells, in the order of their numbers.
pub fn all_labels(n: u64, c: u64) -> Result<Vec<u64>, u64> {
    let representatives = representatives(n, c)?;
    let w = domain_generator(n);
    let mut labels = vec![];
    for representative in representatives.values {
        let mut label = representative;
        for _ in 0..n {
            labels.push(label);
            label = mul(label, w);
        }
    }
    Ok(labels)
}
