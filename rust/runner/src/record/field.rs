//! Field operations, by 128-bit remainders; the oracle's field must agree.
use super::VERSION;
use crate::random::Random;
use model::field::*;
use oracle::field::goldilocks::GoldilocksField;
use oracle::field::{Field, LegendreSymbol, PrimeField, SmallField};

const ADD: u64 = 0;
const SUB: u64 = 1;
const MUL: u64 = 2;
const POW: u64 = 3;
const NON_RESIDUE: u64 = 4;

const ENDS: [u64; 10] =
    [0, 1, P - 1, P, P + 1, (1 << 32) - 1, 1 << 32, (1 << 32) + 1, 1 << 63, u64::MAX];

fn expected(operation: u64, a: u64, b: u64) -> u64 {
    match operation {
        ADD => add(a, b),
        SUB => sub(a, b),
        MUL => mul(a, b),
        POW => pow(a, b),
        _ => is_non_residue(a) as u64,
    }
}

/// The same by the field that the original code computes with.
fn by_reduction(operation: u64, a: u64, b: u64) -> u64 {
    let mut x = GoldilocksField::from_u64_with_reduction(a);
    let y = GoldilocksField::from_u64_with_reduction(b);
    match operation {
        ADD => x.add_assign(&y).as_u64_reduced(),
        SUB => x.sub_assign(&y).as_u64_reduced(),
        MUL => x.mul_assign(&y).as_u64_reduced(),
        POW => x.pow_u64(b).as_u64_reduced(),
        _ => (x.legendre() == LegendreSymbol::QuadraticNonResidue) as u64,
    }
}

pub fn record(seed: u64) -> Vec<u64> {
    let mut r = Random::new(seed);
    let mut asked = vec![];
    for operation in [ADD, SUB, MUL, POW] {
        for a in ENDS {
            asked.extend(ENDS.map(|b| [operation, a, b]));
        }
    }
    asked.extend(ENDS.map(|a| [NON_RESIDUE, a, 0]));
    asked.extend((2..66).map(|a| [NON_RESIDUE, a, 0]));
    for (operation, times) in [(ADD, 400), (SUB, 400), (MUL, 1200), (POW, 300), (NON_RESIDUE, 200)]
    {
        for _ in 0..times {
            let second =
                if operation == NON_RESIDUE { 0 } else { r.word() >> r.pick(&[0, 0, 0, 32, 60]) };
            asked.push([operation, r.word() >> r.pick(&[0, 0, 0, 1, 32]), second]);
        }
    }
    let mut words = vec![VERSION, seed, asked.len() as u64];
    for [operation, a, b] in asked {
        let answer = expected(operation, a, b);
        assert_eq!(answer, by_reduction(operation, a, b), "{operation} {a} {b}");
        words.extend([operation, a, b, answer]);
    }
    words
}
