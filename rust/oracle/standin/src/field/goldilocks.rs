//! Stands for src/field/goldilocks: document 01 lists the field, its generator
//! and the residue test among the stand-ins. Elements are always below p.
use super::*;

pub const P: u64 = 18446744069414584321;
/// 2^64 - p: what a wrap past 2^64 must be mended by.
const EPSILON: u64 = 4294967295;

#[derive(Clone, Copy, Debug, PartialEq, Eq, Hash, Default)]
#[repr(transparent)]
pub struct GoldilocksField(u64);

/// A 128-bit product modulo p, by 2^64 = 2^32 - 1 and 2^96 = -1: as fast as the
/// original's, so that a comparison of speed is fair.
#[inline(always)]
fn reduce(product: u128) -> u64 {
    let (low, high) = (product as u64, (product >> 64) as u64);
    let (top, middle) = (high >> 32, high & EPSILON);
    let (mut sum, borrow) = low.overflowing_sub(top);
    if borrow {
        sum = sum.wrapping_sub(EPSILON);
    }
    let (sum, carry) = sum.overflowing_add(middle * EPSILON);
    let sum = if carry { sum.wrapping_add(EPSILON) } else { sum };
    if sum >= P {
        sum - P
    } else {
        sum
    }
}

impl std::fmt::Display for GoldilocksField {
    fn fmt(&self, f: &mut std::fmt::Formatter<'_>) -> std::fmt::Result {
        write!(f, "{}", self.0)
    }
}

impl Field for GoldilocksField {
    const ZERO: Self = Self(0);
    const ONE: Self = Self(1);
    const TWO: Self = Self(2);
    const MINUS_ONE: Self = Self(P - 1);
    fn is_zero(&self) -> bool {
        self.0 == 0
    }
    #[inline(always)]
    fn add_assign(&'_ mut self, other: &Self) -> &'_ mut Self {
        let (sum, carry) = self.0.overflowing_add(other.0);
        let sum = if carry { sum.wrapping_add(EPSILON) } else { sum };
        self.0 = if sum >= P { sum - P } else { sum };
        self
    }
    #[inline(always)]
    fn sub_assign(&'_ mut self, other: &Self) -> &'_ mut Self {
        let (difference, borrow) = self.0.overflowing_sub(other.0);
        self.0 = if borrow { difference.wrapping_add(P) } else { difference };
        self
    }
    #[inline(always)]
    fn mul_assign(&'_ mut self, other: &Self) -> &'_ mut Self {
        self.0 = reduce(self.0 as u128 * other.0 as u128);
        self
    }
    #[inline(always)]
    fn square(&'_ mut self) -> &'_ mut Self {
        let x = *self;
        self.mul_assign(&x)
    }
    fn negate(&'_ mut self) -> &'_ mut Self {
        let x = *self;
        *self = Self(0);
        self.sub_assign(&x)
    }
    fn double(&'_ mut self) -> &'_ mut Self {
        let x = *self;
        self.add_assign(&x)
    }
    fn from_u64_with_reduction(value: u64) -> Self {
        Self(if value >= P { value - P } else { value })
    }
}

impl PrimeField for GoldilocksField {
    const CAPACITY_BITS: usize = 63;
    const CHAR_BITS: usize = 64;
    const TWO_ADICITY: usize = 32;
    const SHIFTS: &'static [Self] = &[];
    fn multiplicative_generator() -> Self {
        Self(7)
    }
    fn radix_2_subgroup_generator() -> Self {
        Self(7).pow_u64(EPSILON)
    }
    fn inverse(&self) -> Option<Self> {
        if self.0 == 0 {
            None
        } else {
            Some(self.pow_u64(P - 2))
        }
    }
    fn frobenius(&self, _: usize) -> Self {
        *self
    }
    fn legendre(&self) -> LegendreSymbol {
        let power = self.pow_u64((P - 1) / 2);
        if power == Self(0) {
            LegendreSymbol::Zero
        } else if power == Self(P - 1) {
            LegendreSymbol::QuadraticNonResidue
        } else {
            LegendreSymbol::QuadraticResidue
        }
    }
}

impl SmallField for GoldilocksField {
    fn from_u64_unchecked(value: u64) -> Self {
        Self(value)
    }
    fn as_u64_reduced(&self) -> u64 {
        self.0
    }
}
