//! 01, "Field". Elements are words below p; each function reads any word modulo p.

/// p = 18446744069414584321.
pub const P: u64 = 18446744069414584321;

pub fn reduce(a: u64) -> u64 {
    a % P
}

pub fn add(a: u64, b: u64) -> u64 {
    ((a as u128 + b as u128) % P as u128) as u64
}

pub fn sub(a: u64, b: u64) -> u64 {
    add(reduce(a), P - reduce(b))
}

pub fn mul(a: u64, b: u64) -> u64 {
    (a as u128 * b as u128 % P as u128) as u64
}

/// "any word to the power 0 is 1". The exponent is a plain count.
pub fn pow(a: u64, exponent: u64) -> u64 {
    let mut result = 1;
    for bit in (0..64).rev() {
        result = mul(result, result);
        if exponent >> bit & 1 == 1 {
            result = mul(result, a);
        }
    }
    result
}

/// "The generator is 7 to the power 2^32−1."
pub fn generator() -> u64 {
    pow(7, (1 << 32) - 1)
}

/// "c is a non-residue when c^((p−1)/2) = p−1."
pub fn is_non_residue(c: u64) -> bool {
    pow(c, (P - 1) / 2) == P - 1
}
