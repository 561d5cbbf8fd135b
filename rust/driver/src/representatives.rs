//! Representatives and their powers: of every N and C, of such as are turned down, and in results of
//! any length.
use crate::encoding::REPRESENTATIVES_WORDS;
use crate::figures::Figures;
#[cfg(upstream)]
use crate::original;
use crate::random::Random;
use crate::script::accepted;
use crate::sides::{Call, Sides, OUT};
use model::labels::MOST_COLUMNS;

const WORDS: u64 = REPRESENTATIVES_WORDS as u64;

/// Every N that is taken.
fn traces() -> impl Iterator<Item = u64> {
    (0..=16).map(|log| 1 << log)
}

const BAD_TRACES: [u64; 8] = [0, 3, 65535, 65537, 131072, 1 << 32, 1 << 63, u64::MAX];
/// The coset test decides from N = 64 and C = 24 on.
const COLUMNS: [u64; 7] = [1, 2, 5, 23, 24, 63, 64];
const BAD_COLUMNS: [u64; 5] = [0, 65, 128, 1 << 32, u64::MAX];
const LENGTHS: [u64; 8] = [0, 1, 64, WORDS - 1, WORDS, WORDS + 1, WORDS + 2, 2 * WORDS];

/// The crate's own type has what the model finds, of the C columns alone, or the same refusal.
fn typed(n: u64, c: u64) -> Result<(), String> {
    let same = match (kinchoyu::representatives(n, c), model::labels::representatives(n, c)) {
        (Ok(own), Ok(x)) => (own.values, own.powers, own.taken) == (x.values, x.powers, x.taken),
        (Err(refusal), Err(number)) => refusal.number() == number,
        _ => false,
    };
    match same {
        true => Ok(()),
        false => Err(format!("N = {n}, C = {c}: the crate's type and the model differ")),
    }
}

/// The original has each N and C too.
fn every(r: &mut Random, f: &mut Figures) -> Result<(), String> {
    let mut sides = Sides::new(r);
    for n in traces() {
        for c in 1..=MOST_COLUMNS as u64 {
            sides.renew(r, OUT, WORDS);
            accepted(&mut sides, f, Call::Representatives(n, c))?;
            typed(n, c)?;
            #[cfg(upstream)]
            original::representatives(&sides, f, n, c)?;
        }
    }
    Ok(())
}

/// Taken and turned down in results of any length: 10 comes first.
fn lengths(r: &mut Random, f: &mut Figures) -> Result<(), String> {
    let mut sides = Sides::new(r);
    for n in traces().chain(BAD_TRACES) {
        for c in COLUMNS.into_iter().chain(BAD_COLUMNS) {
            typed(n, c)?;
            for length in LENGTHS {
                sides.renew(r, OUT, length);
                sides.make(f, Call::Representatives(n, c))?;
            }
        }
    }
    Ok(())
}

pub fn run(f: &mut Figures) -> Result<(), String> {
    let mut r = Random::new(3);
    every(&mut r, f)?;
    lengths(&mut r, f)
}
