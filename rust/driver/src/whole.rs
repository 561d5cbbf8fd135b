//! A circuit as one listing, after it was finished piece by piece; and listings that are not whole,
//! or have a fault in one place.
use crate::circuit::Circuit;
use crate::encoding::PLAN_WORDS;
use crate::figures::Figures;
use crate::random::Random;
use crate::script::accepted;
use crate::sides::{junk, Call, Sides, CONSTANTS, NAMES, PLAN};
use crate::strays::other;

/// A listing cut, lengthened, or with one word changed; the words near its start hold the most
/// counts and ranges.
pub fn changed(r: &mut Random, listing: &[u64]) -> Vec<u64> {
    let mut words = listing.to_vec();
    let last = words.len() as u64 - 1;
    match r.within(0, 9) {
        0 => words.truncate(r.within(0, last) as usize),
        1 => words.push(0),
        2..=5 => {
            let place = r.within(0, last.min(20)) as usize;
            words[place] = other(r, words[place]);
        }
        _ => {
            let place = r.within(0, last) as usize;
            words[place] = other(r, words[place]);
        }
    }
    words
}

/// The whole listing on fresh junk: plan and columns are those that the pieces left.
fn same(
    r: &mut Random,
    sides: &Sides,
    figures: &mut Figures,
    listing: &[u64],
    named: [u64; 4],
) -> Result<(), String> {
    let mut aside = sides.clone();
    aside.allocate(r, named);
    aside.library[PLAN] = junk(r, PLAN_WORDS + 3);
    aside.model[PLAN] = aside.library[PLAN].clone();
    aside.lent[PLAN] += r.within(0, 3) as usize;
    accepted(&mut aside, figures, Call::Run(listing))?;
    let columns = (CONSTANTS..).zip(named.map(|length| length as usize));
    for (buffer, length) in columns.chain([(PLAN, PLAN_WORDS)]) {
        if aside.library[buffer][..length] != sides.library[buffer][..length] {
            return Err(format!("pieces and listing differ: {}", NAMES[buffer]));
        }
    }
    Ok(())
}

/// `sides` are the finished ones.
pub fn run(
    r: &mut Random,
    sides: &Sides,
    figures: &mut Figures,
    x: &Circuit,
    named: [u64; 4],
) -> Result<(), String> {
    let listing = x.listing();
    same(r, sides, figures, &listing, named)?;
    let mut aside = sides.clone();
    for _ in 0..3 {
        let words = changed(r, &listing);
        aside.make(figures, Call::Run(&words))?;
        aside.make_short(r, figures, Call::Run(&words), PLAN, PLAN_WORDS)?;
    }
    aside.make_short(r, figures, Call::Run(&listing), PLAN, PLAN_WORDS)?;
    let short = r.within(0, 3) as usize;
    aside.make_short(r, figures, Call::Run(&listing), CONSTANTS + short, named[short] as usize)
}
