//! Unpadded circuits: padded in buffers of several lengths, full of junk; then the padded circuit
//! is run, and stands beside the one that the original padded by itself.
use crate::circuit::Circuit;
use crate::figures::Figures;
use crate::generate::Size;
use crate::random::Random;
use crate::script::{accepted, named};
use crate::sides::{Call, Sides, COUNT, PADDED};
use crate::unpadded;
use crate::whole::changed;
use model::listing::sections;

/// Pads with room to spare; the number, and the padded listing where it is 0.
fn with_room(
    r: &mut Random,
    sides: &mut Sides,
    f: &mut Figures,
    listing: &[u64],
) -> Result<(u64, Vec<u64>), String> {
    let needed = model::pad(listing).map_or(listing.len(), |words| words.len());
    let lengths = [needed as u64 + r.within(0, 9), r.within(1, 3)];
    sides.allocate_padded(r, lengths);
    let number = sides.make(f, Call::Pad(listing))?;
    let count = sides.library[COUNT][0];
    match number {
        0 => Ok((0, sides.library[PADDED][..count as usize].to_vec())),
        _ if count == 0 => Ok((number, vec![])),
        _ => Err(format!("refused {number} with a count of {count}")),
    }
}

/// Just enough room, and too little of it: one word short, any number short, no count.
fn tight(
    r: &mut Random,
    sides: &mut Sides,
    f: &mut Figures,
    listing: &[u64],
    needed: u64,
) -> Result<(), String> {
    let short = r.within(0, needed - 1);
    for (lengths, wanted) in
        [([needed, 1], 0), ([needed - 1, 1], 10), ([short, r.within(0, 2)], 10), ([needed, 0], 10)]
    {
        sides.allocate_padded(r, lengths);
        match sides.make(f, Call::Pad(listing))? {
            number if number == wanted => {}
            number => return Err(format!("{lengths:?} words were lent: {number}, not {wanted}")),
        }
    }
    Ok(())
}

/// The padded listing is one that is accepted; its columns are those of the original's padding,
/// where that looks at N.
fn run_padded(
    r: &mut Random,
    mut sides: Sides,
    f: &mut Figures,
    x: &Circuit,
    padded: &[u64],
) -> Result<(), String> {
    let all = sections(padded).ok_or("the padded listing is none")?;
    accepted(&mut sides, f, Call::Plan(&all.parameters, all.gates))?;
    let lengths = named(&sides);
    sides.allocate(r, lengths);
    accepted(&mut sides, f, Call::Run(padded))?;
    f.padded += 1;
    #[cfg(upstream)]
    if unpadded::shared(x) {
        let outcome = oracle::padded(&x.listing(), 1);
        crate::original::compare(r, f, outcome, crate::script::End::Finished(sides))?;
    }
    #[cfg(not(upstream))]
    let _ = (sides, x);
    Ok(())
}

/// Pads a circuit and, where that is accepted, runs it; the number.
pub fn whole(r: &mut Random, f: &mut Figures, x: &Circuit) -> Result<u64, String> {
    let mut sides = Sides::new(r);
    let listing = x.listing();
    let (number, padded) = with_room(r, &mut sides, f, &listing)?;
    if number == 0 {
        run_padded(r, sides, f, x, &padded)?;
    }
    Ok(number)
}

/// A random unpadded circuit, then the same with faults in it and with words changed.
pub fn random(r: &mut Random, f: &mut Figures, size: Size) -> Result<(), String> {
    let x = unpadded::circuit(r, size);
    let wrong = |x: &Circuit, what: String| {
        let written: String = x.written().chars().take(2000).collect();
        format!("padding: {what}\n  {written}")
    };
    let number = whole(r, f, &x).map_err(|what| wrong(&x, what))?;
    if size != Size::Small {
        return Ok(());
    }
    let (listing, mut sides) = (x.listing(), Sides::new(r));
    if number == 0 {
        let needed = model::pad(&listing).map_or(1, |words| words.len() as u64);
        tight(r, &mut sides, f, &listing, needed).map_err(|what| wrong(&x, what))?;
    }
    for _ in 0..2 {
        let mut faulty = x.clone();
        (0..r.within(1, 2)).for_each(|_| unpadded::fault(r, &mut faulty));
        whole(r, f, &faulty).map_err(|what| wrong(&faulty, what))?;
        let words = changed(r, &listing);
        with_room(r, &mut sides, f, &words).map_err(|what| wrong(&x, what))?;
    }
    sides.allocate_padded(r, [listing.len() as u64, 0]);
    sides.make(f, Call::Pad(&changed(r, &listing))).map(drop)
}
