//! All calls of one circuit: planned, opened, given in random pieces, one by one or as lists, and
//! finished, with stray calls among them. A circuit with rows that are refused with 23 is given
//! without them, and finishing is refused.
use crate::circuit::Circuit;
use crate::encoding::{plan_of, PLAN_WORDS, STATE_WORDS};
use crate::figures::Figures;
use crate::random::Random;
use crate::rest::{Rest, SECTIONS};
use crate::sides::{Call, Sides, PLAN, STATE};
use crate::{batches, strays, whole};
use model::columns::{constants_length, copies_length, scratch_length, tables_length};

/// How the calls of a circuit end.
pub enum End {
    Finished(Sides),
    /// Planning says 8.
    NoPlace,
    /// It has rows that are refused with 23; without them finishing says 17.
    Barred(Sides),
}

/// Makes a call that has to be accepted.
pub fn accepted(sides: &mut Sides, figures: &mut Figures, call: Call) -> Result<(), String> {
    match sides.make(figures, call)? {
        0 => Ok(()),
        number => Err(format!("{} was refused: {number}", call.name())),
    }
}

/// Makes a call that has to be refused with this number.
pub fn refused(
    sides: &mut Sides,
    figures: &mut Figures,
    call: Call,
    number: u64,
) -> Result<(), String> {
    match sides.make(figures, call)? {
        met if met == number => Ok(()),
        met => Err(format!("{}: {met}, not {number}", call.name())),
    }
}

/// A row that is refused, and its number: of a kind 2 gate where that is 23, else of a gate that is
/// not there.
fn refused_row(x: &Circuit, barred: bool) -> ([u64; 2], u64) {
    match x.gates.iter().position(|gate| barred && gate[0] == 2) {
        Some(gate) => ([gate as u64, 0], 23),
        None => ([u64::MAX, 0], 12),
    }
}

/// The circuit with rows of a placed gate in place of those of its kind 2 gates.
fn without_barred(x: &Circuit) -> Circuit {
    let kind = |gate: u64| x.gates[gate as usize][0];
    let placed = (0..x.gates.len() as u64).find(|gate| kind(*gate) != 2).expect("a placed gate");
    let mut fair = x.clone();
    let barred = fair.rows.iter_mut().filter(|row| kind(row[0]) == 2);
    barred.for_each(|row| *row = vec![placed, 0]);
    fair
}

/// The named lengths of the columns of a planned circuit.
pub fn named(sides: &Sides) -> [u64; 4] {
    let plan = plan_of(&sides.model[PLAN][..PLAN_WORDS]);
    [constants_length(&plan), copies_length(&plan), scratch_length(&plan), tables_length(&plan)]
}

/// Plans the circuit and gives it room. False where planning says 8.
pub fn planned(
    r: &mut Random,
    sides: &mut Sides,
    figures: &mut Figures,
    x: &Circuit,
) -> Result<bool, String> {
    sides.lent[PLAN] = PLAN_WORDS + r.within(0, 3) as usize;
    let number = sides.make(figures, Call::Plan(&x.parameters, &x.gates.concat()))?;
    sides.lent[PLAN] = PLAN_WORDS;
    match number {
        0 => {}
        8 => return Ok(false),
        _ => return Err(format!("planning was refused: {number}")),
    }
    for _ in 0..r.within(0, 3) {
        strays::questions(r, sides, figures, x)?;
    }
    sides.allocate(r, named(sides));
    Ok(true)
}

pub fn opened(r: &mut Random, sides: &mut Sides, figures: &mut Figures) -> Result<(), String> {
    sides.lent[STATE] = STATE_WORDS + r.within(0, 3) as usize;
    accepted(sides, figures, Call::Open)?;
    sides.lent[STATE] = STATE_WORDS;
    Ok(())
}

pub fn run(r: &mut Random, figures: &mut Figures, x: &Circuit) -> Result<End, String> {
    let mut sides = Sides::new(r);
    while r.once_in(3) {
        strays::planning(r, &mut sides, figures, x)?;
    }
    if !planned(r, &mut sides, figures, x)? {
        return Ok(End::NoPlace);
    }
    let named = named(&sides);
    for _ in 0..r.within(0, 2) {
        strays::opening(r, &mut sides, figures, named)?;
    }
    opened(r, &mut sides, figures)?;
    let fair = x.barred().then(|| without_barred(x));
    if fair.is_some() {
        refused(&mut sides, figures, Call::Rows(&x.rows.concat()), 23)?;
    }
    let mut rest = Rest::of(fair.as_ref().unwrap_or(x));
    while !rest.is_empty() {
        if r.once_in(3) {
            strays::between(r, &mut sides, figures, x, &rest, named)?;
        }
        if r.once_in(4) {
            batches::stray(r, &sides, figures, x, &rest, named)?;
        }
        if r.once_in(4) {
            batches::next(r, &mut sides, figures, &mut rest, refused_row(x, fair.is_some()))?;
            continue;
        }
        let section = r.pick(&SECTIONS);
        let piece = rest.piece(r, section);
        accepted(&mut sides, figures, section.call(&piece))?;
    }
    for _ in 0..r.within(0, 2) {
        strays::between(r, &mut sides, figures, x, &rest, named)?;
    }
    if fair.is_some() {
        refused(&mut sides, figures, Call::Finish, 17)?;
        refused(&mut sides.clone(), figures, Call::Run(&x.listing()), 23)?;
        figures.barred += 1;
        return Ok(End::Barred(sides));
    }
    if r.once_in(3) {
        batches::finish(r, &mut sides, figures)?;
    } else {
        accepted(&mut sides, figures, Call::Finish)?;
    }
    let late = r.pick(&[Call::Rows(&[]), Call::SWords(&[]), Call::Cells(&[]), Call::Finish]);
    match sides.make(figures, late)? {
        19 => {}
        number => return Err(format!("{} after finishing: {number}", late.name())),
    }
    if r.once_in(3) {
        whole::run(r, &sides, figures, x, named)?;
    }
    Ok(End::Finished(sides))
}
