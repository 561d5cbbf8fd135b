//! The driver: the static library beside the model of document 01, and whole circuits beside the
//! original too.
//!
//!   driver random COUNT SEED [FIRST]  COUNT random circuits in random pieces, stray calls among them
//!   driver every-word                 good plans and states with each word changed in turn
//!   driver plans                      all short gate lists; plans that no planning gives
//!   driver representatives            of every N and C; such as are turned down
//!   driver ends                       the ends of what is taken
//!   driver largest                    the largest circuit of each mode, whole and padded
//!
//! Every word of every buffer is compared after every call. Fails at the first difference, with
//! the seed and the number of the circuit: `random 1 SEED NUMBER` makes that one alone. Built
//! without the original (no cfg upstream) it compares with the model alone.
mod batches;
mod encoding;
mod ends;
mod every_word;
mod expected;
mod figures;
#[cfg(upstream)]
mod original;
mod padding;
mod plans;
mod representatives;
mod rest;
mod script;
mod sides;
mod strays;
mod whole;

#[allow(dead_code)]
#[path = "../../runner/src/circuit.rs"]
mod circuit;
#[allow(dead_code)]
#[path = "../../runner/src/generate.rs"]
mod generate;
#[path = "../../runner/src/lists.rs"]
mod lists;
#[path = "../../runner/src/made_up.rs"]
mod made_up;
#[allow(dead_code)]
#[path = "../../runner/src/random.rs"]
mod random;
#[cfg_attr(not(upstream), allow(dead_code))]
#[path = "../../runner/src/unpadded.rs"]
mod unpadded;

use circuit::Circuit;
use figures::Figures;
use generate::Size;
use random::Random;
use script::End;

/// Compares a circuit whose calls were made with the original, where it was built in.
pub fn beside_original(
    r: &mut Random,
    figures: &mut Figures,
    x: &Circuit,
    end: End,
) -> Result<(), String> {
    figures.circuit(x);
    #[cfg(upstream)]
    original::compare(r, figures, oracle::outcome(&x.listing(), 1), end)?;
    #[cfg(not(upstream))]
    let _ = (r, end);
    Ok(())
}

fn one(r: &mut Random, figures: &mut Figures, x: &Circuit) -> Result<(), String> {
    let end = script::run(r, figures, x)?;
    beside_original(r, figures, x, end)
}

/// Mostly small circuits, so that many are made.
fn size(r: &mut Random) -> Size {
    match r.within(1, 20000) {
        1 => Size::Tallest,
        2..=20 => Size::Tall,
        21..=400 => Size::Coset,
        _ => Size::Small,
    }
}

/// Circuit `number` of a seed.
fn random_one(figures: &mut Figures, seed: u64, number: u64) -> Result<(), String> {
    let mut r = Random::new(seed.wrapping_add(number.wrapping_mul(0xd1342543de82ef95)));
    let size = size(&mut r);
    let mut x = generate::circuit(&mut r, size);
    // the longest scratch costs as much as a hundred circuits
    while x.parameters[4] == 1048576 && size == Size::Small && !r.once_in(20) {
        x = generate::circuit(&mut r, size);
    }
    let before = figures.calls;
    one(&mut r, figures, &x)
        .and_then(|_| match number % 4 {
            0 => padding::random(&mut r, figures, size),
            _ => Ok(()),
        })
        .map_err(|what| {
            let call = figures.calls - before;
            let written: String = x.written().chars().take(2000).collect();
            format!("seed {seed}, circuit {number}, its call {call}: {what}\n  {written}")
        })
}

fn random(figures: &mut Figures, count: u64, seed: u64, first: u64) -> Result<(), String> {
    (first..first + count).try_for_each(|number| random_one(figures, seed, number))?;
    match figures.unmet() {
        unmet if count >= 4000 && !unmet.is_empty() => {
            Err(format!("no call was refused {unmet:?}"))
        }
        _ => Ok(()),
    }
}

/// Whole, and without its last row, which padding has to bring.
fn largest_one(figures: &mut Figures, mode: u64) -> Result<(), String> {
    let mut r = Random::new(mode);
    let mut x = generate::corner(&mut r, mode);
    one(&mut r, figures, &x)?;
    x.rows.pop();
    match padding::whole(&mut r, figures, &x)? {
        0 => Ok(()),
        number => Err(format!("padding was refused: {number}")),
    }
}

fn largest(figures: &mut Figures) -> Result<(), String> {
    (0..5).try_for_each(|mode| {
        largest_one(figures, mode).map_err(|what| format!("mode {mode}: {what}"))
    })
}

fn number(text: &str) -> u64 {
    text.parse().unwrap_or_else(|_| panic!("not a number: {text}"))
}

fn main() {
    #[cfg(upstream)]
    oracle::silence_panics();
    let arguments: Vec<String> = std::env::args().skip(1).collect();
    let arguments: Vec<&str> = arguments.iter().map(|x| x.as_str()).collect();
    let mut figures = Figures::new();
    let done = match arguments[..] {
        ["random", count, seed] => random(&mut figures, number(count), number(seed), 0),
        ["random", count, seed, first] => {
            random(&mut figures, number(count), number(seed), number(first))
        }
        ["every-word"] => every_word::run(&mut figures),
        ["plans"] => plans::run(&mut figures),
        ["representatives"] => representatives::run(&mut figures),
        ["ends"] => ends::run(&mut figures),
        ["largest"] => largest(&mut figures),
        _ => {
            eprintln!(
                "driver random COUNT SEED [FIRST] | every-word | plans | representatives | \
                 ends | largest"
            );
            std::process::exit(2)
        }
    };
    match done {
        Ok(()) => figures.print(&arguments.join(" ")),
        Err(what) => {
            println!("DIFFERENT: {what}");
            std::process::exit(1)
        }
    }
}
