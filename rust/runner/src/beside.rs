//! The commands that need the original.
use crate::circuit::Circuit;
use crate::compare::{compare, Verdict};
use crate::figures::Figures;
use crate::random::Random;
use crate::{differences, exhaustive, faults, generate, padding, program, record};

/// Prints a circuit that the judges do not agree on; false, for the exit status.
pub fn report(circuit: &Circuit, what: &str) -> bool {
    println!("DIFFERENT: {what}");
    let cut: String = circuit.written().chars().take(1000).collect();
    println!("  {cut}");
    false
}

/// Compares until `count` circuits were accepted, or up to the first difference.
fn random(count: u64, seed: u64) -> bool {
    let mut r = Random::new(seed);
    let mut figures = Figures::default();
    let start = std::time::Instant::now();
    while figures.accepted < count {
        let size = generate::size(&mut r);
        let circuit = generate::circuit(&mut r, size);
        match compare(&circuit, Some(&mut r)) {
            Verdict::Same => figures.accept(&circuit),
            Verdict::Refused(8, Some(_)) => figures.refused_8 += 1,
            Verdict::Refused(23, None) => figures.refused_23 += 1,
            Verdict::Refused(number, _) => {
                return report(&circuit, &format!("the model refused: {number}"))
            }
            Verdict::Different(what) => return report(&circuit, &what),
        }
    }
    println!("random circuits, seed {seed}, {:.1} s", start.elapsed().as_secs_f64());
    figures.print();
    true
}

/// The largest circuits of all, one in each mode; then without the last row, to be padded.
fn corners() -> bool {
    let mut r = Random::new(0);
    let start = std::time::Instant::now();
    for mode in 0..5 {
        let mut circuit = generate::corner(&mut r, mode);
        match compare(&circuit, Some(&mut r)) {
            Verdict::Same => {}
            Verdict::Refused(number, _) => return report(&circuit, &format!("refused: {number}")),
            Verdict::Different(what) => return report(&circuit, &what),
        }
        circuit.rows.pop();
        if let Some(what) = padding::whole_difference(&circuit) {
            return report(&circuit, &what);
        }
    }
    println!(
        "largest circuits, one in each mode, and padded: equal, {:.1} s",
        start.elapsed().as_secs_f64()
    );
    true
}

fn number(text: &str) -> u64 {
    text.parse().unwrap_or_else(|_| panic!("not a number: {text}"))
}

/// Runs a command; whether all was well, `None` for an unknown one.
pub fn command(arguments: &[&str]) -> Option<bool> {
    oracle::silence_panics();
    match arguments {
        ["random", count, seed] => Some(random(number(count), number(seed))),
        ["corners"] => Some(corners()),
        ["exhaustive"] => Some(exhaustive::run()),
        ["differences"] => Some(differences::run()),
        ["faults", count, seed] => Some(faults::run(number(count), number(seed))),
        ["pad", count, seed] => Some(padding::run(number(count), number(seed))),
        ["program", path, count, seed] => Some(program::run(path, number(count), number(seed))),
        ["record", folder, seed] => {
            record::run(folder, number(seed));
            Some(true)
        }
        _ => None,
    }
}
