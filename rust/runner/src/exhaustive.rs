//! Every list of up to four gates, and every choice of six beside three dropped ones, before
//! both judges.
use crate::beside::report;
use crate::circuit::Circuit;
use crate::compare::{compare, Verdict};
use crate::lists;
use std::collections::BTreeMap;

const LONGEST: u32 = 4;

#[derive(Default)]
struct Tally {
    equal: BTreeMap<u64, u64>,
    /// Turned down with 6, which the original may take.
    refused_6: u64,
    /// Turned down with 23 and taken by the original, the plans being equal.
    refused_23: BTreeMap<u64, u64>,
}

impl Tally {
    /// False at a difference, which is printed.
    fn judge(&mut self, circuit: &Circuit) -> bool {
        match compare(circuit, None) {
            Verdict::Same => *self.equal.entry(circuit.parameters[5]).or_default() += 1,
            Verdict::Refused(6, _) => self.refused_6 += 1,
            Verdict::Refused(23, None) => {
                *self.refused_23.entry(circuit.parameters[5]).or_default() += 1
            }
            Verdict::Refused(number, _) => {
                return report(circuit, &format!("the model refused: {number}"))
            }
            Verdict::Different(what) => return report(circuit, &what),
        }
        true
    }

    fn print(&self, name: &str) {
        println!("{name}: equal by mode {:?}; refused with 6: {}", self.equal, self.refused_6);
        println!("  refused with 23, plans equal, by mode {:?}", self.refused_23);
    }
}

pub fn run() -> bool {
    let start = std::time::Instant::now();
    let (mut short, mut dropped) = (Tally::default(), Tally::default());
    if !lists::short(LONGEST, |circuit| short.judge(&circuit)) {
        return false;
    }
    short.print("every list of up to four gates");
    if !lists::dropped(|circuit| dropped.judge(&circuit)) {
        return false;
    }
    dropped.print("every choice of six gates beside three dropped ones");
    println!("gate lists: {:.1} s", start.elapsed().as_secs_f64());
    true
}
