//! What a run has made and compared.
use crate::circuit::Circuit;
use std::collections::BTreeMap;
use std::time::Instant;

pub struct Figures {
    start: Instant,
    circuits: u64,
    /// Unpadded circuits that were padded and then run.
    pub padded: u64,
    /// Circuits with rows that are refused with 23.
    pub barred: u64,
    /// Circuits whose columns were compared with the original's.
    pub originals: u64,
    /// Pairs of N and C whose representatives and powers were compared with the original's.
    pub representatives: u64,
    pub calls: u64,
    words: u64,
    by_name: BTreeMap<&'static str, u64>,
    by_number: BTreeMap<u64, u64>,
    /// Calls in lists, by number.
    by_listed: BTreeMap<u64, u64>,
    by_trace: BTreeMap<u64, u64>,
    by_mode: BTreeMap<u64, u64>,
}

impl Figures {
    pub fn new() -> Figures {
        Figures {
            start: Instant::now(),
            circuits: 0,
            padded: 0,
            barred: 0,
            originals: 0,
            representatives: 0,
            calls: 0,
            words: 0,
            by_name: BTreeMap::new(),
            by_number: BTreeMap::new(),
            by_listed: BTreeMap::new(),
            by_trace: BTreeMap::new(),
            by_mode: BTreeMap::new(),
        }
    }

    pub fn circuit(&mut self, x: &Circuit) {
        self.circuits += 1;
        *self.by_trace.entry(x.parameters[0]).or_default() += 1;
        *self.by_mode.entry(x.parameters[5]).or_default() += 1;
    }

    pub fn call(&mut self, name: &'static str, number: u64, words: usize) {
        self.calls += 1;
        self.words += words as u64;
        *self.by_name.entry(name).or_default() += 1;
        *self.by_number.entry(number).or_default() += 1;
    }

    pub fn in_lists(&mut self, numbers: &[u64]) {
        for number in numbers {
            *self.by_listed.entry(*number).or_default() += 1;
        }
    }

    /// Which of the refusals that random calls reach were not met. 9 is reached by no circuit.
    pub fn unmet(&self) -> Vec<u64> {
        (1..=23).filter(|number| *number != 9 && !self.by_number.contains_key(number)).collect()
    }

    pub fn print(&self, title: &str) {
        let took = self.start.elapsed().as_secs_f64();
        println!("{title}, {took:.1} s: library and model equal in every word after every call");
        println!(
            "  circuits: {}; with rows refused with 23: {}; padded and run: {}; compared with the original: {}; calls: {}; words compared: {}",
            self.circuits, self.barred, self.padded, self.originals, self.calls, self.words
        );
        let names: Vec<String> = self.by_name.iter().map(|(x, n)| format!("{x} {n}")).collect();
        println!("  calls: {}", names.join(", "));
        println!("  {}", accepted_and_refused(&self.by_number));
        if !self.by_listed.is_empty() {
            println!("  in lists of calls: {}", accepted_and_refused(&self.by_listed));
        }
        if self.representatives > 0 {
            println!("  pairs of N and C compared with the original: {}", self.representatives);
        }
        if self.circuits > 0 {
            println!("  circuits by mode: {}", listed(&self.by_mode));
            println!("  circuits by N: {}", listed(&self.by_trace));
        }
    }
}

fn accepted_and_refused(by_number: &BTreeMap<u64, u64>) -> String {
    let mut refused = by_number.clone();
    let accepted = refused.remove(&0).unwrap_or(0);
    format!("accepted: {accepted}; refused by number: {}", listed(&refused))
}

fn listed(counts: &BTreeMap<u64, u64>) -> String {
    let texts: Vec<String> = counts.iter().map(|(x, n)| format!("{x}: {n}")).collect();
    texts.join(", ")
}
