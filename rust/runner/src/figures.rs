//! What a run has covered.
use crate::circuit::Circuit;
use std::collections::BTreeMap;

#[derive(Default)]
pub struct Figures {
    pub accepted: u64,
    /// Turned down with 8 by the model, and by the original's panic.
    pub refused_8: u64,
    /// Turned down with 23 by the model, and taken by the original.
    pub refused_23: u64,
    counts: BTreeMap<&'static str, BTreeMap<u64, u64>>,
}

impl Figures {
    fn count(&mut self, what: &'static str, value: u64) {
        *self.counts.entry(what).or_default().entry(value).or_default() += 1;
    }

    fn mark(&mut self, what: &'static str, met: bool) {
        if met {
            self.count(what, 1);
        }
    }

    pub fn accept(&mut self, circuit: &Circuit) {
        let [n, c, a, s, v, mode, w, _] = circuit.parameters;
        self.accepted += 1;
        self.count("by mode", mode);
        self.count("by N", n);
        self.count(
            "by gates, rounded up to a power of two",
            circuit.gates.len().next_power_of_two() as u64,
        );
        self.mark("C = 1", c == 1);
        self.mark("C = 64", c == 64);
        self.mark("coset region, N >= 64 and C >= 24", n >= 64 && c >= 24);
        let dropped = circuit.gates.len() > 1 && circuit.gates.iter().any(|gate| gate[0] == 2);
        self.mark("a kind 2 gate beside others", dropped);
        self.mark("A = 0", a == 0);
        self.mark("A = 16", a == 16);
        self.mark("S = 0", s == 0);
        self.mark("S = 16", s == 16);
        self.mark("V = 0", v == 0);
        self.mark("V = 1,048,576", v == 1048576);
        self.mark("W = 16", w == 16);
        self.mark("255 tables", circuit.tables.len() == 255);
        self.mark("an empty table before a filled one", empty_before_filled(circuit));
        self.mark("tables fill the trace", tables_height(circuit) == n);
        self.mark("noise in a word of a cell", circuit.cells.iter().any(|x| noisy(*x)));
        self.target(circuit);
    }

    /// Which target took the gates.
    fn target(&mut self, circuit: &Circuit) {
        let gates = model::gates::check(circuit.parameters, &circuit.gates.concat()).unwrap();
        if gates.len() == 1 {
            self.count("lone gates by kind", gates[0].kind);
            return;
        }
        let found = model::search::search(&gates).unwrap();
        self.count("several gates by target number", found.target_number);
        self.count("several gates by constants bound number", found.bound_number);
    }

    pub fn print(&self) {
        println!("circuits accepted and equal: {}", self.accepted);
        println!("circuits turned down with 8, panic in the original: {}", self.refused_8);
        println!("circuits turned down with 23, taken by the original: {}", self.refused_23);
        for (what, values) in &self.counts {
            let texts: Vec<String> = values.iter().map(|(v, n)| format!("{v}: {n}")).collect();
            match texts.as_slice() {
                [_] if values.contains_key(&1) => println!("  {what}: {}", values[&1]),
                _ => println!("  {what}: {}", texts.join(", ")),
            }
        }
    }
}

fn noisy(word: u64) -> bool {
    word << 1 >> 1 >= 1 << 48
}

fn tables_height(circuit: &Circuit) -> u64 {
    circuit.tables.iter().map(|table| table[1]).sum()
}

fn empty_before_filled(circuit: &Circuit) -> bool {
    let first_empty = circuit.tables.iter().position(|table| table[1] == 0);
    let last_filled = circuit.tables.iter().rposition(|table| table[1] > 0);
    matches!((first_empty, last_filled), (Some(empty), Some(filled)) if empty < filled)
}
