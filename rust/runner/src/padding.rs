//! Unpadded circuits: the original pads by its own `pad_and_shrink`, the model by 02's sentences,
//! and both make the columns of what they padded.
use crate::beside::report;
use crate::circuit::Circuit;
use crate::compare::{difference, modelled};
use crate::differences::{cases, padded_cases, Rust};
use crate::faults::sayable;
use crate::generate::{self, Size};
use crate::random::Random;
use crate::switched;
use crate::unpadded::{self, shared};
use model::field::P;
use model::listing::{row_length, sections, Sections};
use oracle::Outcome;
use std::collections::{BTreeMap, BTreeSet};

/// Whether so many columns were given, and each begins with the words that were given of it.
fn columns_begin(many: u64, given: &[u64], from: u64, padded: &[u64], length: u64) -> bool {
    let mut columns = given.chunks(from.max(1) as usize).zip(padded.chunks(length as usize));
    given.len() as u64 == many * from && columns.all(|(given, padded)| padded.starts_with(given))
}

/// What columns do not show: every given word stands in the padded listing as it was.
fn kept(x: &Circuit, padded: &Sections) -> bool {
    let [from, c, _, s, ..] = x.parameters;
    let length = padded.parameters[0];
    padded.parameters[1..] == x.parameters[1..]
        && padded.gates == x.gates.concat()
        && padded.rows.starts_with(&x.rows.concat())
        && padded.tables == x.tables.concat()
        && columns_begin(s, &x.s_words, from, padded.s_words, length)
        && columns_begin(c, &x.cells, from, padded.cells, length)
}

/// The gate of each row of a section.
fn row_gates(mut words: &[u64]) -> impl Iterator<Item = u64> + '_ {
    std::iter::from_fn(move || {
        let (gate, length) = (*words.first()?, row_length(words)? as usize);
        words = &words[length..];
        Some(gate)
    })
}

/// What differs between the model's padded circuit and the original's; outside the shared domain
/// the model's alone has to be accepted.
fn padded_difference(x: &Circuit, words: &[u64], padded: &[u64], cores: usize) -> Option<String> {
    let Some(all) = sections(padded).filter(|all| kept(x, all)) else {
        return Some("a given word is not in the padded listing".to_string());
    };
    if x.barred() {
        return Some("a row of it is not refused with 23".to_string());
    }
    let made = match modelled(padded) {
        Ok(made) => made,
        Err(number) => return Some(format!("the padded listing is refused: {number}")),
    };
    if !shared(x) {
        return None;
    }
    match oracle::padded(words, cores) {
        Outcome::Made(o) => difference(&made, &o)
            .or_else(|| switched::wrong(&x.gates, &o.paths, row_gates(all.rows), &o.constants)),
        Outcome::Panicked(message) => Some(format!("the original panicked: {message}")),
        Outcome::Malformed => Some("the oracle took no listing".to_string()),
    }
}

/// As `padded_difference`, of a circuit that has to be padded.
pub fn whole_difference(x: &Circuit) -> Option<String> {
    let words = x.listing();
    match model::pad(&words) {
        Ok(padded) => padded_difference(x, &words, &padded, 1),
        Err(number) => Some(format!("padding is refused: {number}")),
    }
}

/// Whether the original can be given these words at all.
fn elements(x: &Circuit) -> bool {
    let rows = x.rows.iter().flat_map(|row| &row[2..]);
    let tables = x.tables.iter().flat_map(|table| &table[2..]);
    rows.chain(tables).chain(&x.s_words).all(|word| *word < P)
}

/// What the original does with a circuit that the model turns down.
fn original(x: &Circuit, words: &[u64]) -> Option<Rust> {
    if !sayable(x) || !elements(x) {
        return None;
    }
    match oracle::padded(words, 1) {
        Outcome::Made(_) => Some(Rust::Takes),
        Outcome::Panicked(_) => Some(Rust::Panics),
        Outcome::Malformed => None,
    }
}

#[derive(Default)]
struct Figures {
    /// Numbers of circuits that the original takes, by the tables of differences.
    taken: BTreeSet<u64>,
    /// Accepted and equal to the original; accepted, the model alone.
    both: u64,
    alone: u64,
    by_mode: BTreeMap<u64, u64>,
    /// By what asks for the length.
    by_cause: BTreeMap<&'static str, u64>,
    met: BTreeMap<&'static str, u64>,
    refused: BTreeMap<(u64, Option<Rust>), u64>,
}

/// Which of the three numbers is the greatest; the first of equal ones.
fn cause(x: &Circuit) -> &'static str {
    let table_rows: u64 = x.tables.iter().map(|table| table[1]).sum();
    let (n, used) = (x.parameters[0], x.rows.len() as u64 + 1);
    match used.max(table_rows).max(n) {
        most if most == used => "rows",
        most if most == table_rows => "tables",
        _ => "N",
    }
}

impl Figures {
    fn accept(&mut self, x: &Circuit, length: u64) {
        *(if shared(x) { &mut self.both } else { &mut self.alone }) += 1;
        *self.by_mode.entry(x.parameters[5]).or_default() += 1;
        *self.by_cause.entry(cause(x)).or_default() += 1;
        let first = x.gates.iter().position(|gate| gate[0] == 1).map(|gate| gate as u64);
        let marks = [
            ("N = 0", x.parameters[0] == 0),
            ("length 65,536", length == 65536),
            ("more rows than N", x.rows.len() as u64 > x.parameters[0]),
            ("no row of the first kind 1 gate", x.rows.iter().all(|row| Some(row[0]) != first)),
            ("a kind 2 gate", x.gates.len() > 1 && x.gates.iter().any(|gate| gate[0] == 2)),
            ("kind 1 twice or more", x.gates.iter().filter(|gate| gate[0] == 1).count() > 1),
        ];
        for (what, met) in marks {
            *self.met.entry(what).or_default() += met as u64;
        }
    }

    fn print(&self) {
        println!("  padded, equal to the original: {}", self.both);
        println!("  padded where 02 has the model judge alone: {}", self.alone);
        println!("  by mode: {}", counts(&self.by_mode));
        println!("  by what asks for the length: {}", counts(&self.by_cause));
        println!("  {}", counts(&self.met));
        for ((number, rust), count) in &self.refused {
            let said = rust.map_or("was not asked", |rust| rust.said());
            println!("  refused {number}, the original {said}: {count}");
        }
    }
}

fn counts<T: std::fmt::Display>(of: &BTreeMap<T, u64>) -> String {
    of.iter().map(|(x, n)| format!("{x}: {n}")).collect::<Vec<_>>().join(", ")
}

fn taken() -> BTreeSet<u64> {
    let all = cases().into_iter().chain(padded_cases());
    all.filter(|case| case.rust == Rust::Takes).map(|case| case.number).collect()
}

/// A circuit, and whether faults were put into it.
fn drawn(r: &mut Random) -> (Circuit, bool) {
    let size = if r.once_in(200) { Size::Tallest } else { generate::size(r) };
    let mut x = unpadded::circuit(r, size);
    let mut faulty = false;
    while r.once_in(3) {
        unpadded::fault(r, &mut x);
        faulty = true;
    }
    (x, faulty)
}

/// What differs, if anything. Without a fault 8, 21, 22 and 23 alone may come.
fn one(figures: &mut Figures, x: &Circuit, faulty: bool, cores: u64) -> Option<String> {
    let words = x.listing();
    let number = match model::pad(&words) {
        Ok(padded) => {
            figures.accept(x, padded[1]);
            return padded_difference(x, &words, &padded, cores as usize);
        }
        Err(number) => number,
    };
    if !faulty && ![8, 21, 22, 23].contains(&number) || number == 23 && !x.barred() {
        return Some(format!("the model refused: {number}"));
    }
    let rust = original(x, &words);
    *figures.refused.entry((number, rust)).or_default() += 1;
    let unlisted = rust == Some(Rust::Takes) && !figures.taken.contains(&number);
    unlisted.then(|| format!("refused {number}, the original takes it"))
}

/// Until `count` circuits were padded, or up to the first difference.
pub fn run(count: u64, seed: u64) -> bool {
    let mut r = Random::new(seed);
    let mut figures = Figures { taken: taken(), ..Figures::default() };
    let start = std::time::Instant::now();
    while figures.both + figures.alone < count {
        let (x, faulty) = drawn(&mut r);
        let cores = r.pick(&[1, 1, 2, 3, 7]);
        if let Some(what) = one(&mut figures, &x, faulty, cores) {
            return report(&x, &what);
        }
    }
    println!("unpadded circuits, seed {seed}, {:.1} s", start.elapsed().as_secs_f64());
    figures.print();
    true
}
