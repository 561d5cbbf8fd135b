//! Markdown tables of what was measured, and a summary.
use crate::rounds::Measured;
use crate::times::{shown, Pair, HEADS, PARTS};

/// Wholes, the machine's limit, and the pages that a round touches first.
pub fn wholes(all: &[Measured]) {
    println!("\n| whole circuit | {HEADS} | limit, least | ours / limit | original / limit | pages, ours | pages, original |");
    println!("|---|---|---|---|---|---|---|---|---|---|---|");
    for x in all {
        let limit = x.limit.least();
        let times = |pair: f64| format!("{:.2}", pair / limit);
        let (ours, theirs) = (times(x.whole.ours.least()), times(x.whole.theirs.least()));
        let [our_pages, their_pages] = x.faults;
        println!(
            "| {} | {} | {} | {ours} | {theirs} | {our_pages} | {their_pages} |",
            x.name,
            x.whole.cells(),
            shown(limit)
        );
    }
}

pub fn parts(lists: &[(&str, Pair)], all: &[Measured]) {
    println!("\nBoth stopwatches run. The library makes its scratch words in opening, the original among its cells.");
    println!("\n| circuit | part | {HEADS} |\n|---|---|---|---|---|---|---|");
    for (name, pair) in lists {
        println!("| {name} | planning | {} |", pair.cells());
    }
    for x in all {
        for (part, name) in x.parts.iter().zip(PARTS) {
            println!("| {} | {name} | {} |", x.name, part.cells());
        }
    }
}

/// A ratio of each circuit, under the circuit's name.
type Ratios<'a> = Vec<(&'a str, f64)>;

fn mean(ratios: &Ratios) -> f64 {
    (ratios.iter().map(|x| x.1.ln()).sum::<f64>() / ratios.len() as f64).exp()
}

fn line(what: &str, ratios: Ratios) {
    let Some((name, largest)) = ratios.iter().max_by(|x, y| x.1.total_cmp(&y.1)) else { return };
    // a random circuit's number is enough
    let name = name.split(':').next().unwrap_or(name);
    let above = |limit: f64| ratios.iter().filter(|x| x.1 > limit).count();
    let (some, more) = (above(1.0), above(1.05));
    println!(
        "| {what} | {} | {:.3} | {some} | {more} | {largest:.2} ({name}) |",
        ratios.len(),
        mean(&ratios)
    );
}

fn ratios<'a>(all: &[&'a Measured], of: impl Fn(&Measured) -> f64) -> Ratios<'a> {
    all.iter().map(|x| (x.name.as_str(), of(x))).collect()
}

/// Opening and cells are taken together: the scratch words are made in the first by the library and in
/// the second by the original.
const SUMMED: [(&str, &[usize]); 4] = [
    ("planning", &[0]),
    ("labels, opening, cells and finishing", &[1, 3]),
    ("rows and S words", &[2]),
    ("tables", &[4]),
];

/// The ratio of parts taken together.
fn part_ratio(x: &Measured, parts: &[usize]) -> f64 {
    let sum = |of: fn(&Pair) -> f64| parts.iter().map(|i| of(&x.parts[*i])).sum::<f64>();
    sum(|pair| pair.ours.least()) / sum(|pair| pair.theirs.least())
}

/// Geometric mean, how many are above 1.00 and 1.05, and the largest.
pub fn summary(fixed: &[Measured], drawn: &[Measured]) {
    println!("\n| ratios | circuits | geometric mean | above 1.00 | above 1.05 | largest |");
    println!("|---|---|---|---|---|---|");
    let all: Vec<&Measured> = fixed.iter().chain(drawn).collect();
    let (fixed, drawn) = all.split_at(fixed.len());
    for (name, set) in [("table", fixed), ("random set", drawn), ("both", &all)] {
        line(&format!("wholes, {name}, least times"), ratios(set, |x| x.whole.ratio()));
        line(&format!("wholes, {name}, medians"), ratios(set, |x| x.whole.ratio_of_medians()));
    }
    let (tall, short): (Vec<_>, Vec<_>) = all.iter().partition(|x| x.n >= 1024);
    line("wholes, both, N below 1,024, least times", ratios(&short, |x| x.whole.ratio()));
    line("wholes, both, N from 1,024, least times", ratios(&tall, |x| x.whole.ratio()));
    for (name, parts) in SUMMED {
        // without tables nothing is done on either side
        let some: Vec<_> = all.iter().copied().filter(|x| parts != [4] || x.tables).collect();
        line(&format!("{name}, both, least times"), ratios(&some, |x| part_ratio(x, parts)));
    }
    limits(&all);
}

fn limits(all: &[&Measured]) {
    if all.is_empty() {
        return;
    }
    let ours = mean(&ratios(all, |x| x.whole.ours.least() / x.limit.least()));
    let theirs = mean(&ratios(all, |x| x.whole.theirs.least() / x.limit.least()));
    println!("\nTimes the machine's limit, geometric mean of all wholes: ours {ours:.2}, original {theirs:.2}.");
}
