//! A stopwatch over the upstream setup, which says by its log lines what it begins. It stands still
//! unless a caller starts it.
use std::cell::RefCell;
use std::time::{Duration, Instant};

/// What the upstream setup is at.
#[derive(Clone, Copy, PartialEq, Eq, Debug)]
pub enum Part {
    /// The tree of selectors, and before it that every gate is in some row.
    Planning,
    /// The constant and table columns allocated, as zeros.
    Allocating,
    /// Rows and S words.
    Rows,
    Labels,
    /// The scratch words allocated, the cells, and the closing of the cycles.
    Cells,
    Tables,
}

/// The time of each part, by its place in `Part`.
pub type Spent = [Duration; 6];

struct Clock {
    at: Part,
    since: Instant,
    spent: Spent,
}

thread_local! {
    static CLOCK: RefCell<Option<Clock>> = const { RefCell::new(None) };
}

/// What runs from here on is a part's; answers the part before.
fn turn(part: Part) -> Option<Part> {
    CLOCK.with_borrow_mut(|clock| {
        let clock = clock.as_mut()?;
        let now = Instant::now();
        clock.spent[clock.at as usize] += now - clock.since;
        clock.since = now;
        Some(std::mem::replace(&mut clock.at, part))
    })
}

/// The upstream code logs a line.
pub fn logged(line: &str) {
    match line {
        "extra_polys_for_selector = {}" => turn(Part::Rows),
        "Creating permutation polys" => turn(Part::Labels),
        "Making permutations" => turn(Part::Cells),
        "Creating lookup tables polys" => turn(Part::Tables),
        _ => None,
    };
}

/// Columns are allocated, in the midst of another part.
pub fn allocating<T>(allocate: impl FnOnce() -> T) -> T {
    let before = turn(Part::Allocating);
    let made = allocate();
    before.map(turn);
    made
}

/// What a run made, and how long each part of it took.
pub fn timed<T>(run: impl FnOnce() -> T) -> (T, Spent) {
    let since = Instant::now();
    CLOCK.set(Some(Clock { at: Part::Planning, since, spent: Default::default() }));
    let made = run();
    turn(Part::Planning);
    let clock = CLOCK.take().expect("the clock that was started");
    (made, clock.spent)
}
