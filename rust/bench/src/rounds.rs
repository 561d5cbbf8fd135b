//! Rounds of both sides in turn.
use crate::circuits::Circuit;
use crate::library::{Lent, Words};
use crate::memory::{give_back, within, Memory};
use crate::system::faults;
use crate::times::{timed, Pair, Parts, Running, Still, Stopwatch, Times, PARTS};
use oracle::clock::{Part, Spent};
use oracle::Prepared;
use std::time::Duration;

/// What the rounds of a circuit gave.
pub struct Measured {
    pub name: String,
    pub n: u64,
    /// Whether it has any.
    pub tables: bool,
    pub whole: Pair,
    pub limit: Times,
    /// Pages first touched in the last round, ours and the original's.
    pub faults: [i64; 2],
    pub parts: [Pair; PARTS.len()],
}

/// A circuit on both sides, and the memory that is kept for it.
pub struct Sides {
    memory: Memory,
    words: Words,
    original: Prepared,
    ours: Lent,
    limit: Lent,
}

/// Runs a round in the room; what it hands on is dropped after its time. With fresh memory the room
/// is then given back.
pub fn round<T, D>(memory: Memory, run: impl FnOnce() -> (T, D)) -> D {
    let (made, time) = within(run);
    drop(made);
    if memory == Memory::Fresh {
        give_back();
    }
    time
}

/// The original's time for each of our parts: its columns are allocated as zeros where ours are
/// opened.
fn original_parts(spent: Spent) -> Parts {
    let of = |part: Part| spent[part as usize];
    [
        of(Part::Planning),
        of(Part::Allocating) + of(Part::Labels),
        of(Part::Rows),
        of(Part::Cells),
        of(Part::Tables),
    ]
}

/// A round's time and the pages that it touched.
fn counted(run: impl FnOnce() -> Duration) -> (Duration, i64) {
    let before = faults();
    let time = run();
    (time, faults() - before)
}

impl Sides {
    /// Both sides' answers are compared first.
    pub fn new(x: &Circuit, memory: Memory) -> Sides {
        let listing = x.listing();
        let words = Words::new(x);
        compare(&words, &listing);
        let original = oracle::prepare(&listing).expect("a listing");
        Sides { memory, words, original, ours: Lent::default(), limit: Lent::default() }
    }

    /// A round on buffers that are kept or new.
    fn on<D>(&mut self, limit: bool, run: impl FnOnce(&mut Lent, &Words) -> D) -> D {
        let kept = if limit { &mut self.limit } else { &mut self.ours };
        match self.memory {
            Memory::Kept => within(|| run(kept, &self.words)),
            Memory::Fresh => round(self.memory, || {
                let mut lent = Lent::default();
                let time = run(&mut lent, &self.words);
                (lent, time)
            }),
        }
    }

    pub fn our_whole(&mut self, most: usize) -> Duration {
        self.on(false, |lent, words| timed(|| lent.run(words, most, &mut Still)).1)
    }

    fn our_parts(&mut self) -> Parts {
        self.on(false, |lent, words| {
            let mut watch = Running::new();
            lent.run(words, usize::MAX, &mut watch);
            watch.turn(0);
            watch.spent
        })
    }

    fn our_planning(&mut self) -> Duration {
        self.on(false, |lent, words| timed(|| lent.plan(words)).1)
    }

    fn limit(&mut self) -> Duration {
        self.on(true, |lent, words| timed(|| lent.limit(words)).1)
    }

    fn their_whole(&self) -> Duration {
        round(self.memory, || timed(|| self.original.whole()))
    }

    fn their_parts(&self) -> Parts {
        round(self.memory, || {
            let (made, spent) = self.original.parts();
            (made, original_parts(spent))
        })
    }

    fn their_planning(&self) -> Duration {
        round(self.memory, || timed(|| self.original.planning()))
    }

    /// Gives back what was kept.
    pub fn end(self) {
        drop(self);
        give_back();
    }
}

/// Ours and theirs, or theirs and ours in every second round; round 0 warms and is not kept.
fn in_turn<D>(
    sides: &mut Sides,
    rounds: usize,
    ours: impl Fn(&mut Sides) -> D,
    theirs: impl Fn(&mut Sides) -> D,
    mut keep: impl FnMut(&mut Sides, D, D),
) {
    for i in 0..=rounds {
        let (a, b) = if i % 2 == 0 {
            let a = ours(sides);
            (a, theirs(sides))
        } else {
            let b = theirs(sides);
            (ours(sides), b)
        };
        if i > 0 {
            keep(sides, a, b);
        }
    }
}

/// Wholes alone, with the limit after each pair.
fn wholes(sides: &mut Sides, rounds: usize, made: &mut Measured) {
    let ours = |sides: &mut Sides| counted(|| sides.our_whole(usize::MAX));
    let theirs = |sides: &mut Sides| counted(|| sides.their_whole());
    sides.limit();
    in_turn(sides, rounds, ours, theirs, |sides, a, b| {
        made.whole.ours.push(a.0);
        made.whole.theirs.push(b.0);
        made.limit.push(sides.limit());
        made.faults = [a.1, b.1];
    });
}

fn parts(sides: &mut Sides, rounds: usize, made: &mut Measured) {
    in_turn(
        sides,
        rounds,
        Sides::our_parts,
        |sides| sides.their_parts(),
        |_, ours, theirs| {
            for (i, part) in made.parts.iter_mut().enumerate() {
                part.ours.push(ours[i]);
                part.theirs.push(theirs[i]);
            }
        },
    );
}

/// A circuit in one piece a section: rounds of wholes, then rounds with both stopwatches running.
pub fn measure(name: String, x: &Circuit, memory: Memory, rounds: usize) -> Measured {
    let mut made = Measured {
        name,
        n: x.parameters[0],
        tables: !x.tables.is_empty(),
        whole: Pair::default(),
        limit: Times::default(),
        faults: [0; 2],
        parts: Default::default(),
    };
    let mut sides = Sides::new(x, memory);
    wholes(&mut sides, rounds, &mut made);
    parts(&mut sides, rounds, &mut made);
    sides.end();
    made
}

/// Wholes alone.
pub fn measure_whole(x: &Circuit, memory: Memory, rounds: usize) -> Pair {
    let mut pair = Pair::default();
    let mut sides = Sides::new(x, memory);
    let ours = |sides: &mut Sides| sides.our_whole(usize::MAX);
    in_turn(
        &mut sides,
        rounds,
        ours,
        |sides| sides.their_whole(),
        |_, a, b| {
            pair.ours.push(a);
            pair.theirs.push(b);
        },
    );
    sides.end();
    pair
}

pub fn measure_planning(x: &Circuit, memory: Memory, rounds: usize) -> Pair {
    let mut pair = Pair::default();
    let mut sides = Sides::new(x, memory);
    in_turn(
        &mut sides,
        rounds,
        Sides::our_planning,
        |sides| sides.their_planning(),
        |_, a, b| {
            pair.ours.push(a);
            pair.theirs.push(b);
        },
    );
    sides.end();
    pair
}

/// Stops unless the library makes the columns that the original makes.
fn compare(words: &Words, listing: &[u64]) {
    let mut lent = Lent::default();
    lent.run(words, usize::MAX, &mut Still);
    let original = oracle::run(listing).expect("a circuit that the original takes");
    let same = |ours: &[u64], theirs: &[Vec<u64>]| ours == theirs.concat();
    assert!(same(&lent.constants, &original.constants), "constant columns differ");
    assert!(same(&lent.copies, &original.copies), "copy columns differ");
    assert!(same(&lent.tables, &original.tables), "table columns differ");
}
