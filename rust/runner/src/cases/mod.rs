//! Cases with answers that documents 01 and 02 state, or that follow from one of their sentences:
//! the model is held against them where the original has nothing to say.
mod calls;
mod listings;
mod padding;
mod plans;

use std::fmt::Debug;

#[derive(Default)]
pub struct Checks {
    held: u64,
    failed: u64,
}

impl Checks {
    pub fn same<T: PartialEq + Debug>(&mut self, name: &str, got: T, wanted: T) {
        if got == wanted {
            self.held += 1;
        } else {
            self.failed += 1;
            println!("DIFFERENT: {name}: {got:?}, wanted {wanted:?}");
        }
    }
}

/// Whether every case holds.
pub fn run() -> bool {
    let mut checks = Checks::default();
    plans::field(&mut checks);
    plans::labels(&mut checks);
    plans::planning(&mut checks);
    plans::made_up(&mut checks);
    calls::rows(&mut checks);
    calls::barred(&mut checks);
    calls::words(&mut checks);
    calls::tables(&mut checks);
    calls::states(&mut checks);
    calls::finishing(&mut checks);
    listings::worked(&mut checks);
    listings::malformed(&mut checks);
    listings::sizes(&mut checks);
    listings::order(&mut checks);
    padding::padded(&mut checks);
    padding::lengths(&mut checks);
    padding::counted(&mut checks);
    padding::barred(&mut checks);
    println!("stated cases: {} held, {} failed", checks.held, checks.failed);
    checks.failed == 0
}
