//! Takes the place of the oracle's `judge/parts.rs` in the benchmark's build of it: a whole is also
//! to be had without the stopwatch, which turns twice for each column that is allocated.
use super::assembly::{self, Assembly};
use super::clock::{self, Spent};
use super::Listing;
use crate::worker::Worker;
use std::any::Any;

pub struct Prepared {
    assembly: Assembly,
    worker: Worker,
}

/// `None` where the words are no listing.
pub fn prepare(words: &[u64]) -> Option<Prepared> {
    let listing = Listing::read(words)?;
    let assembly = assembly::synthesis(&listing).into_assembly();
    Some(Prepared { assembly, worker: Worker::new_with_num_threads(1) })
}

/// What is made is handed to the caller, who drops it.
impl Prepared {
    /// create_base_setup, the stopwatch standing still.
    pub fn whole(&self) -> Box<dyn Any> {
        Box::new(self.assembly.create_base_setup(&self.worker, &mut ()))
    }

    /// create_base_setup, and the time of each of its parts.
    pub fn parts(&self) -> (Box<dyn Any>, Spent) {
        let (made, spent) = clock::timed(|| self.assembly.create_base_setup(&self.worker, &mut ()));
        (Box::new(made), spent)
    }

    /// The search for a tree.
    pub fn planning(&self) -> Box<dyn Any> {
        Box::new(self.assembly.compute_selectors_and_constants_placement())
    }
}
