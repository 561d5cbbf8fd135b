//! The oracle's own part: a listing of document 01 is put into the upstream
//! structures, the upstream setup runs, and its answer is handed back as words.
mod answer;
mod assembly;
pub mod clock;
mod listing;
mod parts;
mod representatives;

pub use answer::Output;
use assembly::Assembly;
pub use listing::Listing;
pub use parts::{prepare, Prepared};
pub use representatives::representatives;

use crate::worker::Worker;
use std::panic::{catch_unwind, AssertUnwindSafe};

/// What became of a listing.
pub enum Outcome {
    /// The words are no listing: the upstream code was not reached.
    Malformed,
    /// The upstream code panicked, with this message.
    Panicked(String),
    Made(Output),
}

/// Runs the upstream setup on a listing; `None` where it panics.
pub fn run(words: &[u64]) -> Option<Output> {
    match outcome(words, 1) {
        Outcome::Made(output) => Some(output),
        _ => None,
    }
}

/// As `run`, saying what went wrong, and with the worker's chunks cut for
/// `cores` threads.
pub fn outcome(words: &[u64], cores: usize) -> Outcome {
    answered(words, cores, |listing| assembly::synthesis(listing).into_assembly())
}

/// As `outcome`, of an unpadded circuit, which the upstream pads first.
pub fn padded(words: &[u64], cores: usize) -> Outcome {
    answered(words, cores, |listing| {
        let mut synthesis = assembly::unpadded(listing);
        synthesis.pad_and_shrink();
        synthesis.into_assembly()
    })
}

fn answered(words: &[u64], cores: usize, assembled: fn(&Listing) -> Assembly) -> Outcome {
    let Some(listing) = Listing::read(words) else {
        return Outcome::Malformed;
    };
    let made = catch_unwind(AssertUnwindSafe(|| {
        let worker = Worker::new_with_num_threads(cores);
        let assembly = assembled(&listing);
        answer::create(&assembly, listing.gates.len(), &worker)
    }));
    match made {
        Ok(output) => Outcome::Made(output),
        Err(payload) => Outcome::Panicked(message(payload)),
    }
}

fn message(payload: Box<dyn std::any::Any + Send>) -> String {
    match payload.downcast::<String>() {
        Ok(text) => *text,
        Err(other) => match other.downcast::<&'static str>() {
            Ok(text) => text.to_string(),
            Err(_) => String::new(),
        },
    }
}

/// Upstream's panics are answers here: they print nothing.
pub fn silence_panics() {
    std::panic::set_hook(Box::new(|_| {}));
}
