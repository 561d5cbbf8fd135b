//! Stands for the crate root src/lib.rs, and adds `judge`: the way in for the
//! project's own tests.
#![feature(allocator_api, get_mut_unchecked, iter_collect_into, generic_const_exprs)]
#![allow(incomplete_features, dead_code, unused, dropping_references, dropping_copy_types)]
#![allow(unexpected_cfgs)]

// the outside crates, all from one small crate of ours
extern crate shim as arrayvec;
extern crate shim as bincode;
extern crate shim as derivative;
extern crate shim as serde;
extern crate shim as smallvec;

/// Stands for the crate's log macro. Logs are out of scope: a line only turns the
/// stopwatch, and its arguments are checked for their types.
macro_rules! log {
    ($line:literal $($t:tt)*) => {
        if false {
            let _ = format!($line $($t)*);
        }
        crate::judge::clock::logged($line);
    };
}
/// Stands for the profiler's macros: nothing is measured here.
macro_rules! profile_fn {
    ($name:ident) => {};
}
macro_rules! profile_section {
    ($name:ident) => {
        let $name = ();
    };
}

pub mod config;
pub mod cs;
pub mod dag;
pub mod fft;
pub mod field;
pub mod gpu_synthesizer;
pub mod utils;
pub mod worker;

mod judge;
pub use judge::*;
