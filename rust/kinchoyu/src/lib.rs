//! The setup stage of a PLONK prover over the Goldilocks field: a circuit is planned, its columns
//! are opened, its sections come in pieces, and finishing closes the cycles. The work is done by the
//! static library `libkinchoyu.a`, in which every function is proved; this crate has types for it.
//!
//! # Use
//!
//! `tools/library` in the repository proves the library and makes it, for x86-64. Then, in a
//! program's `Cargo.toml`, with the way to the repository:
//!
//! ```toml
//! [dependencies]
//! kinchoyu = { path = "../kinchoyu/rust/kinchoyu" }
//! ```
//!
//! The library is taken from the repository's `target/staticlib`, or from the folder that the
//! variable `KINCHOYU_LIB_DIR` names while the program is built. It goes into the program; nothing
//! else is linked, and the crate depends on no other.
//!
//! # The worked circuit of document 01
//!
//! ```
//! use kinchoyu::{Cell, Columns, Gate, Intake, Lookup, Parameters, Plan, Refusal};
//!
//! let parameters = Parameters {
//!     trace: 2,
//!     copy: 2,
//!     allowed: 1,
//!     specialised: 0,
//!     variables: 2,
//!     lookup: Lookup::None,
//! };
//! let plan = Plan::new(&parameters, &[Gate::Evaluated { degree: 2, constants: 1 }, Gate::Marker])?;
//! let stats = plan.stats();
//! assert_eq!((stats.degree, stats.constants, stats.factor), (3, 2, 2));
//! assert_eq!(plan.path(0)?.to_string(), "1");
//!
//! let mut columns = Columns::new(&plan);
//! let mut intake = Intake::open(&plan, columns.lend())?;
//! intake.rows_from([(0, vec![5]), (1, vec![])])?;
//! assert_eq!(intake.cells(&[2]), Err(Refusal::Variable));
//! intake.cells_from([0, 1, 1].map(Cell::Variable))?;
//! intake.cells_from([Cell::Placeholder])?;
//! intake.finish()?;
//!
//! assert!(columns.constant_columns().eq([[1, 0], [5, 0]]));
//! assert_eq!(columns.copies(), [1, 7, 18446744069414584320, 18446744069414584314]);
//! # Ok::<(), Refusal>(())
//! ```
//!
//! The folder `examples/` has a whole program, with lookups. A circuit whose trace is not yet full is
//! padded first: [`pad`].
//!
//! # What holds of every call
//!
//! - Every function takes any arguments. What documents 01 and 02 turn down comes back as a
//!   [`Refusal`] with its number, and then no word of the columns was written.
//! - The library allocates nothing and keeps nothing between calls; this crate allocates what
//!   [`Columns`], plans and states hold.
//! - A call needs up to [`STACK_BYTES`] of stack beside the caller's own: the main thread's and
//!   `std::thread`'s 2 MiB are enough.
//! - Memory is safe: `unsafe` stands in [`raw`] alone, which passes slices to the library.
#![deny(missing_docs, missing_debug_implementations, unsafe_code)]
mod c;
mod calls;
mod columns;
mod intake;
mod labels;
mod listing;
mod parameters;
mod plan;
pub mod raw;
mod refusal;

pub use calls::Calls;
pub use columns::{Columns, Lengths, Lent};
pub use intake::{Cell, Intake};
pub use labels::{label, representatives, Representatives};
pub use listing::{listing_from_bytes, pad, run, run_in};
pub use parameters::{Gate, Lookup, Parameters};
pub use plan::{Path, Plan, Selection, Stats};
pub use refusal::Refusal;

/// p = 2^64 − 2^32 + 1; words of rows, S words and tables are below it.
pub const P: u64 = 18446744069414584321;

/// A thread whose stack has so many bytes may make every call.
pub const STACK_BYTES: usize = 114688;
