//! A small model of document 01, the authority on the setup stage: its rules in
//! plain, slow Rust, one module for each heading. Written from 01 and from the
//! project's readings of it, and from no other code. `padding` is document 02's
//! Change 1, over the same parts; `plan::PathAnswer` is its Change 2, the powers
//! in `labels::Representatives` are its Change 3, and 23 in `columns` is its Change 4.
//!
//! A refusal is its number: `Err(number)`. A refused call writes no word and the
//! state given stands.
pub mod calls;
pub mod columns;
pub mod field;
pub mod gates;
pub mod labels;
pub mod listing;
pub mod padding;
pub mod plan;
pub mod search;

pub use calls::run_calls;
pub use columns::{cells, finish, open, rows, s_words, tables, State};
pub use listing::{program, run_listing};
pub use padding::pad;
pub use plan::{path, plan, table_id, PathAnswer, Plan};
