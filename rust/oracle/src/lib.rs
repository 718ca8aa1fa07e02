//! Answers the questions of an index by the original Rust functions.
//!
//! The records become the data of a `SemanticIndex` ([`build`], [`trees`]); each question gets a
//! fresh database and is asked by the three functions of `type_resolution.rs`. Refusal 6 is the
//! Rust's unwrap of `None`, 7 the runtime's cycle. 8, 9 and 10 don't exist in the Rust; they are
//! counted here ([`counts`], [`type_text`]).

#![cfg(originals)]

mod answer;
mod ask;
mod build;
mod counts;
mod name_lookup;
mod nodes;
mod spans;
mod stack;
mod stop;
mod trees;
mod type_text;

pub use answer::{Answer, Options, Outcome, answer_bytes, gives_up, resolve};
pub use ask::Oracle;
pub use stack::with_large_stack;
