//! Test tools for a port of Cairo-M's type resolution: generators of index files, a differential
//! run against the original Rust, committed vectors and the mutation of the originals.

pub mod check_index;
pub mod corpus;
#[cfg(originals)]
pub mod differential;
pub mod generate;
pub mod mutate;
#[cfg(originals)]
pub mod name_at;
#[cfg(originals)]
pub mod name_check;
pub mod originals;
pub mod place;
pub mod program;
pub mod reduce;
#[cfg(originals)]
pub mod self_check;
pub mod tally;
pub mod vectors;
