//! Index files of document 01: their records, text, limits and loading, and the vectors that are
//! made of them. Nothing here needs the original sources.

mod at;
pub mod compared;
pub mod coverage;
pub mod limits;
mod links;
pub mod load;
pub mod name_lookup;
pub mod records;
mod text;
pub mod vectors;
pub mod words;
