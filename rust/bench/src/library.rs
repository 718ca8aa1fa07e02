//! The proved `load`, as the benchmark asks it.

use index_file::load::Refusal;
use roognaps::raw::{self, Loaded};

/// Whether a file is accepted.
pub fn accepts(file: &[u8], records: &mut [u32]) -> bool {
    raw::load(file, records).read() == Ok(Loaded::Accepted)
}

/// The refusal of the Rust loader as the proved one owes it.
pub fn owed(refusal: Refusal) -> Loaded {
    let line = u32::try_from(refusal.line).expect("a line of a file");
    let refusal = roognaps::Refusal::from_number(refusal.number.into(), line);
    Loaded::Refused(refusal.expect("a refusal of a file"))
}
