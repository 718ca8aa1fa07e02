//! Seeded generators of index files. The same seed gives the same bytes everywhere.

pub mod at;
pub mod corners;
pub mod damage;
pub mod depths;
pub mod edges;
pub mod faults;
pub mod malformed;
#[cfg(originals)]
pub mod program_indexes;
pub mod programs;
mod random;
pub mod records;
pub mod rows;

pub use random::Random;

use crate::originals;

#[derive(Debug, Clone, Copy, PartialEq, Eq)]
pub enum Kind {
    /// Arbitrary well-formed records.
    Records,
    /// Random source through the original parser and builder.
    Programs,
    /// The rows of document 01, its limits, and rules that random files seldom reach.
    Edges,
    /// Copies of the others with small damages.
    Damaged,
    /// The question `at`: copies of records and programs that ask it, some of them damaged. It isn't
    /// among the mixed ones, which stay what they were before there was `at`.
    At,
    Mixed,
}

impl Kind {
    /// The kind of this name, if it can be made here: some need the originals.
    pub fn parse(name: &str) -> Result<Self, String> {
        let kind = match name {
            "records" => Self::Records,
            "programs" => Self::Programs,
            "edges" => Self::Edges,
            "damaged" => Self::Damaged,
            "at" => Self::At,
            "mixed" => Self::Mixed,
            _ => {
                return Err(format!(
                    "{name:?} is no kind of file; the kinds are records, programs, edges, damaged, \
                     at and mixed"
                ));
            }
        };
        if !matches!(kind, Self::Records | Self::Edges) {
            originals::needed_for(&format!("files of kind {name}"))?;
        }
        Ok(kind)
    }
}

/// A file that isn't random, with its name.
#[derive(Debug, Clone, PartialEq, Eq)]
pub struct Fixed {
    pub name: String,
    pub text: String,
}

/// All files of the kind that aren't random.
pub fn fixed_files(kind: Kind) -> Vec<Fixed> {
    match kind {
        Kind::Edges | Kind::Mixed => {
            let mut files = rows::files();
            files.extend(corners::files());
            files.extend(depths::files());
            files.extend(edges::files());
            files
        }
        Kind::At => at::files(),
        Kind::Records | Kind::Programs | Kind::Damaged => Vec::new(),
    }
}

/// All files that aren't random and have a right form.
pub fn all_fixed_files() -> Vec<Fixed> {
    let mut files = fixed_files(Kind::Edges);
    files.extend(fixed_files(Kind::At));
    files
}

/// The bytes of one file.
pub fn file(kind: Kind, seed: u64) -> Vec<u8> {
    let mut random = Random::new(seed);
    match kind {
        Kind::Records => records::index(&mut random).to_text().into_bytes(),
        Kind::Programs => program(&mut random),
        Kind::Edges => {
            let files = fixed_files(Kind::Edges);
            random.pick(&files).text.clone().into_bytes()
        }
        Kind::Damaged => {
            let kind = match random.below(10) {
                0..5 => Kind::Records,
                5..9 => Kind::Programs,
                _ => Kind::Edges,
            };
            let whole = file(kind, random.number());
            damage::damage(&mut random, whole)
        }
        Kind::At => {
            let kind = match random.below(10) {
                0..6 => Kind::Records,
                _ => Kind::Programs,
            };
            let whole = file(kind, random.number());
            let asked = at::asked(&mut random, &whole);
            match random.percent(20) {
                true => damage::damage_at(&mut random, asked),
                false => asked,
            }
        }
        Kind::Mixed => {
            let kind = match random.below(100) {
                0..45 => Kind::Records,
                45..70 => Kind::Programs,
                70..75 => Kind::Edges,
                _ => Kind::Damaged,
            };
            file(kind, random.number())
        }
    }
}

#[cfg(originals)]
fn program(random: &mut Random) -> Vec<u8> {
    program_indexes::index(random).to_text().into_bytes()
}

#[cfg(not(originals))]
fn program(_: &mut Random) -> Vec<u8> {
    unreachable!("`Kind::parse` gives no kind that needs the originals");
}
