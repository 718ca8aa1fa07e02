//! The committed vectors: which there are, how they are made, and whether they hold.

use std::path::{Path, PathBuf};

use index_file::coverage;
use index_file::load::load;
use index_file::records::Question;
use index_file::vectors::{self, Vector};

/// A file of vectors has at most this many bytes, so that a program can hold one.
pub const FILE_BYTES: usize = 1_000_000;
pub const COVERAGE: &str = "coverage.txt";

/// A file of the folder, by name.
pub type NamedFile = (String, Vec<u8>);

/// The vector files of the folder in the order of their names, accepted ones first.
pub fn paths(folder: &Path) -> Result<Vec<PathBuf>, String> {
    let fault = |error: std::io::Error| format!("{}: {error}", folder.display());
    let mut paths = Vec::new();
    for entry in std::fs::read_dir(folder).map_err(fault)? {
        let path = entry.map_err(fault)?.path();
        let name = path.file_name().unwrap_or_default().to_string_lossy();
        if name.starts_with("accepted-") || name.starts_with("malformed-") {
            paths.push(path);
        }
    }
    paths.sort();
    Ok(paths)
}

pub fn read(path: &Path) -> Result<Vec<Vector>, String> {
    let fault = |error: &dyn std::fmt::Display| format!("{}: {error}", path.display());
    let bytes = std::fs::read(path).map_err(|error| fault(&error))?;
    vectors::read(&bytes).map_err(|error| fault(&error))
}

/// All vectors of the folder.
pub fn read_all(folder: &Path) -> Result<Vec<Vector>, String> {
    let mut all = Vec::new();
    for path in paths(folder)? {
        all.extend(read(&path)?);
    }
    if all.is_empty() {
        return Err(format!("{}: no vectors", folder.display()));
    }
    Ok(all)
}

/// Whether the vector's answer is right, as far as this build can tell: by the oracle, or without
/// the originals by the loader and the lines' beginnings.
pub fn holds(vector: &Vector) -> bool {
    #[cfg(originals)]
    let holds = oracle::answer_bytes(&vector.index, oracle::Options::default()) == vector.answer;
    #[cfg(not(originals))]
    let holds = loads_as_answered(vector);
    holds
}

/// A refused file has its refusal as answer, an accepted one a line for each question, beginning with
/// the question's kind, module and number.
pub fn loads_as_answered(vector: &Vector) -> bool {
    let answer = String::from_utf8_lossy(&vector.answer);
    match load(&vector.index) {
        Ok(index) => {
            let leads_right = |(line, question): (&str, &Question)| {
                let (kind, module, number) = question.lead();
                line.starts_with(&format!("{kind}\t{module}\t{number}\t"))
            };
            answer.lines().count() == index.questions.len()
                && answer.lines().zip(&index.questions).all(leads_right)
        }
        Err(refusal) => answer == format!("{}\n", refusal.answer_line()),
    }
}

/// The coverage file of these vectors.
pub fn coverage_file(vectors: &[Vector]) -> NamedFile {
    let table = coverage::table(vectors);
    (COVERAGE.to_string(), table.into_bytes())
}

/// The vectors in files of limited length, `NAME-1.txt` and so on.
pub fn files(name: &str, vectors: &[Vector]) -> Vec<NamedFile> {
    let mut files: Vec<Vec<u8>> = vec![Vec::new()];
    for vector in vectors {
        let mut bytes = Vec::new();
        vector.write(&mut bytes);
        let last = files.last_mut().expect("there is one");
        if last.len() + bytes.len() > FILE_BYTES {
            files.push(bytes);
        } else {
            last.extend_from_slice(&bytes);
        }
    }
    let numbered = (1..).zip(files);
    numbered
        .map(|(number, bytes)| (format!("{name}-{number}.txt"), bytes))
        .collect()
}

#[cfg(originals)]
pub use made::make;

#[cfg(originals)]
mod made {
    use std::path::Path;

    use index_file::compared::misled_children;
    use index_file::load::load;
    use index_file::vectors::Vector;
    use oracle::{Options, answer_bytes};

    use super::{NamedFile, coverage_file, files};
    use crate::corpus;
    use crate::generate::{self, Fixed, Kind, malformed};

    const RECORDS: usize = 160;
    const PROGRAMS: usize = 100;
    const DAMAGED: usize = 150;
    const AT: usize = 60;
    const AT_DAMAGED: usize = 30;
    /// Random files are at most this long: the vectors are many, not large.
    const RANDOM_BYTES: usize = 9_000;

    /// All files of the vector folder but its README, with the corpus below `programs`.
    pub fn make(programs: &Path) -> Result<Vec<NamedFile>, String> {
        let mut accepted = Vec::new();
        for program in corpus::programs(programs)? {
            let (index, answer) = program.make()?;
            accepted.push(Vector {
                name: format!("program-{}", program.name),
                index,
                answer,
            });
        }
        let (fixed, refused) = fixed_vectors(Kind::Edges, malformed::files());
        accepted.extend(fixed);
        accepted.extend(random("records", Kind::Records, RECORDS, true));
        accepted.extend(random("programs", Kind::Programs, PROGRAMS, true));
        let mut malformed = refused;
        malformed.extend(random("damaged", Kind::Damaged, DAMAGED, false));
        // Those of `at` behind the others, which stay in their places.
        let (fixed, refused) = fixed_vectors(Kind::At, malformed::files_of_at());
        accepted.extend(fixed);
        accepted.extend(random("at", Kind::At, AT, true));
        malformed.extend(refused);
        malformed.extend(random("at", Kind::At, AT_DAMAGED, false));

        let mut made = files("accepted", &accepted);
        made.extend(files("malformed", &malformed));
        accepted.extend(malformed);
        made.push(coverage_file(&accepted));
        Ok(made)
    }

    /// The fixed files that are accepted, and those that are refused; with them the files with one
    /// wrong line.
    fn fixed_vectors(kind: Kind, wrong: Vec<Fixed>) -> (Vec<Vector>, Vec<Vector>) {
        let fixed = generate::fixed_files(kind);
        let vector = |file: Fixed| vector(&file.name, file.text.into_bytes());
        let all = fixed.into_iter().chain(wrong);
        let (accepted, refused): (Vec<Vector>, Vec<Vector>) = all
            .filter_map(vector)
            .partition(|vector| load(&vector.index).is_ok());
        // A changed line that is right all the same is no fault.
        let kept = accepted
            .into_iter()
            .filter(|v| !v.name.starts_with("wrong-"));
        (kept.collect(), refused)
    }

    /// The first `count` random files, by seed, that are accepted or refused as wanted.
    fn random(name: &str, kind: Kind, count: usize, accepted: bool) -> Vec<Vector> {
        let files = (0..).map(|seed| (seed, generate::file(kind, seed)));
        let fitting = files
            .filter(|(_, bytes)| bytes.len() <= RANDOM_BYTES && load(bytes).is_ok() == accepted);
        let vectors = fitting.filter_map(|(seed, bytes)| vector(&format!("{name}-{seed}"), bytes));
        vectors.take(count).collect()
    }

    /// None if the oracle gives a question up. A file outside the compared set is answered by its
    /// records' fields, and its name says so.
    fn vector(name: &str, index: Vec<u8>) -> Option<Vector> {
        let answer = answer_bytes(&index, Options::default());
        let given_up = answer.windows(8).any(|bytes| bytes == b"\tbudget\n");
        let outside = load(&index).is_ok_and(|index| !misled_children(&index).is_empty());
        let name = match outside {
            true => format!("fields-{name}"),
            false => name.to_string(),
        };
        (!given_up).then_some(Vector {
            name,
            index,
            answer,
        })
    }
}
