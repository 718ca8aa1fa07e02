//! Compares what the proved `load` does with the Rust loader, in one process, on right files and on
//! files with faults: its verdict, the words behind the buffer and the zeros of a refusal in a buffer
//! that isn't clear, and every record word of an accepted file in a cleared one.

use std::path::Path;

use index_file::load::{Refusal, load};
use index_file::words::{WORDS, with_plain_empty_lists, words};
use roognaps::raw::{self, Loaded};
use typetool::generate::faults::{Part, parts};

use crate::library;

/// Words behind the record buffer, which stay.
const BEHIND: usize = 16;

/// One file of so many is also loaded into too short a buffer.
const SHORT: u64 = 64;

/// True if no file differs; differing ones are written to the folder.
pub fn run(count: u64, seed: u64, compare_words: bool, folder: &str) -> Result<bool, String> {
    let mut differences = 0;
    for (first, part) in [0, count].into_iter().zip(parts(count, seed)) {
        let path = |number: u64| format!("{folder}/{seed}-{}.idx", first + number);
        differences += run_part(part, compare_words, path)?;
    }
    Ok(differences == 0)
}

/// The number of differences; a differing file is written to the path of its number.
fn run_part(part: Part, compare_words: bool, path: impl Fn(u64) -> String) -> Result<u64, String> {
    let Part { name, count, files } = part;
    let mut verdicts = [0u64; 6];
    let mut differences = 0;
    for (number, file) in (0..count).zip(files) {
        let expected = load(&file).map(|index| words(&file, &index));
        let verdict = expected
            .as_ref()
            .map_or_else(|refusal| refusal.number, |_| 0);
        verdicts[verdict as usize] += 1;
        let mut said = difference(&file, expected, compare_words);
        if number % SHORT == 0 {
            said = said.or_else(|| short_difference(&file));
        }
        if let Some(said) = said {
            differences += 1;
            let path = path(number);
            write(&path, &file)?;
            println!("{path}: {said}");
        }
    }
    let [accepted, _, two, three, four, five] = verdicts;
    println!(
        "{count} {name}: {accepted} accepted, refused by 2: {two}, 3: {three}, 4: {four}, 5: {five}; \
         {differences} differences"
    );
    Ok(differences)
}

fn write(path: &str, file: &[u8]) -> Result<(), String> {
    let fault = |error: std::io::Error| format!("{path}: {error}");
    if let Some(folder) = Path::new(path).parent() {
        std::fs::create_dir_all(folder).map_err(fault)?;
    }
    std::fs::write(path, file).map_err(fault)
}

/// A buffer with something in every word.
fn filled(length: usize) -> Vec<u32> {
    (0..length as u32).map(|word| !word).collect()
}

fn difference(
    file: &[u8],
    expected: Result<Vec<u32>, Refusal>,
    compare_words: bool,
) -> Option<String> {
    let before = filled(WORDS + BEHIND);
    let mut records = before.clone();
    let given = raw::load(file, &mut records).read();
    let owed = match &expected {
        Ok(_) => Loaded::Accepted,
        Err(refusal) => library::owed(*refusal),
    };
    if given != Ok(owed) {
        return Some(format!("{given:?} instead of {owed:?}"));
    }
    if records[WORDS..] != before[WORDS..] {
        return Some("a word behind the record buffer has changed".to_string());
    }
    if !compare_words {
        return None;
    }
    let (given, owed) = match expected {
        Ok(words) => (
            with_plain_empty_lists(&in_cleared(file)),
            with_plain_empty_lists(&words),
        ),
        Err(_) => (records[..WORDS].to_vec(), vec![0; WORDS]),
    };
    let at = (0..WORDS).find(|at| given[*at] != owed[*at])?;
    Some(format!("word {at} is {}, not {}", given[at], owed[at]))
}

/// What an accepted file leaves in a cleared buffer. (Words that no record uses stay what they were.)
fn in_cleared(file: &[u8]) -> Vec<u32> {
    let mut records = vec![0; WORDS];
    assert!(library::accepts(file, &mut records), "accepted before");
    records
}

fn short_difference(file: &[u8]) -> Option<String> {
    let before = filled(WORDS - 1);
    let mut records = before.clone();
    let given = raw::load(file, &mut records).read();
    let owed = Ok(Loaded::Refused(roognaps::Refusal::ShortBuffer));
    if given != owed {
        return Some(format!("{given:?} for a short buffer"));
    }
    (records != before).then(|| "a short buffer has changed".to_string())
}
