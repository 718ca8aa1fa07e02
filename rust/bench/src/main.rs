//! Times of the proved functions against the Rust: loading, lookups and answering. `run.sh` makes the
//! two static libraries that this links: that of the crate `export`, and that of `lookup_bench`.

#[cfg(originals)]
mod answered_files;
#[cfg(originals)]
mod answering;
mod compare;
#[cfg(originals)]
mod entries;
mod files;
mod hash_maps;
mod library;
mod loading;
mod lookup_library;
mod lookups;
mod timing;

use std::process::ExitCode;

const HELP: &str = "\
usage: bench [OPTION...]
       bench answers [OPTION...]
       bench compare [OPTION...] N SEED

Without a word: compares the words that the proved `load` writes for the measured files with those
that docs/LAYOUT.md sets out, then prints two tables, loading, and lookups on the largest index.
`answers` compares the lines with the original's, and prints two tables, whole files and how the
times grow; it needs the original sources.
`compare` compares the words for N generated files, most of them with faults (those of `typetool
check-index`), and the refusals with the Rust loader's; differing files are written to
target/compare.

  --rounds N     take the median of N rounds (else 25)
  --write DIR    only write the measured files there
  --any-words    don't compare the words

exit status: 0 measured or all equal, 1 a difference, 2 a wrong argument";

fn main() -> ExitCode {
    let mut rounds = 25;
    let mut compare = true;
    let mut words = Vec::new();
    let mut arguments = std::env::args().skip(1);
    let files = files::files();
    while let Some(argument) = arguments.next() {
        let number = |value: Option<String>| value.and_then(|text| text.parse().ok());
        match argument.as_str() {
            "--help" => {
                println!("{HELP}");
                return ExitCode::SUCCESS;
            }
            "--any-words" => compare = false,
            "--rounds" => match number(arguments.next()) {
                Some(count) if count > 0 => rounds = count,
                _ => return wrong("--rounds needs a number"),
            },
            "--write" => match arguments.next() {
                Some(folder) => return write(&folder, &files),
                None => return wrong("--write needs a folder"),
            },
            _ => words.push(argument),
        }
    }
    let words: Vec<&str> = words.iter().map(String::as_str).collect();
    match words[..] {
        [] => measure(&files, rounds, compare),
        ["answers"] => answers(&files, rounds),
        ["compare", count, seed] => match (count.parse(), seed.parse()) {
            (Ok(count), Ok(seed)) => ended(compare::run(count, seed, compare, "target/compare")),
            _ => wrong("`compare` needs two numbers"),
        },
        _ => wrong("these arguments fit no form"),
    }
}

#[cfg(originals)]
fn answers(files: &[files::File], rounds: usize) -> ExitCode {
    let (whole, growing) = (answered_files::whole(files), answered_files::growing());
    let measured = roognaps::on_large_stack(|| {
        answering::whole_files(&whole, rounds)?;
        println!();
        answering::growth(&growing, rounds)
    });
    match measured.unwrap_or_else(|error| Err(error.to_string())) {
        Ok(()) => ExitCode::SUCCESS,
        Err(difference) => {
            println!("{difference}");
            ExitCode::FAILURE
        }
    }
}

#[cfg(not(originals))]
fn answers(_: &[files::File], _: usize) -> ExitCode {
    wrong("`answers` needs the original Cairo-M sources")
}

fn ended(all_equal: Result<bool, String>) -> ExitCode {
    match all_equal {
        Ok(true) => ExitCode::SUCCESS,
        Ok(false) => ExitCode::FAILURE,
        Err(message) => {
            eprintln!("{message}");
            ExitCode::from(2)
        }
    }
}

fn measure(files: &[files::File], rounds: usize, compare: bool) -> ExitCode {
    for file in files {
        if let Err(difference) = loading::compared(file, compare) {
            println!("{difference}");
            return ExitCode::FAILURE;
        }
    }
    loading::table(files, rounds);
    println!();
    let largest = files.iter().max_by_key(|file| file.bytes.len());
    lookups::table(&largest.expect("there are files").bytes, rounds);
    ExitCode::SUCCESS
}

fn wrong(message: &str) -> ExitCode {
    eprintln!("{message}; see `bench --help`");
    ExitCode::from(2)
}

fn write(folder: &str, files: &[files::File]) -> ExitCode {
    for file in files {
        let name = file.name.replace([' ', ','], "");
        let path = format!("{folder}/{name}.idx");
        if let Err(error) = std::fs::write(&path, &file.bytes) {
            eprintln!("{path}: {error}");
            return ExitCode::from(2);
        }
        println!("{path}: {} bytes", file.bytes.len());
    }
    ExitCode::SUCCESS
}
