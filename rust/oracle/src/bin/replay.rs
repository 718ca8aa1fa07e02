//! `replay FILE...` asks the index of each vector and compares the answer with the vector's. It
//! prints the name of the first vector that differs, or how many were equal. The exit status is 0 if
//! all are equal, 1 if one differs, 2 if a file can't be read.

use std::process::ExitCode;

#[cfg(originals)]
fn main() -> ExitCode {
    let files: Vec<String> = std::env::args().skip(1).collect();
    match oracle::with_large_stack(|| replay(&files)) {
        Ok(Ok(count)) => {
            println!("{count} vectors are equal");
            ExitCode::SUCCESS
        }
        Ok(Err(name)) => {
            println!("{name}");
            ExitCode::FAILURE
        }
        Err(message) => {
            eprintln!("{message}");
            ExitCode::from(2)
        }
    }
}

/// How many vectors there are, or the name of the first that differs.
#[cfg(originals)]
fn replay(files: &[String]) -> Result<Result<usize, String>, String> {
    let mut count = 0;
    for file in files {
        let bytes = std::fs::read(file).map_err(|error| format!("{file}: {error}"))?;
        let vectors =
            index_file::vectors::read(&bytes).map_err(|error| format!("{file}: {error}"))?;
        for vector in vectors {
            let options = oracle::Options::default();
            if oracle::answer_bytes(&vector.index, options) != vector.answer {
                return Ok(Err(vector.name));
            }
            count += 1;
        }
    }
    Ok(Ok(count))
}

#[cfg(not(originals))]
fn main() -> ExitCode {
    eprintln!("replay was built without the originals");
    ExitCode::from(2)
}
