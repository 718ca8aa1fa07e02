//! `typetool vectors`.

use std::path::Path;
use std::time::Duration;

use typetool::program::Program;
use typetool::tally::Progress;
use typetool::vectors;

use super::arguments::{Arguments, print};
use super::{CommandResult, End};

pub fn run(arguments: &mut Arguments) -> CommandResult {
    let timeout = arguments.number("--timeout")?.unwrap_or(20);
    let words = arguments.words()?;
    let words: Vec<&str> = words.iter().map(String::as_str).collect();
    match words[..] {
        ["run", folder, program] => run_program(Path::new(folder), program, timeout),
        ["check", folder] => check(Path::new(folder)),
        ["make", folder, programs] => make(Path::new(folder), Path::new(programs)),
        ["remake", folder, programs] => remake(Path::new(folder), Path::new(programs)),
        ["list", ref files @ ..] if !files.is_empty() => list(files),
        ["show", file, name, part] => show(file, name, part),
        _ => Err(arguments.wrong()),
    }
}

fn check(folder: &Path) -> CommandResult {
    let all = vectors::read_all(folder)?;
    for vector in &all {
        if !vectors::holds(vector) {
            println!("{} differs", vector.name);
            return Ok(End::Differs);
        }
    }
    let (name, table) = vectors::coverage_file(&all);
    if std::fs::read(folder.join(&name)).ok() != Some(table) {
        println!("{name} isn't the coverage of these vectors");
        return Ok(End::Differs);
    }
    println!("{} vectors hold", all.len());
    Ok(End::Well)
}

/// Asks a program each vector's index and compares its lines with the vector's.
fn run_program(folder: &Path, program: &str, timeout: u64) -> CommandResult {
    let program = Program {
        path: program.to_string(),
        timeout: Duration::from_secs(timeout),
    };
    let all = vectors::read_all(folder)?;
    let mut progress = Progress::new();
    let mut different = 0;
    for (number, vector) in all.iter().enumerate() {
        let expected = String::from_utf8_lossy(&vector.answer);
        if !program.ask(&vector.index)?.iter().eq(expected.lines()) {
            println!("{} differs", vector.name);
            different += 1;
        }
        progress.say(|| format!("{} of {} vectors", number + 1, all.len()));
    }
    println!("{} of {} vectors equal", all.len() - different, all.len());
    Ok(match different {
        0 => End::Well,
        _ => End::Differs,
    })
}

fn list(files: &[&str]) -> CommandResult {
    for file in files {
        for vector in vectors::read(Path::new(file))? {
            let (index, answer) = (vector.index.len(), vector.answer.len());
            print(format!("{}\t{index}\t{answer}\n", vector.name).as_bytes())?;
        }
    }
    Ok(End::Well)
}

fn show(file: &str, name: &str, part: &str) -> CommandResult {
    let all = vectors::read(Path::new(file))?;
    let found = all.iter().find(|vector| vector.name == name);
    let vector = found.ok_or_else(|| format!("{file}: no vector is named {name:?}"))?;
    match part {
        "index" => print(&vector.index)?,
        "answer" => print(&vector.answer)?,
        _ => return Err(format!("{part:?} is neither `index` nor `answer`")),
    }
    Ok(End::Well)
}

/// Writes what is made, after the old vector files are gone.
#[cfg(originals)]
fn make(folder: &Path, programs: &Path) -> CommandResult {
    let fault = |error: std::io::Error| format!("{}: {error}", folder.display());
    let made = vectors::make(programs)?;
    std::fs::create_dir_all(folder).map_err(fault)?;
    for path in vectors::paths(folder)? {
        std::fs::remove_file(path).map_err(fault)?;
    }
    for (name, bytes) in made {
        std::fs::write(folder.join(&name), &bytes).map_err(fault)?;
        println!("{name}: {} bytes", bytes.len());
    }
    Ok(End::Well)
}

#[cfg(originals)]
fn remake(folder: &Path, programs: &Path) -> CommandResult {
    let made = vectors::make(programs)?;
    for (name, bytes) in &made {
        if std::fs::read(folder.join(name)).ok().as_ref() != Some(bytes) {
            println!("{name} isn't what is made today");
            return Ok(End::Differs);
        }
    }
    // The coverage file is no file of vectors.
    let there = vectors::paths(folder)?.len();
    if there + 1 != made.len() {
        println!("{there} vector files, but {} are made", made.len() - 1);
        return Ok(End::Differs);
    }
    println!("all {} files are the same byte for byte", made.len());
    Ok(End::Well)
}

#[cfg(not(originals))]
fn make(_: &Path, _: &Path) -> CommandResult {
    typetool::originals::needed_for("vectors make")?;
    Ok(End::Well)
}

#[cfg(not(originals))]
fn remake(_: &Path, _: &Path) -> CommandResult {
    typetool::originals::needed_for("vectors remake")?;
    Ok(End::Well)
}
