//! `typetool corpus`.

use std::path::Path;

use index_file::load::load;
use typetool::corpus::{Program, programs};

use super::arguments::Arguments;
use super::{CommandResult, End};

pub fn run(arguments: &mut Arguments) -> CommandResult {
    let words = arguments.words()?;
    let words: Vec<&str> = words.iter().map(String::as_str).collect();
    match words[..] {
        ["check", folder] => check_all(folder),
        ["make", folder] => make_all(folder),
        _ => Err(arguments.wrong()),
    }
}

fn check_all(folder: &str) -> CommandResult {
    let programs = programs(Path::new(folder))?;
    for program in &programs {
        if let Err(difference) = check(program) {
            println!("{}: {difference}", program.name);
            return Ok(End::Differs);
        }
    }
    println!("{} programs checked", programs.len());
    Ok(End::Well)
}

/// The index loads, has an expected line for each question, and is what is made today.
fn check(program: &Program) -> Result<(), String> {
    let (index, expected) = (program.index()?, program.expected()?);
    let loaded = load(&index).map_err(|refusal| refusal.answer_line())?;
    let lines = expected.iter().filter(|byte| **byte == b'\n').count();
    if loaded.questions.len() != lines {
        return Err(format!(
            "{} questions, {lines} lines",
            loaded.questions.len()
        ));
    }
    #[cfg(originals)]
    if program.make()? != (index, expected) {
        return Err("index.idx or expected.txt isn't what is made today".to_string());
    }
    Ok(())
}

#[cfg(originals)]
fn make_all(folder: &str) -> CommandResult {
    let write = |path: std::path::PathBuf, bytes: Vec<u8>| {
        let written = std::fs::write(&path, bytes);
        written.map_err(|error| format!("{}: {error}", path.display()))
    };
    for program in programs(Path::new(folder))? {
        let (index, expected) = program.make()?;
        write(program.index_path(), index)?;
        write(program.expected_path(), expected)?;
        println!("{} written", program.name);
    }
    Ok(End::Well)
}

#[cfg(not(originals))]
fn make_all(_: &str) -> CommandResult {
    typetool::originals::needed_for("corpus make")?;
    Ok(End::Well)
}
