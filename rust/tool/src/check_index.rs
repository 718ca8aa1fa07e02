//! Runs `check_index`, a program that loads the index file on its standard input and prints one line,
//! against the loader of `index_file`.

use std::io::Write;
use std::path::{Path, PathBuf};
use std::process::{Command, Stdio};

use index_file::load::load;
use index_file::records::Index;
use index_file::words::item_count;

use crate::generate::faults::{Part, parts};
use crate::tally::Progress;

/// The line that the program owes for a file, without its LF: `accepted` and the number of modules,
/// scopes, type expressions, definitions, expressions, questions and items, or `refused`, the
/// refusal's number and its line.
pub fn line(bytes: &[u8]) -> String {
    match load(bytes) {
        Ok(index) => {
            let counts = counts(&index).map(|count| count.to_string());
            format!("accepted\t{}", counts.join("\t"))
        }
        Err(refusal) => refusal.answer_line(),
    }
}

fn counts(index: &Index) -> [usize; 7] {
    let modules = &index.modules;
    [
        modules.len(),
        modules.iter().map(|module| module.scopes.len()).sum(),
        modules.iter().map(|module| module.types.len()).sum(),
        modules.iter().map(|module| module.definitions.len()).sum(),
        modules.iter().map(|module| module.expressions.len()).sum(),
        index.questions.len(),
        item_count(index),
    ]
}

/// What the program prints, and how it ends where it doesn't end well.
pub fn ask(program: &str, bytes: &[u8]) -> Result<String, String> {
    let fault = |error: std::io::Error| format!("{program}: {error}");
    let mut child = Command::new(program)
        .stdin(Stdio::piped())
        .stdout(Stdio::piped())
        .stderr(Stdio::null())
        .spawn()
        .map_err(fault)?;
    // The program reads before it writes, and may stop reading early.
    let mut stdin = child.stdin.take().expect("piped");
    let _ = stdin.write_all(bytes);
    drop(stdin);
    let output = child.wait_with_output().map_err(fault)?;
    let mut text = String::from_utf8_lossy(&output.stdout).into_owned();
    if !output.status.success() {
        text.push_str(&format!("({})", output.status));
    }
    Ok(text)
}

/// Files by verdict.
#[derive(Default)]
struct Verdicts {
    files: u64,
    accepted: u64,
    /// Refusals 2 to 5.
    refused: [u64; 4],
    differences: u64,
}

impl Verdicts {
    fn add(&mut self, line: &str) {
        self.files += 1;
        let number = line.strip_prefix("refused\t");
        match number.and_then(|rest| rest.split('\t').next()?.parse::<usize>().ok()) {
            Some(number) => self.refused[number - 2] += 1,
            None => self.accepted += 1,
        }
    }

    fn report(&self, name: &str) -> String {
        let [two, three, four, five] = self.refused;
        format!(
            "{} {name}: {} accepted, refused by 2: {two}, 3: {three}, 4: {four}, 5: {five}; \
             {} differences",
            self.files, self.accepted, self.differences
        )
    }
}

pub struct Run {
    pub program: String,
    pub count: u64,
    pub seed: u64,
    /// Where differing files are written.
    pub keep: PathBuf,
}

impl Run {
    /// True if the program prints the loader's line for every file.
    pub fn run(&self) -> Result<bool, String> {
        let mut differences = 0;
        let mut number = 0;
        for part in parts(self.count, self.seed) {
            differences += self.run_part(part, &mut number)?;
        }
        Ok(differences == 0)
    }

    /// The number of differences; `number` counts the files of all parts.
    fn run_part(&self, part: Part, number: &mut u64) -> Result<u64, String> {
        let mut verdicts = Verdicts::default();
        let mut progress = Progress::new();
        for bytes in part.files.take(part.count as usize) {
            let expected = line(&bytes);
            verdicts.add(&expected);
            let given = ask(&self.program, &bytes)?;
            if given != format!("{expected}\n") {
                verdicts.differences += 1;
                let path = self.keep.join(format!("{}-{number}.idx", self.seed));
                keep(&path, &bytes)?;
                println!("{}: {given:?} instead of {expected:?}", path.display());
            }
            *number += 1;
            progress.say(|| verdicts.report(part.name));
        }
        println!("{}", verdicts.report(part.name));
        Ok(verdicts.differences)
    }
}

/// The verdicts of the files without a program, a line for each part.
pub fn distribution(count: u64, seed: u64) -> String {
    let reports = parts(count, seed).map(|part| {
        let mut verdicts = Verdicts::default();
        for bytes in part.files.take(part.count as usize) {
            verdicts.add(&line(&bytes));
        }
        verdicts.report(part.name)
    });
    reports.join("\n")
}

fn keep(path: &Path, bytes: &[u8]) -> Result<(), String> {
    let fault = |error: std::io::Error| format!("{}: {error}", path.display());
    let folder = path.parent().expect("a folder and a name");
    std::fs::create_dir_all(folder).map_err(fault)?;
    std::fs::write(path, bytes).map_err(fault)
}
