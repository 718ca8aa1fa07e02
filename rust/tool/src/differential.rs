//! Runs a program against the oracle on generated files.

use std::path::{Path, PathBuf};
use std::time::{Duration, Instant};

use index_file::compared::misled_children;
use index_file::load::load;
use oracle::{Options, gives_up, resolve};

use crate::generate::{self, Kind, Random};
use crate::program::Program;
use crate::reduce::reduce;
use crate::tally::{Progress, Tally};

pub struct Run {
    pub program: Program,
    pub kind: Kind,
    pub count: u64,
    pub seed: u64,
    /// Where a differing file is written, whole and reduced.
    pub keep: Option<PathBuf>,
}

/// Making a differing file smaller ends after this time.
const REDUCING: Duration = Duration::from_secs(60);

impl Run {
    /// True if all files give equal lines.
    pub fn run(&self) -> Result<bool, String> {
        let started = Instant::now();
        let mut tally = Tally::default();
        let mut progress = Progress::new();
        for (name, bytes) in self.files() {
            let expected = resolve(&bytes, Options::default());
            if gives_up(&expected) {
                tally.given_up += 1;
                continue;
            }
            // The program answers these by the record's field alone, as the oracle does here; the
            // Rust with its spans would not.
            if load(&bytes).is_ok_and(|index| !misled_children(&index).is_empty()) {
                tally.outside += 1;
            }
            if self.program.ask(&bytes)? != expected {
                eprintln!("{name} differs; reducing");
                self.report_difference(&bytes)?;
                eprintln!("before it: {}", tally.report());
                return Ok(false);
            }
            tally.add(&expected);
            progress.say(|| tally.report());
        }
        let seconds = started.elapsed().as_secs();
        eprintln!("{}; {seconds} s", tally.report());
        Ok(true)
    }

    /// The fixed files of the kind, then as many random ones as asked for.
    fn files(&self) -> impl Iterator<Item = (String, Vec<u8>)> {
        let fixed = generate::fixed_files(self.kind).into_iter();
        let fixed = fixed.map(|file| (file.name, file.text.into_bytes()));
        let mut seeds = Random::new(self.seed);
        let kind = self.kind;
        let random = (0..self.count).map(move |_| {
            let seed = seeds.number();
            (format!("{kind:?} {seed}"), generate::file(kind, seed))
        });
        fixed.chain(random)
    }

    fn report_difference(&self, bytes: &[u8]) -> Result<(), String> {
        let started = Instant::now();
        let mut differs = |bytes: &[u8]| {
            if started.elapsed() > REDUCING {
                return false;
            }
            let expected = resolve(bytes, Options::default());
            !gives_up(&expected) && self.program.ask(bytes).is_ok_and(|given| given != expected)
        };
        let reduced = reduce(bytes, &mut differs);
        println!("{}", String::from_utf8_lossy(&reduced));
        println!("--- the oracle's lines");
        for line in resolve(&reduced, Options::default()) {
            println!("{line}");
        }
        println!("--- the program's lines");
        for line in self.program.ask(&reduced)? {
            println!("{line}");
        }
        match &self.keep {
            Some(folder) => keep(folder, bytes, &reduced),
            None => Ok(()),
        }
    }
}

fn keep(folder: &Path, whole: &[u8], reduced: &[u8]) -> Result<(), String> {
    let fault = |error: std::io::Error| format!("{}: {error}", folder.display());
    std::fs::create_dir_all(folder).map_err(fault)?;
    std::fs::write(folder.join("whole.idx"), whole).map_err(fault)?;
    std::fs::write(folder.join("reduced.idx"), reduced).map_err(fault)
}
