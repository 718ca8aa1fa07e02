//! What a run has seen so far.

use std::time::{Duration, Instant};

#[derive(Debug, Default)]
pub struct Tally {
    pub files: u64,
    pub refused_files: u64,
    /// Files outside the set that document 01 compares.
    pub outside: u64,
    /// Files with a question that takes too long to resolve.
    pub given_up: u64,
    pub types: u64,
    /// Answers of `at` where no expression is.
    pub nones: u64,
    /// Refusals 6 to 10.
    pub refusals: [u64; 5],
}

impl Tally {
    /// Adds a file by its answer lines.
    pub fn add(&mut self, lines: &[String]) {
        self.files += 1;
        for line in lines {
            let fields: Vec<&str> = line.split('\t').collect();
            match fields[..] {
                ["refused", _, _] => self.refused_files += 1,
                [_, _, _, "type", _] => self.types += 1,
                [_, _, _, "none"] => self.nones += 1,
                [_, _, _, "refused", number] => {
                    let number: usize = number.parse().expect("a refusal's number");
                    self.refusals[number - 6] += 1;
                }
                _ => unreachable!("{line:?} is no answer line"),
            }
        }
    }

    pub fn report(&self) -> String {
        let questions = self.types + self.nones + self.refusals.iter().sum::<u64>();
        let nones = match self.nones {
            0 => String::new(),
            nones => format!("{nones} none; "),
        };
        let refusals = (6..).zip(self.refusals);
        let refusals: Vec<String> = refusals.map(|(n, c)| format!("{n}: {c}")).collect();
        format!(
            "{} files equal ({} refused, {} outside the set that the Rust is compared on); \
             {questions} questions ({} types; {nones}refusals {}); {} files passed over as too long to \
             resolve",
            self.files,
            self.refused_files,
            self.outside,
            self.types,
            refusals.join(", "),
            self.given_up,
        )
    }
}

/// Says now and then how far a long run has come.
pub struct Progress(Instant);

impl Progress {
    pub fn new() -> Self {
        Self(Instant::now())
    }

    pub fn say(&mut self, report: impl FnOnce() -> String) {
        if self.0.elapsed() > Duration::from_secs(5) {
            eprintln!("{}", report());
            self.0 = Instant::now();
        }
    }
}

impl Default for Progress {
    fn default() -> Self {
        Self::new()
    }
}
