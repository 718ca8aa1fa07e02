//! Generated files through the target: `fuzz N SEED`, without libFuzzer. Every second file is one with
//! faults (those of `typetool check-index`), the others are `typetool gen damaged` and `gen records`;
//! behind them stand an eighth as many about `at`.

use std::process::ExitCode;

use fuzz::{Counts, Target};
use typetool::generate::faults::Faults;
use typetool::generate::{self, Kind};

const HELP: &str = "usage: fuzz N SEED
       fuzz FILE

Runs N generated files and N/8 about `at`, or one file, through the static library and compares
everything; the first difference ends the run. Prints how many files came to which end.";

fn main() -> ExitCode {
    let words: Vec<String> = std::env::args().skip(1).collect();
    let numbers: Vec<u64> = words.iter().filter_map(|word| word.parse().ok()).collect();
    match (&words[..], &numbers[..]) {
        ([_, _], [count, seed]) => generated(*count, *seed),
        ([path], []) if path != "--help" => match std::fs::read(path) {
            Ok(file) => on_large_stack(|| {
                let mut target = Target::default();
                target.one_input(&file);
                println!("{}", target.counts);
            }),
            Err(error) => {
                eprintln!("{path}: {error}");
                return ExitCode::from(2);
            }
        },
        _ => {
            eprintln!("{HELP}");
            return ExitCode::from(2);
        }
    }
    ExitCode::SUCCESS
}

/// The oracle takes more stack than the library.
fn on_large_stack(run: impl FnOnce() + Send) {
    std::thread::scope(|scope| {
        let thread = std::thread::Builder::new().stack_size(512 << 20);
        let thread = thread.spawn_scoped(scope, run).expect("a thread");
        thread.join().expect("no difference");
    });
}

fn generated(count: u64, seed: u64) {
    // Damaged copies of programs need the originals.
    let kinds = match Kind::parse("damaged") {
        Ok(damaged) => [damaged, Kind::Records],
        Err(_) => [Kind::Records; 2],
    };
    on_large_stack(|| {
        let mut target = Target::default();
        let mut faults = Faults::new(seed);
        for number in 0..count {
            let own = seed.wrapping_mul(1_000_003).wrapping_add(number);
            let file = match number % 4 {
                0 | 2 => faults.next().unwrap_or_default(),
                1 => generate::file(kinds[0], own),
                _ => generate::file(kinds[1], own),
            };
            target.one_input(&file);
            if (number + 1) % 100_000 == 0 {
                eprintln!("{}", target.counts);
            }
        }
        println!("{}", target.counts);
        target.counts = Counts::default();
        for file in Faults::about_at(seed).take(count as usize / 8) {
            target.one_input(&file);
        }
        println!("about `at`: {}", target.counts);
    });
}
