//! Answering: the proved entries against the original's text, each from the bytes of a file to the
//! lines of its questions. The Rust is the second loader, the data of a `SemanticIndex` made from its
//! records, and the original functions on a fresh database for each question (crate `oracle`), with
//! salsa's store of finished results within a question and without.

use std::hint::black_box;

use index_file::load::load;
use oracle::{Options, Oracle, answer_bytes};
use roognaps::Resolver;

use crate::answered_files::Asked;
use crate::entries::{self, Buffers};
use crate::library;
use crate::timing::{Contender, medians};

/// As many demands as a question takes: nothing is given up.
const BUDGET: u64 = u64::MAX;

fn options(memo: bool) -> Options {
    Options {
        memo,
        budget: BUDGET,
        ..Options::default()
    }
}

/// What both sides print is the same; the number of calls.
fn compared(file: &Asked) -> Result<usize, String> {
    let mut buffers = Buffers::new();
    let (lines, calls) = entries::all_lines(&file.bytes, &mut buffers)?;
    for memo in [false, true] {
        if lines != answer_bytes(&file.bytes, options(memo)) {
            return Err(format!("{}: other lines than the Rust's", file.name));
        }
    }
    let first = entries::first_line(&file.bytes, 0, &mut buffers);
    let first = first.map_err(|said| format!("{}: {said}", file.name))?;
    match lines.starts_with(first) {
        true => Ok(calls),
        false => Err(format!("{}: another line for one question", file.name)),
    }
}

pub fn whole_files(files: &[Asked], rounds: usize) -> Result<(), String> {
    println!(
        "| file | bytes | questions | calls | proved | of it loading | by the crate | Rust, no store \
         | Rust, store | no store / proved | store / proved |"
    );
    println!("|---|---|---|---|---|---|---|---|---|---|---|");
    for file in files {
        let calls = compared(file)?;
        let [proved, loading, read, plain, stored] = times(file, rounds);
        println!(
            "| {} | {} | {} | {calls} | {:.1} us | {:.1} us | {:.1} us | {:.1} us | {:.1} us | {:.1} | {:.1} |",
            file.name,
            file.bytes.len(),
            file.questions(),
            proved / 1e3,
            loading * calls as f64 / 1e3,
            read / 1e3,
            plain / 1e3,
            stored / 1e3,
            plain / proved,
            stored / proved,
        );
    }
    Ok(())
}

/// Rows of files of which each is twice the one before.
pub fn growth(rows: &[Vec<Asked>], rounds: usize) -> Result<(), String> {
    println!(
        "| file | proved | times the half | Rust, no store | times the half | Rust, store | times the half |"
    );
    println!("|---|---|---|---|---|---|---|");
    for row in rows {
        let mut half: Option<[f64; 3]> = None;
        for file in row {
            compared(file)?;
            let [proved, _, _, plain, stored] = times(file, rounds);
            let now = [proved, plain, stored];
            let cells = (0..3).map(|at| {
                let grown =
                    half.map_or("-".to_string(), |half| format!("{:.1}", now[at] / half[at]));
                format!(" {:.1} us | {grown} |", now[at] / 1e3)
            });
            println!("| {} |{}", file.name, cells.collect::<String>());
            half = Some(now);
        }
    }
    Ok(())
}

fn times(file: &Asked, rounds: usize) -> [f64; 5] {
    let bytes = &file.bytes[..];
    let mut buffers = Buffers::new();
    let proved = move || {
        if file.first_only {
            let line = entries::first_line(black_box(bytes), 0, &mut buffers);
            black_box(line).expect("answered before");
        } else {
            let lines = entries::all_lines(black_box(bytes), &mut buffers);
            black_box(lines).expect("answered before");
        }
    };
    let mut records = Buffers::new().records;
    let loading = move || {
        let is_accepted = library::accepts(black_box(bytes), &mut records);
        assert!(black_box(is_accepted), "accepted before");
    };
    // The lines read into the crate's types; `on_large_stack` is around all of this.
    let mut resolver = Resolver::new();
    let read = move || {
        if file.first_only {
            black_box(resolver.answer(black_box(bytes), 0)).expect("answered before");
        } else {
            black_box(resolver.answers(black_box(bytes))).expect("answered before");
        }
    };
    let rust = |memo| {
        move || {
            if file.first_only {
                let index = load(black_box(bytes)).expect("accepted before");
                let answer = Oracle::new(&index, options(memo)).answer(&index.questions[0]);
                black_box(answer.line());
            } else {
                black_box(answer_bytes(black_box(bytes), options(memo)));
            }
        }
    };
    let contenders: [Contender; 5] = [
        Box::new(proved),
        Box::new(loading),
        Box::new(read),
        Box::new(rust(false)),
        Box::new(rust(true)),
    ];
    medians(rounds, contenders)
}
