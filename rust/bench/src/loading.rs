//! Loading: the proved function, the Rust loader and a plain scan over the same bytes. The record
//! buffer is cleared before each run of each of them.

use std::hint::black_box;

use index_file::load;
use index_file::words::{WORDS, with_plain_empty_lists, words};

use crate::files::File;
use crate::library;
use crate::timing::{Contender, medians};

/// Says what differs unless the proved function accepts the file and, where its words are compared, writes
/// those that docs/LAYOUT.md sets out into a cleared buffer.
pub fn compared(file: &File, compare_words: bool) -> Result<(), String> {
    let index = load::load(&file.bytes).expect("a right file");
    let mut records = vec![0; WORDS];
    if !library::accepts(&file.bytes, &mut records) {
        return Err(format!("{}: not accepted", file.name));
    }
    if !compare_words {
        return Ok(());
    }
    let given = with_plain_empty_lists(&records);
    let owed = with_plain_empty_lists(&words(&file.bytes, &index));
    match (0..WORDS).find(|at| given[*at] != owed[*at]) {
        None => Ok(()),
        Some(at) => Err(format!(
            "{}: word {at} is {}, not {}",
            file.name, given[at], owed[at]
        )),
    }
}

pub fn table(files: &[File], rounds: usize) {
    println!(
        "| file | bytes | proved | Rust | scan | Rust / proved | proved / scan | proved, a byte |"
    );
    println!("|---|---|---|---|---|---|---|---|");
    for file in files {
        let [proved, rust, scan] = times(&file.bytes, rounds);
        println!(
            "| {} | {} | {:.2} us | {:.2} us | {:.2} us | {:.2} | {:.2} | {:.2} ns |",
            file.name,
            file.bytes.len(),
            proved / 1e3,
            rust / 1e3,
            scan / 1e3,
            rust / proved,
            proved / scan,
            proved / file.bytes.len() as f64,
        );
    }
}

/// Clears the buffer, also where nobody reads it afterwards: the compiler can't tell.
fn cleared(records: &mut [u32]) -> &mut [u32] {
    records.fill(0);
    black_box(records)
}

fn times(file: &[u8], rounds: usize) -> [f64; 3] {
    let mut of_proved = vec![0; WORDS];
    let proved = move || {
        let is_accepted = library::accepts(black_box(file), cleared(&mut of_proved));
        assert!(black_box(is_accepted), "accepted before");
    };
    let mut of_rust = vec![0; WORDS];
    let rust = move || {
        cleared(&mut of_rust);
        drop(black_box(load::load(black_box(file))));
    };
    let mut of_scan = vec![0; WORDS];
    let scan = move || {
        cleared(&mut of_scan);
        let mut sum = 0usize;
        for &byte in black_box(file) {
            let ends = byte == b'\t' || byte == b'\n';
            sum = sum.wrapping_mul(31).wrapping_add(ends as usize);
        }
        black_box(sum);
    };
    let contenders: [Contender; 3] = [Box::new(proved), Box::new(rust), Box::new(scan)];
    medians(rounds, contenders)
}
