//! The crate says again what `include/roognaps.h` says: lengths, the names, numbers and meanings of
//! refusals, and how a result is read. tools/robust/header.c prints what the header says; here it is
//! compiled, run, and held against the crate.

use std::fmt::{Debug, Write};
use std::path::Path;
use std::process::Command;

use roognaps::Refusal;
use roognaps::raw::{
    ANSWER_BYTES, LineAnswer, LineResult, LinesAnswer, LinesResult, LoadResult, Loaded, PLACES,
    QUESTIONS, RECORD_WORDS, TYPE_WORDS,
};

/// What a command prints; it must end well.
fn printed(command: &mut Command) -> String {
    let done = command.output().expect("it starts");
    let said = String::from_utf8_lossy(&done.stderr);
    assert!(done.status.success(), "{command:?}: {said}");
    String::from_utf8(done.stdout).expect("text")
}

/// What the header says, and what it says of these results.
fn said_by_the_header(results: &[Read]) -> String {
    let repository = Path::new(env!("CARGO_MANIFEST_DIR")).join("../..");
    let program = Path::new(env!("CARGO_TARGET_TMPDIR")).join("header");
    let mut compiler = Command::new("cc");
    compiler.args(["-std=c11", "-Wall", "-Wextra", "-Werror", "-pedantic", "-I"]);
    compiler.arg(repository.join("include"));
    compiler.arg(repository.join("tools/robust/header.c"));
    printed(compiler.arg("-o").arg(&program));
    let words = results
        .iter()
        .flat_map(|result| [result.function.to_string(), format!("{:x}", result.bits)]);
    printed(Command::new(program).args(words))
}

/// The name of an enum's variant as a constant of C has it.
fn constant(variant: impl Debug) -> String {
    let text = format!("{variant:?}");
    let mut name = String::new();
    for letter in text.chars().take_while(char::is_ascii_alphabetic) {
        if letter.is_ascii_uppercase() && !name.is_empty() {
            name.push('_');
        }
        name.push(letter.to_ascii_uppercase());
    }
    name
}

fn refusals() -> String {
    let mut said = String::new();
    for number in 0..16 {
        for line in 0..2 {
            let refusal = Refusal::from_number(number, line);
            let name = refusal.map_or("-".to_string(), constant);
            let meaning = refusal.map_or("there is no refusal of this number", Refusal::meaning);
            writeln!(said, "refusal {number} {name} {line} {meaning}").expect("a string");
        }
    }
    said
}

/// A result, and how the crate reads it, with 0 for what its kind doesn't have.
struct Read {
    function: &'static str,
    bits: u64,
    said: String,
}

/// The number and the line of a file's refusal.
fn number_and_line(refusal: Refusal) -> (u32, u32) {
    (refusal.number(), refusal.line().unwrap_or(0))
}

fn load(bits: u64) -> Read {
    let read = LoadResult { bits }.read().expect("a result of load");
    let (number, line) = match read {
        Loaded::Accepted => (0, 0),
        Loaded::Refused(refusal) => number_and_line(refusal),
    };
    Read {
        function: "load",
        bits,
        said: format!("{} {number} {line}", constant(read)),
    }
}

fn answer(bits: u64) -> Read {
    let read = LineResult { bits }.read().expect("a result of answer");
    let (bytes, (number, line)) = match read {
        LineAnswer::Line { bytes } => (bytes, (0, 0)),
        LineAnswer::Refused { refusal, bytes } => (bytes, (refusal.number(), 0)),
        LineAnswer::PastLast => (0, (0, 0)),
        LineAnswer::FileRefused(refusal) => (0, number_and_line(refusal)),
    };
    Read {
        function: "answer",
        bits,
        said: format!("{} {bytes} {number} {line}", constant(read)),
    }
}

fn answer_from(bits: u64) -> Read {
    let read = LinesResult { bits }
        .read()
        .expect("a result of answer_from");
    let (bytes, (question, next), (number, line)) = match read {
        LinesAnswer::End { bytes } => (bytes, (0, 0), (0, 0)),
        LinesAnswer::More {
            question,
            line,
            bytes,
        } => (bytes, (question, line), (0, 0)),
        LinesAnswer::FileRefused(refusal) => (0, (0, 0), number_and_line(refusal)),
    };
    Read {
        function: "answer_from",
        bits,
        said: format!(
            "{} {bytes} {question} {next} {number} {line}",
            constant(read)
        ),
    }
}

/// Numbers of kinds that there aren't: the crate reads none, the header no kind and 0.
fn no_results() -> Vec<Read> {
    let mut read = Vec::new();
    for bits in [0x0002, 0x0004, 0x0100, 0xffff].map(|kind| (kind << 48) + 0x0004_0001_0007) {
        assert!(LoadResult { bits }.read().is_err(), "{bits:#x}");
        assert!(LineResult { bits }.read().is_err(), "{bits:#x}");
        assert!(LinesResult { bits }.read().is_err(), "{bits:#x}");
        let mut none = |function, said: &str| {
            let said = said.to_string();
            read.push(Read {
                function,
                bits,
                said,
            });
        };
        none("load", "- 0 0");
        none("answer_from", "- 0 0 0 0 0");
        if bits >> 48 != 2 {
            none("answer", "- 0 0 0");
        }
    }
    read
}

/// Results of every kind.
fn results() -> Vec<Read> {
    let loads = [0, 0x0003_0001_0000_0000, 0x0003_0004_0001_0007];
    let answers = [
        0x0000_0000_0000_0001,
        0x0000_0000_0000_1040,
        0x0001_0006_0000_0000,
        0x0001_000a_0000_0009,
        0x0002_0000_0000_0000,
        0x0003_0002_0000_0001,
        0x0003_0003_0001_0001,
    ];
    let answers_from = [
        0x0000_0000_0000_0000,
        0x0000_0000_0000_1040,
        0x0001_0000_0001_0015,
        0x0001_00ff_fffe_1040,
        0x0003_0005_0001_0007,
    ];
    let one = loads.map(load).into_iter().chain(answers.map(answer));
    one.chain(answers_from.map(answer_from)).collect()
}

#[test]
fn header_and_crate_agree() {
    let mut results = results();
    results.extend(no_results());
    let mut owed = format!(
        "lengths {RECORD_WORDS} {TYPE_WORDS} {PLACES} {ANSWER_BYTES} {QUESTIONS}\n{}",
        refusals()
    );
    for Read { function, said, .. } in &results {
        writeln!(owed, "{function} {said}").expect("a string");
    }
    assert_eq!(said_by_the_header(&results), owed);
}
