//! The files whose questions are answered.

use index_file::limits;
use index_file::load::load;
use index_file::records::Question;

use crate::files::File;

pub struct Asked {
    pub name: String,
    pub bytes: Vec<u8>,
    /// Only the first question is asked, by the entry for one question.
    pub first_only: bool,
}

impl Asked {
    fn new(name: &str, lines: String) -> Self {
        Self {
            name: name.to_string(),
            bytes: format!("index 1\nM main\nS - module\n{lines}")
                .replace(' ', "\t")
                .into_bytes(),
            first_only: false,
        }
    }

    pub fn questions(&self) -> usize {
        match self.first_only {
            true => 1,
            false => self.bytes.windows(3).filter(|at| at == b"\nQ\t").count(),
        }
    }
}

const WHOLE_CASE: &str = "S 0 function\nT u32\nD 0 f 3 4 0 30 fn 0 x 0\nD 1 x 5 6 5 11 param 0\n\
    E 1 24 25 - 1 plain - - ident x\nE 1 20 21 - - plain - - lit -\n\
    E 1 20 25 - - plain - - bin + 1 0\nQ expr 0 2 -\nQ expr 0 1 -\n";

/// Whole files, one question of a small one, and deep and long types.
pub fn whole(files: &[File]) -> Vec<Asked> {
    let measured = files.iter().take(3).map(|file| Asked {
        name: format!("{}, random records", file.name),
        bytes: file.bytes.clone(),
        first_only: false,
    });
    let small = Asked {
        first_only: true,
        ..Asked::new("one question of the whole case", WHOLE_CASE.to_string())
    };
    let mut asked: Vec<Asked> = measured.collect();
    asked.extend([
        small,
        Asked::new("the whole case", WHOLE_CASE.to_string()),
        Asked::new("arrays of tuples, 125 each, a text of 4,083", arrays()),
        Asked::new("250 tuples around each other", tuples(250)),
        Asked::new("819 felts, a text of 4,096, 256 times", felts()),
        Asked::new("128 constants", constants(128)),
        Asked::new("a constant asked 1,024 times", doubling(11)),
    ]);
    // The largest index, and as many expressions in one module as there may be.
    asked.extend([
        asked_at("64 KB, random records, `at`", &files[2]),
        asked_at("512 E lines in a module, `at`", &files[3]),
    ]);
    asked
}

/// The records of a file, asked by 256 questions `at`, each for the middle of some expression.
fn asked_at(name: &str, file: &File) -> Asked {
    let mut index = load(&file.bytes).expect("an accepted file");
    let modules = &index.modules;
    let questions = (0..limits::QUESTIONS).map(|number| {
        let module = number * modules.len() / limits::QUESTIONS;
        let expressions = &modules[module].expressions;
        let (start, end) = expressions[37 * number % expressions.len()].span;
        Question::At {
            module,
            position: (start + end) / 2,
        }
    });
    index.questions = questions.collect();
    assert!(
        limits::passed(&index).is_empty(),
        "a file within the limits"
    );
    Asked {
        name: name.to_string(),
        bytes: index.to_text().into_bytes(),
        first_only: false,
    }
}

/// Rows of files of which each asks twice as much as the one before.
pub fn growing() -> Vec<Vec<Asked>> {
    let constants = [16, 32, 64, 128].map(|n| Asked::new(&format!("{n} constants"), constants(n)));
    let tuples = [31, 62, 125, 250].map(|n| {
        let name = format!("{n} tuples around each other");
        Asked::new(&name, tuples(n))
    });
    let questions = [32, 64, 128, 256].map(|n| {
        let asked = "Q expr 0 2 -\n".repeat(n - 2);
        let name = format!("the whole case asked {n} times");
        Asked::new(&name, format!("{WHOLE_CASE}{asked}"))
    });
    [constants, tuples, questions].map(Vec::from).into()
}

fn expression(node: String) -> String {
    format!("E 0 0 9999 - - plain - - {node}\n")
}

/// Arrays of tuples of arrays, 125 of each, over a tuple of felts.
fn arrays() -> String {
    let mut lines = format!("T felt\nT tuple{}\n", " 0".repeat(191));
    for number in 0..124 {
        let array = format!("T array {} 18446744073709551615\n", 2 * number + 1);
        lines.push_str(&format!("{array}T tuple {}\n", 2 * number + 2));
    }
    lines + "Q type 0 249 0\n"
}

fn tuples(count: usize) -> String {
    let nodes = (1..=count).map(|number| expression(format!("tuple {number}")));
    nodes.collect::<String>() + &expression("lit -".to_string()) + "Q expr 0 0 -\n"
}

fn felts() -> String {
    let questions = "Q type 0 1 0\n".repeat(256);
    format!("T felt\nT tuple{}\n{questions}", " 0".repeat(819))
}

/// Constants, each naming the next, the last `true`, asked from the first.
fn constants(count: usize) -> String {
    let mut lines = String::new();
    for number in 0..count {
        lines.push_str(&format!("D 0 c{number} 0 1 0 1 const - {number}\n"));
    }
    for number in 1..count {
        lines.push_str(&format!(
            "E 0 {number} 9999 - {number} plain - - ident c{number}\n"
        ));
    }
    lines + &expression("bool".to_string()) + "Q def 0 0\n"
}

/// Constants, each the next plus the next: each is asked twice as often as the one before.
fn doubling(count: usize) -> String {
    let mut lines = String::new();
    for number in 0..count {
        lines.push_str(&format!("D 0 c{number} 0 1 0 1 const - {}\n", 2 * number));
    }
    for number in 1..count {
        let name = 2 * number - 1;
        lines.push_str(&expression(format!("bin + {name} {name}")));
        lines.push_str(&format!(
            "E 0 {number} 9999 - {number} plain - - ident c{number}\n"
        ));
    }
    lines + &expression("lit -".to_string()) + "Q def 0 0\n"
}
