//! `typetool oracle`.

use std::io::Read;

use index_file::compared::{calls_without_callee, misled_children};
use index_file::load::load;
use index_file::records::{Index, Question};
use oracle::{Options, Oracle};

use super::arguments::{Arguments, print};
use super::{CommandResult, End};

pub fn run(arguments: &mut Arguments) -> CommandResult {
    let mut options = Options {
        memo: arguments.flag("--memo"),
        real_spans: arguments.flag("--real-spans"),
        ..Options::default()
    };
    if let Some(budget) = arguments.number("--budget")? {
        options.budget = budget;
    }
    let mark = arguments.flag("--mark");
    let steps = arguments.flag("--steps");
    let question = arguments.number("--question")?;
    let bytes = input(&arguments.words()?)?;
    let index = match load(&bytes) {
        Ok(index) => index,
        Err(refusal) => {
            print(format!("{}\n", refusal.answer_line()).as_bytes())?;
            return Ok(End::Well);
        }
    };
    if mark {
        report_outside(&index);
    }
    let Some(questions) = chosen(&index, question) else {
        print(b"refused\t5\t0\n")?;
        return Ok(End::Well);
    };
    let oracle = Oracle::new(&index, options);
    for question in questions {
        let answer = oracle.answer(question);
        print(format!("{}\n", answer.line()).as_bytes())?;
        if steps {
            let (steps, open) = (answer.steps, answer.most_open);
            eprintln!("{steps} demands, {open} open at once");
        }
    }
    Ok(End::Well)
}

/// The file that is named, or standard input.
fn input(words: &[String]) -> Result<Vec<u8>, String> {
    match words {
        [] => {
            let mut bytes = Vec::new();
            let read = std::io::stdin().read_to_end(&mut bytes);
            read.map_err(|error| format!("standard input: {error}"))?;
            Ok(bytes)
        }
        [path] => std::fs::read(path).map_err(|error| format!("{path}: {error}")),
        _ => Err("one file at a time; see `typetool oracle --help`".to_string()),
    }
}

/// All questions or the one that is asked for; none if the file lacks it.
fn chosen(index: &Index, question: Option<u64>) -> Option<&[Question]> {
    match question {
        None => Some(&index.questions),
        Some(number) => {
            let number = usize::try_from(number).ok()?;
            index.questions.get(number).map(std::slice::from_ref)
        }
    }
}

fn report_outside(index: &Index) {
    for misled in misled_children(index) {
        eprintln!(
            "not compared: in module {}, the span of expression {}'s child {} leads to another \
             expression",
            misled.module, misled.expression, misled.child
        );
    }
    for (module, expression) in calls_without_callee(index) {
        eprintln!(
            "not compared if it calls `assert`: expression {expression} of module {module}, whose \
             callee is missing"
        );
    }
}
