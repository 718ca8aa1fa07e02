//! `typetool check-index`.

use std::io::Read;

use typetool::check_index::{self, Run, distribution};

use super::arguments::{Arguments, number, print};
use super::{CommandResult, End};

pub fn run(arguments: &mut Arguments) -> CommandResult {
    let keep = arguments.value("--keep")?;
    let words = arguments.words()?;
    let words: Vec<&str> = words.iter().map(String::as_str).collect();
    match words[..] {
        ["run", program, count, seed] => {
            let run = Run {
                program: program.to_string(),
                count: number(count)?,
                seed: number(seed)?,
                keep: keep.unwrap_or("target/check-index".to_string()).into(),
            };
            Ok(if run.run()? { End::Well } else { End::Differs })
        }
        ["count", count, seed] => {
            println!("{}", distribution(number(count)?, number(seed)?));
            Ok(End::Well)
        }
        ["line"] => {
            let mut bytes = Vec::new();
            let read = std::io::stdin().read_to_end(&mut bytes);
            read.map_err(|error| format!("standard input: {error}"))?;
            print(format!("{}\n", check_index::line(&bytes)).as_bytes())?;
            Ok(End::Well)
        }
        _ => Err(arguments.wrong()),
    }
}
