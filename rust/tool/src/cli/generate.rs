//! `typetool gen`.

use typetool::generate::{self, Kind, Random, programs};

use super::arguments::{Arguments, number, print};
use super::{CommandResult, End};

pub fn run(arguments: &mut Arguments) -> CommandResult {
    let words = arguments.words()?;
    let words: Vec<&str> = words.iter().map(String::as_str).collect();
    match words[..] {
        ["source", seed] => {
            for module in programs::modules(&mut Random::new(number(seed)?)) {
                print(format!("// {}.cm\n{}\n", module.name, module.text).as_bytes())?;
            }
        }
        ["fixed"] => {
            for file in generate::all_fixed_files() {
                print(format!("{}\n", file.name).as_bytes())?;
            }
        }
        ["fixed", name] => {
            let files = generate::all_fixed_files();
            let file = files.iter().find(|file| file.name == name);
            let file = file.ok_or_else(|| format!("no fixed file is named {name:?}"))?;
            print(file.text.as_bytes())?;
        }
        [kind, seed] => {
            let kind = Kind::parse(kind)?;
            print(&generate::file(kind, number(seed)?))?;
        }
        _ => return Err(arguments.wrong()),
    }
    Ok(End::Well)
}
