//! `typetool self-check`.

use typetool::self_check;

use super::arguments::{Arguments, number};
use super::{CommandResult, End};

pub fn run(arguments: &mut Arguments) -> CommandResult {
    let [count, seed] = arguments.exactly()?;
    match self_check::run(number(&count)?, number(&seed)?) {
        Ok(report) => {
            eprintln!("{report}");
            Ok(End::Well)
        }
        Err(difference) => {
            println!("{difference}");
            Ok(End::Differs)
        }
    }
}
