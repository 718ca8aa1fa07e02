//! `typetool name`.

use export::sources::{SourceError, export_with_places};
use typetool::name_at::Program;

use super::arguments::{Arguments, print};
use super::pointed::{self, Pointed};
use super::{CommandResult, End};

/// An error is one line, whatever the names of the files are.
pub fn run(arguments: &mut Arguments) -> CommandResult {
    run_command(arguments).map_err(pointed::one_line)
}

fn run_command(arguments: &mut Arguments) -> CommandResult {
    let pointed = Pointed::read("name", arguments)?;
    let text = name(&pointed).map_err(|error| pointed::told(&error))?;
    print(text.as_bytes())?;
    Ok(End::Well)
}

/// What is printed. Sources that no index file can hold are refused, as `hover` does.
fn name(pointed: &Pointed) -> Result<String, SourceError> {
    let (index, places) = export_with_places(&pointed.sources)?;
    export::text(&index)?;
    let program = Program {
        sources: &pointed.sources,
        index: &index,
        places: &places,
    };
    let shown = program.shown_at(0, pointed.byte as u64);
    Ok(shown.unwrap_or_else(|| "none\n".to_string()))
}
