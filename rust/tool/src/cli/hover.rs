//! `typetool hover`.

use super::CommandResult;
use super::arguments::Arguments;

#[cfg(not(feature = "library"))]
pub fn run(_: &mut Arguments) -> CommandResult {
    Err(
        "hover: this tool was built without the proved library: `rt lib` in the repository's \
         folder crates/export makes it, then `cargo build --offline --release --features \
         library` in its folder rust"
            .to_string(),
    )
}

#[cfg(feature = "library")]
pub fn run(arguments: &mut Arguments) -> CommandResult {
    with_library::run(arguments)
}

#[cfg(feature = "library")]
mod with_library {
    use export::sources::export_sources;
    use roognaps::Resolver;
    use roognaps::export::{AskError, Hover, Source};

    use super::super::arguments::{Arguments, print};
    use super::super::pointed::{self, Pointed};
    use super::super::{CommandResult, End};

    /// An error is one line, whatever the names of the files are.
    pub fn run(arguments: &mut Arguments) -> CommandResult {
        run_command(arguments).map_err(pointed::one_line)
    }

    fn run_command(arguments: &mut Arguments) -> CommandResult {
        let pointed = Pointed::read("hover", arguments)?;
        let hover = hover(&pointed).map_err(|error| told(&error))?;
        let text = match hover {
            Some(hover) => for_people(&pointed.sources[0], &hover),
            None => "none\n".to_string(),
        };
        print(text.as_bytes())?;
        Ok(End::Well)
    }

    /// What stands at a place of the first source. It is exported on this thread's stack, which is larger
    /// than that of the library's thread: a source that is nested more deeply than an index file can be is
    /// told by the limit that it passes.
    fn hover(pointed: &Pointed) -> Result<Option<Hover>, AskError> {
        let (index, _) = export_sources(&pointed.sources)?;
        Resolver::new().type_at_index(&index, &pointed.sources, 0, pointed.byte)
    }

    /// Where the expression stands, what its type is, and below it its text.
    fn for_people(source: &Source, hover: &Hover) -> String {
        let (line, column) = source.line_and_column(hover.span.start);
        let (end_line, end_column) = source.line_and_column(hover.span.end);
        let mut text = format!(
            "{}:{line}:{column}-{end_line}:{end_column} (bytes {} to {}): {}\n",
            source.path, hover.span.start, hover.span.end, hover.shown
        );
        for line in hover.text.lines() {
            text.push_str(&format!("    {line}\n"));
        }
        text
    }

    fn told(error: &AskError) -> String {
        match error {
            AskError::Source(error) => pointed::told(error),
            _ => error.to_string(),
        }
    }
}
