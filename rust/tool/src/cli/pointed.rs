//! A place in a file, and the files of the modules beside it: the arguments of `hover` and `name`.

use std::iter::once;

use export::sources::{Source, SourceError};
use typetool::place::{self, Place};

use super::arguments::Arguments;

/// A byte of a source, and the sources beside it.
pub struct Pointed {
    /// At least one; the place is in the first.
    pub sources: Vec<Source>,
    pub byte: usize,
}

impl Pointed {
    /// Reads the files that the arguments of a command name.
    pub fn read(command: &str, arguments: &Arguments) -> Result<Self, String> {
        let words = arguments.words()?;
        let Some((first, others)) = words.split_first() else {
            return Err(format!(
                "no place is named; see `typetool {command} --help`"
            ));
        };
        let (file, place) = place::parse(command, first)?;
        let files = once(file).chain(others.iter().map(String::as_str));
        let sources = files.map(Source::from_argument);
        let sources = sources.collect::<Result<Vec<Source>, String>>()?;
        let byte = byte(&sources[0], place);
        Ok(Self { sources, byte })
    }
}

/// A place that the text doesn't have is asked as the one behind its last byte, where nothing stands.
fn byte(source: &Source, place: Place) -> usize {
    match place {
        Place::Byte(byte) => byte,
        Place::LineAndColumn { line, column } => {
            let byte = source.byte_at(line, column);
            byte.unwrap_or(source.text.len())
        }
    }
}

/// The first message about a source; all of what an index file can't hold.
pub fn told(error: &SourceError) -> String {
    match error {
        SourceError::Messages(messages) => messages
            .first()
            .map_or_else(|| error.to_string(), ToString::to_string),
        SourceError::Export(_) => error.to_string(),
    }
}

/// An error as one line, whatever the names of the files are.
pub fn one_line(error: String) -> String {
    error.replace('\n', "; ")
}
