//! From the original compiler's index, or from Cairo-M source, straight to the types.
//!
//! This needs the feature `export` and the original sources (`rust/README.md` says where they are
//! looked for); without them the module isn't there.

use std::fmt;
use std::io;

use ::export::sources::export_sources;
use ::export::{all_questions, records, text};
use index_file::limits;

use crate::{AnswerLine, Error, Resolver, on_large_stack};

pub use crate::hover::Hover;
pub use crate::named::named;
pub use ::export::sources::{Message, Source, SourceError};
pub use ::export::{ExportError, ModuleIndex, NameFault};
pub use index_file::records::Index;
/// A question as an [`Index`] has it, a Q line: with the context or the scope that it is asked in.
/// What an answer line is about is a [`Question`](crate::Question).
pub use index_file::records::Question as QuestionRecord;

/// Why there are no answers. Its text is that of the error inside, which therefore isn't given a second
/// time as its source.
#[derive(Debug, Clone, PartialEq, Eq)]
pub enum AskError {
    /// The source isn't right, or the index can't be written.
    Source(SourceError),
    /// The resolver's.
    Resolver(Error),
}

impl fmt::Display for AskError {
    fn fmt(&self, f: &mut fmt::Formatter<'_>) -> fmt::Result {
        match self {
            Self::Source(error) => write!(f, "{error}"),
            Self::Resolver(error) => write!(f, "{error}"),
        }
    }
}

impl std::error::Error for AskError {}

impl From<SourceError> for AskError {
    fn from(error: SourceError) -> Self {
        Self::Source(error)
    }
}

impl From<ExportError> for AskError {
    fn from(error: ExportError) -> Self {
        Self::Source(error.into())
    }
}

impl From<Error> for AskError {
    fn from(error: Error) -> Self {
        Self::Resolver(error)
    }
}

impl From<io::Error> for AskError {
    fn from(error: io::Error) -> Self {
        Self::Resolver(error.into())
    }
}

/// Each of these runs on a thread with [`STACK_BYTES`](crate::STACK_BYTES), in `ask_sources` the
/// original's parser and index builder with it. Those go as deep as the source is nested and have no bound of their own: a
/// source that is nested too deeply ends the process, and array literals around each other take twice
/// the time for each. What the thread was found to bear is 1,700 blocks or 2,800 parentheses around
/// each other, more than an index file has room for (128 scopes, 512 expressions).
impl Resolver {
    /// The type of each expression and then each definition, module by module, of the indexes that the
    /// original builder made. A file has at most 256 questions, so more are asked in several.
    pub fn ask_modules(&mut self, modules: &[ModuleIndex]) -> Result<Vec<AnswerLine>, AskError> {
        on_large_stack(|| {
            let mut index = records(modules)?;
            index.questions = all_questions(&index);
            self.ask_index(index)
        })?
    }

    /// The records of Cairo-M sources, parsed and indexed by the original, and the type of each
    /// expression and then each definition, module by module.
    ///
    /// ```
    /// use roognaps::export::Source;
    /// use roognaps::{Resolver, Type};
    ///
    /// let source = Source {
    ///     module: "main".to_string(),
    ///     path: "main.cm".to_string(),
    ///     text: "fn f(x: u32) -> u32 { return 1 + x; }".to_string(),
    /// };
    /// let (_, lines) = Resolver::new().ask_sources(&[source])?;
    /// assert_eq!(lines[0].to_string(), "expr\t0\t0\ttype\tu32");
    /// assert_eq!(lines.last().and_then(|line| line.ty()), Some(&Type::U32));
    /// # Ok::<(), roognaps::export::AskError>(())
    /// ```
    pub fn ask_sources(
        &mut self,
        sources: &[Source],
    ) -> Result<(Index, Vec<AnswerLine>), AskError> {
        on_large_stack(|| {
            let (index, _) = export_sources(sources)?;
            let lines = self.ask_index(index.clone())?;
            Ok((index, lines))
        })?
    }

    /// The lines of an index's questions, however many.
    pub fn ask_index(&mut self, mut index: Index) -> Result<Vec<AnswerLine>, AskError> {
        let questions = std::mem::take(&mut index.questions);
        on_large_stack(|| {
            // An index that can't be written is an error without questions too.
            text(&index)?;
            let mut lines = Vec::new();
            for some in questions.chunks(limits::QUESTIONS) {
                index.questions = some.to_vec();
                lines.extend(self.answers(text(&index)?.as_bytes())?);
            }
            Ok(lines)
        })?
    }
}
