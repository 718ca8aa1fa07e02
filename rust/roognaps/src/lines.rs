//! The lines of a file, some at a time.

use std::fmt;
use std::iter::FusedIterator;
use std::vec;

use crate::{AnswerLine, Error, LibraryFault, Resolver, on_large_stack};

/// A question and its line, by their numbers.
#[derive(Debug, Clone, Copy, Default, PartialEq, Eq, PartialOrd, Ord)]
pub(crate) struct Position {
    pub(crate) question: u32,
    pub(crate) line: u32,
}

/// What one call of the library wrote, whole lines, and where the next one begins; none at the end.
pub(crate) struct Part<'a> {
    pub(crate) text: &'a str,
    pub(crate) next: Option<Position>,
}

/// The lines of a file's questions: [`Resolver::lines`], [`Resolver::lines_from`].
#[must_use = "the library is called when a line is asked for"]
pub struct Lines<'a> {
    resolver: &'a mut Resolver,
    file: &'a [u8],
    /// Where the next call begins; none once all lines were read, or after an error.
    from: Option<Position>,
    /// Lines that were read and not given yet.
    read: vec::IntoIter<AnswerLine>,
}

impl<'a> Lines<'a> {
    pub(crate) fn new(resolver: &'a mut Resolver, file: &'a [u8], from: Position) -> Self {
        Self {
            resolver,
            file,
            from: Some(from),
            read: Vec::new().into_iter(),
        }
    }

    /// Reads the lines of one part: on a large stack as well, since a type may be nested deeply.
    fn read_part(&mut self, from: Position) -> Result<(), Error> {
        on_large_stack(|| {
            let part = self.resolver.part(self.file, from)?;
            let lines = part.text.split_terminator('\n').map(str::parse);
            let lines: Result<Vec<AnswerLine>, _> = lines.collect();
            self.read = lines.map_err(LibraryFault::from)?.into_iter();
            self.from = part.next;
            Ok(())
        })?
    }
}

/// Says where it is, not what the file and the buffers hold.
impl fmt::Debug for Lines<'_> {
    fn fmt(&self, f: &mut fmt::Formatter<'_>) -> fmt::Result {
        f.debug_struct("Lines")
            .field("file_bytes", &self.file.len())
            .field("from", &self.from)
            .field("lines_read", &self.read.len())
            .finish()
    }
}

impl Iterator for Lines<'_> {
    type Item = Result<AnswerLine, Error>;

    fn next(&mut self) -> Option<Self::Item> {
        loop {
            if let Some(line) = self.read.next() {
                return Some(Ok(line));
            }
            let from = self.from.take()?;
            if let Err(error) = self.read_part(from) {
                return Some(Err(error));
            }
        }
    }
}

impl FusedIterator for Lines<'_> {}
