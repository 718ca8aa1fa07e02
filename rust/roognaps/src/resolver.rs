//! The buffers and the calls.

use std::fmt;

use crate::lines::{Lines, Part, Position};
use crate::raw::{
    self, ANSWER_BYTES, Buffers, LineAnswer, LinesAnswer, Loaded, PLACES, Place, RECORD_WORDS,
    TYPE_WORDS,
};
use crate::{Answer, AnswerLine, Error, LibraryFault, Said, on_large_stack};

/// The buffers of the library, allocated once, and the calls that use them.
///
/// Nothing of one call is read by the next: each loads its file first. One resolver serves any number
/// of files, one call at a time; threads have one each.
///
/// ```
/// use roognaps::{Error, Refusal, Resolver, Type};
///
/// let file = b"index\t1\nM\tmain\nS\t-\tmodule\nT\tfelt\nT\tptr\t0\nQ\ttype\t0\t1\t0\n";
/// let mut resolver = Resolver::new();
/// resolver.check(file)?;
/// assert_eq!(resolver.answer(file, 0)?.ty, Type::Pointer(Box::new(Type::Felt)));
///
/// let lacking = resolver.answer(file, 1);
/// assert_eq!(lacking, Err(Error::Refused(Refusal::Link { line: 0 })));
/// # Ok::<(), Error>(())
/// ```
#[derive(Clone)]
pub struct Resolver {
    records: Box<[u32]>,
    types: Box<[u32]>,
    places: Box<[Place]>,
    out: Box<[u8]>,
}

/// Says how long the buffers are, not what they hold.
impl fmt::Debug for Resolver {
    fn fmt(&self, f: &mut fmt::Formatter<'_>) -> fmt::Result {
        raw::write_lengths(
            f,
            "Resolver",
            &self.records,
            &self.types,
            &self.places,
            &self.out,
        )
    }
}

impl Default for Resolver {
    fn default() -> Self {
        Self::new()
    }
}

impl Resolver {
    /// Buffers as long as the library asks, about 105 KB.
    pub fn new() -> Self {
        Self {
            records: vec![0; RECORD_WORDS].into(),
            types: vec![0; TYPE_WORDS].into(),
            places: vec![[0; 5]; PLACES].into(),
            out: vec![0; ANSWER_BYTES].into(),
        }
    }

    /// Whether a file is accepted: only loads it. Takes little stack.
    ///
    /// ```
    /// use roognaps::{Error, Refusal, Resolver};
    ///
    /// let mut resolver = Resolver::new();
    /// assert_eq!(resolver.check(b"index\t1\n"), Ok(()));
    /// let refused = resolver.check(b"index\t1\nX\n");
    /// assert_eq!(refused, Err(Error::Refused(Refusal::Form { line: 2 })));
    /// ```
    pub fn check(&mut self, file: &[u8]) -> Result<(), Error> {
        match raw::load(file, &mut self.records).read()? {
            Loaded::Accepted => Ok(()),
            Loaded::Refused(refusal) => Err(refusal.into()),
        }
    }

    /// The type in the first line of the question of a number. Questions are the Q lines, numbered from
    /// 0.
    ///
    /// The error is that of [`line`](Self::line), or [`Error::Untyped`] where there is no such line, or
    /// one without a type: [`Said::None`], which `at` has where no expression covers the byte.
    ///
    /// ```
    /// use roognaps::{Error, Resolver, Said, Type};
    ///
    /// // `true` at the bytes 3 to 6, and a question about byte 6 and about byte 7.
    /// let file = b"index\t1\nM\tm\nS\t-\tmodule\n\
    ///     E\t0\t3\t7\t-\t-\tplain\t-\t-\tbool\nQ\tat\t0\t6\nQ\tat\t0\t7\n";
    /// let mut resolver = Resolver::new();
    /// assert_eq!(resolver.answer(file, 0)?.ty, Type::Bool);
    /// assert_eq!(resolver.answer(file, 1), Err(Error::Untyped));
    /// let line = resolver.line(file, 1, 0)?.expect("each question has a line");
    /// assert_eq!(line.result, Ok(Said::None));
    /// # Ok::<(), Error>(())
    /// ```
    pub fn answer(&mut self, file: &[u8], question: u32) -> Result<Answer, Error> {
        match self.line(file, question, 0)? {
            Some(AnswerLine {
                question,
                result: Ok(Said::Type(ty)),
            }) => Ok(Answer { question, ty }),
            _ => Err(Error::Untyped),
        }
    }

    /// A line of the question of a number, by its own number, both from 0. None past the question's last
    /// line.
    ///
    /// The error is the refusal of the file, 2 to 5, or of the line, 6 to 10; or 5 without a line of the
    /// file where the file has no question of this number.
    ///
    /// ```
    /// use roognaps::{Resolver, Type};
    ///
    /// let file = b"index\t1\nQ\tdef\t0\t0\n";
    /// let mut resolver = Resolver::new();
    /// let line = resolver.line(file, 0, 0)?;
    /// assert_eq!(line.as_ref().and_then(|line| line.ty()), Some(&Type::Error));
    /// assert_eq!(resolver.line(file, 0, 1)?, None);
    /// # Ok::<(), roognaps::Error>(())
    /// ```
    pub fn line(
        &mut self,
        file: &[u8],
        question: u32,
        line: u32,
    ) -> Result<Option<AnswerLine>, Error> {
        on_large_stack(|| self.one(file, question, line))?
    }

    /// The lines of a file's questions, in the order of its Q lines, some at a time. A refused line
    /// (6 to 10) is among the others; a refused file (2 to 5) is an error. An error is the last thing that
    /// the iterator gives.
    ///
    /// Each part, of at most 4,160 bytes, is a call of the library, which loads the file again. Outside
    /// [`on_large_stack`] each runs on a thread of its own.
    ///
    /// ```
    /// use roognaps::{Error, Refusal, Resolver};
    ///
    /// let mut resolver = Resolver::new();
    /// for line in resolver.lines(b"index\t1\nQ\tdef\t0\t0\nQ\tdef\t0\t1\n") {
    ///     println!("{}", line?);
    /// }
    /// let mut lines = resolver.lines(b"index\t2\n");
    /// assert_eq!(lines.next(), Some(Err(Error::Refused(Refusal::FirstLine))));
    /// assert_eq!(lines.next(), None);
    /// # Ok::<(), Error>(())
    /// ```
    pub fn lines<'a>(&'a mut self, file: &'a [u8]) -> Lines<'a> {
        self.lines_from(file, 0, 0)
    }

    /// The same from a question's line on, both numbered from 0; where the question has no such line,
    /// from the next question on. At the number of questions there are none, above it the file is
    /// refused: 5 without a line of the file.
    ///
    /// ```
    /// let file = b"index\t1\nQ\tdef\t0\t0\nQ\tdef\t0\t1\n";
    /// let mut resolver = roognaps::Resolver::new();
    /// let second: Vec<_> = resolver.lines_from(file, 1, 0).collect();
    /// let behind_the_first: Vec<_> = resolver.lines_from(file, 0, 1).collect();
    /// assert_eq!(second.len(), 1);
    /// assert_eq!(second, behind_the_first);
    /// ```
    pub fn lines_from<'a>(&'a mut self, file: &'a [u8], question: u32, line: u32) -> Lines<'a> {
        Lines::new(self, file, Position { question, line })
    }

    /// All [`lines`](Self::lines) of a file. A refused line (6 to 10) is among the others; a refused
    /// file (1 to 5) is the error.
    ///
    /// ```
    /// use roognaps::{Refusal, Resolver, Type};
    ///
    /// // `const a = a;` and a question about a constant that isn't there.
    /// let file = b"index\t1\nM\tm\nS\t-\tmodule\n\
    ///     D\t0\ta\t6\t7\t0\t12\tconst\t-\t0\n\
    ///     E\t0\t10\t11\t-\t0\tplain\t-\t-\tident\ta\n\
    ///     Q\tdef\t0\t0\nQ\tdef\t0\t1\n";
    /// let lines = Resolver::new().answers(file)?;
    /// assert_eq!(lines[0].result, Err(Refusal::Ring));
    /// assert_eq!(lines[1].ty(), Some(&Type::Error));
    /// # Ok::<(), roognaps::Error>(())
    /// ```
    pub fn answers(&mut self, file: &[u8]) -> Result<Vec<AnswerLine>, Error> {
        on_large_stack(|| self.lines(file).collect())?
    }

    /// What the program `resolve` prints for a file: the lines of its questions, or the line of a
    /// refused file.
    ///
    /// ```
    /// let mut resolver = roognaps::Resolver::new();
    /// assert_eq!(resolver.resolve(b"index\t1\nQ\tdef\t0\t0\n")?, "def\t0\t0\ttype\terror\n");
    /// assert_eq!(resolver.resolve(b"index\t2\n")?, "refused\t2\t1\n");
    /// # Ok::<(), roognaps::Error>(())
    /// ```
    pub fn resolve(&mut self, file: &[u8]) -> Result<String, Error> {
        match on_large_stack(|| self.texts(file))? {
            Err(Error::Refused(refusal)) => {
                let line = refusal.line().unwrap_or(0);
                Ok(format!("refused\t{}\t{line}\n", refusal.number()))
            }
            printed => printed,
        }
    }

    fn buffers(&mut self) -> Buffers<'_> {
        Buffers {
            records: &mut self.records,
            types: &mut self.types,
            places: &mut self.places,
            out: &mut self.out,
        }
    }

    fn one(&mut self, file: &[u8], question: u32, line: u32) -> Result<Option<AnswerLine>, Error> {
        match raw::answer(file, question, line, self.buffers()).read()? {
            LineAnswer::Line { bytes } => Ok(Some(answered(self.text(bytes)?)?)),
            LineAnswer::PastLast => Ok(None),
            LineAnswer::Refused { refusal, .. } | LineAnswer::FileRefused(refusal) => {
                Err(refusal.into())
            }
        }
    }

    /// The lines from a position on that fit into the answer buffer.
    pub(crate) fn part(&mut self, file: &[u8], from: Position) -> Result<Part<'_>, Error> {
        let given = raw::answer_from(file, from.question, from.line, self.buffers());
        let (bytes, next) = match given.read()? {
            LinesAnswer::End { bytes } => (bytes, None),
            LinesAnswer::More {
                question,
                line,
                bytes,
            } => (bytes, Some(Position { question, line })),
            LinesAnswer::FileRefused(refusal) => return Err(refusal.into()),
        };
        if let Some(next) = next.filter(|next| *next <= from) {
            let said = format!("{next:?} isn't behind {from:?}");
            return Err(LibraryFault::new(said).into());
        }
        let text = self.text(bytes)?;
        Ok(Part { text, next })
    }

    /// The lines of all parts, as they are.
    fn texts(&mut self, file: &[u8]) -> Result<String, Error> {
        let mut texts = String::new();
        let mut from = Some(Position::default());
        while let Some(position) = from {
            let part = self.part(file, position)?;
            texts.push_str(part.text);
            from = part.next;
        }
        Ok(texts)
    }

    /// Whole lines at the start of the answer buffer.
    fn text(&self, bytes: usize) -> Result<&str, LibraryFault> {
        let text = self.out.get(..bytes);
        let text = text.and_then(|bytes| std::str::from_utf8(bytes).ok());
        text.filter(|text| text.is_empty() || text.ends_with('\n'))
            .ok_or_else(|| LibraryFault::new(format!("{bytes} bytes of answer are no lines")))
    }
}

/// A line that isn't refused, from its text with its LF.
fn answered(text: &str) -> Result<AnswerLine, LibraryFault> {
    let line = text.strip_suffix('\n').unwrap_or(text);
    let read: AnswerLine = line.parse()?;
    match read.result {
        Ok(_) => Ok(read),
        Err(_) => Err(LibraryFault::new(format!("{line:?} is a refused line"))),
    }
}
