//! What a call gives where it gives no type.

use std::fmt;
use std::io;

use crate::NoAnswerLine;

/// A refusal, 1 to 10. `docs/REFUSALS.md` has each with its smallest file, with
/// what it leaves in the buffers, and with what to do. Names, numbers and meanings are those of
/// `include/roognaps.h`.
#[derive(Debug, Clone, Copy, PartialEq, Eq, Hash)]
#[non_exhaustive]
pub enum Refusal {
    /// 1: a buffer is too short. A [`Resolver`](crate::Resolver) has buffers of the right size, so it
    /// never gives this one.
    ShortBuffer,
    /// 2: the first line isn't `index`, a tab, `1` and LF.
    FirstLine,
    /// 3: a limit of the file is passed.
    Limit {
        /// From 1; 0 for the size of the file.
        line: u32,
    },
    /// 4: a line of wrong form, place or last byte, or a module name again.
    Form {
        /// From 1.
        line: u32,
    },
    /// 5: a link to no record, a T that isn't earlier, a wrong parent, a module without scope.
    Link {
        /// From 1; 0 for a question number that the file lacks.
        line: u32,
    },
    /// 6: a child that has no record, where the original unwraps it.
    MissingChild,
    /// 7: a ring, such as a constant that is defined by itself.
    Ring,
    /// 8: the 257th open demand.
    TooDeep,
    /// 9: a 257th type in one question, or over 2,048 items of types.
    TooManyTypes,
    /// 10: the type's text has over 4,096 bytes.
    LongText,
}

/// Who can do something about a refusal.
#[derive(Debug, Clone, Copy, PartialEq, Eq, Hash)]
pub enum Whose {
    /// The program that calls.
    Caller,
    /// Whatever wrote the index file.
    Exporter,
    /// The author of the Cairo-M program.
    Author,
}

impl fmt::Display for Whose {
    fn fmt(&self, f: &mut fmt::Formatter<'_>) -> fmt::Result {
        f.write_str(match self {
            Self::Caller => "the caller",
            Self::Exporter => "the exporter",
            Self::Author => "the program's author",
        })
    }
}

impl Refusal {
    /// The refusal of a number from 1 to 10, with the line of those that have one.
    ///
    /// ```
    /// use roognaps::Refusal;
    ///
    /// assert_eq!(Refusal::from_number(4, 12), Some(Refusal::Form { line: 12 }));
    /// assert_eq!(Refusal::from_number(7, 0), Some(Refusal::Ring));
    /// assert_eq!(Refusal::from_number(11, 0), None);
    /// ```
    pub fn from_number(number: u32, line: u32) -> Option<Self> {
        Some(match number {
            1 => Self::ShortBuffer,
            2 => Self::FirstLine,
            3 => Self::Limit { line },
            4 => Self::Form { line },
            5 => Self::Link { line },
            6 => Self::MissingChild,
            7 => Self::Ring,
            8 => Self::TooDeep,
            9 => Self::TooManyTypes,
            10 => Self::LongText,
            _ => return None,
        })
    }

    /// The refusal of a file, 1 to 5, if it can have this line: 1 has none, 2 the first, 4 always one.
    pub(crate) fn of_file(number: u32, line: u32) -> Option<Self> {
        let fits = match number {
            1 => line == 0,
            2 => line == 1,
            4 => line > 0,
            _ => number <= 5,
        };
        Self::from_number(number, line).filter(|_| fits)
    }

    /// The refusal of a line, 6 to 10.
    pub(crate) fn of_line(number: u32) -> Option<Self> {
        Self::from_number(number, 0).filter(|refusal| !refusal.is_of_file())
    }

    /// 1 to 10.
    pub fn number(self) -> u32 {
        match self {
            Self::ShortBuffer => 1,
            Self::FirstLine => 2,
            Self::Limit { .. } => 3,
            Self::Form { .. } => 4,
            Self::Link { .. } => 5,
            Self::MissingChild => 6,
            Self::Ring => 7,
            Self::TooDeep => 8,
            Self::TooManyTypes => 9,
            Self::LongText => 10,
        }
    }

    /// The line of the file, from 1. None where no line is at fault: for a short buffer, a file that is
    /// too large, a question number that the file lacks, and 6 to 10.
    pub fn line(self) -> Option<u32> {
        match self {
            Self::FirstLine => Some(1),
            Self::Limit { line } | Self::Form { line } | Self::Link { line } => {
                (line > 0).then_some(line)
            }
            _ => None,
        }
    }

    /// What the number means.
    pub fn meaning(self) -> &'static str {
        match self {
            Self::ShortBuffer => "a buffer is too short",
            Self::FirstLine => "the first line isn't that of an index file of version 1",
            Self::Limit { line: 0 } => "the file has over 65,536 bytes",
            Self::Limit { .. } => "a limit of the file is passed",
            Self::Form { .. } => {
                "a line of wrong form, place or last byte, or a module name that was there before"
            }
            Self::Link { line: 0 } => "the file has no question of this number",
            Self::Link { .. } => "a link to no record, a wrong parent, or a module without a scope",
            Self::MissingChild => "an expression needs a child that has no record",
            Self::Ring => "the type is needed to find itself: a ring",
            Self::TooDeep => "the program is nested too deeply: a 257th demand would be open",
            Self::TooManyTypes => "the question needs over 256 types, or over 2,048 items of types",
            Self::LongText => "the text of the type has over 4,096 bytes",
        }
    }

    /// Whether the whole file is refused (1 to 5), not one line of its answers (6 to 10).
    pub fn is_of_file(self) -> bool {
        self.number() <= 5
    }

    /// Who can do something about it.
    pub fn whose(self) -> Whose {
        match self {
            Self::ShortBuffer | Self::Link { line: 0 } => Whose::Caller,
            Self::FirstLine | Self::Limit { .. } | Self::Form { .. } | Self::Link { .. } => {
                Whose::Exporter
            }
            Self::MissingChild => Whose::Exporter,
            Self::Ring | Self::TooDeep | Self::TooManyTypes | Self::LongText => Whose::Author,
        }
    }
}

impl fmt::Display for Refusal {
    fn fmt(&self, f: &mut fmt::Formatter<'_>) -> fmt::Result {
        write!(f, "refused with {}", self.number())?;
        if let Some(line) = self.line() {
            write!(f, " at line {line}")?;
        }
        write!(f, ": {}", self.meaning())
    }
}

impl std::error::Error for Refusal {}

/// Why a call gives no answer. Its text is that of the refusal or the fault inside, which therefore
/// isn't given a second time as its source.
#[derive(Debug, Clone, PartialEq, Eq)]
#[non_exhaustive]
pub enum Error {
    /// The file or the line is refused.
    Refused(Refusal),
    /// A type was asked for, and the question has no line, or one without a type: `at` says `none` of a
    /// byte that no expression covers. Every question of index 1 has one line.
    Untyped,
    /// What the library gave is no answer. It is another library than this crate was written for.
    Library(LibraryFault),
    /// The system gave no thread with stack enough.
    Thread(io::ErrorKind),
}

impl Error {
    /// The refusal, if it is one.
    pub fn refusal(&self) -> Option<Refusal> {
        match self {
            Self::Refused(refusal) => Some(*refusal),
            _ => None,
        }
    }
}

impl fmt::Display for Error {
    fn fmt(&self, f: &mut fmt::Formatter<'_>) -> fmt::Result {
        match self {
            Self::Refused(refusal) => write!(f, "{refusal}"),
            Self::Untyped => f.write_str("the question has no first line with a type"),
            Self::Library(fault) => write!(f, "{fault}"),
            Self::Thread(kind) => write!(f, "no thread with stack enough: {kind}"),
        }
    }
}

impl std::error::Error for Error {}

impl From<Refusal> for Error {
    fn from(refusal: Refusal) -> Self {
        Self::Refused(refusal)
    }
}

impl From<LibraryFault> for Error {
    fn from(fault: LibraryFault) -> Self {
        Self::Library(fault)
    }
}

impl From<io::Error> for Error {
    fn from(error: io::Error) -> Self {
        Self::Thread(error.kind())
    }
}

/// A result of the library that its promises rule out.
#[derive(Debug, Clone, PartialEq, Eq)]
pub struct LibraryFault {
    pub(crate) said: String,
}

impl LibraryFault {
    pub(crate) fn new(said: impl Into<String>) -> Self {
        Self { said: said.into() }
    }
}

impl From<NoAnswerLine> for LibraryFault {
    fn from(error: NoAnswerLine) -> Self {
        Self::new(error.to_string())
    }
}

impl fmt::Display for LibraryFault {
    fn fmt(&self, f: &mut fmt::Formatter<'_>) -> fmt::Result {
        write!(f, "not the library of this crate: {}", self.said)
    }
}

impl std::error::Error for LibraryFault {}

#[cfg(test)]
mod tests {
    use super::*;

    #[test]
    fn numbers_lines_and_words_belong_together() {
        for number in 1..=10 {
            let refusal = Refusal::from_number(number, 3).expect("1 to 10");
            assert_eq!(refusal.number(), number);
            assert_eq!(refusal.is_of_file(), number <= 5);
            let line = match number {
                2 => Some(1),
                3..=5 => Some(3),
                _ => None,
            };
            assert_eq!(refusal.line(), line);
            assert!(refusal.to_string().contains(refusal.meaning()));
        }
        assert_eq!(Refusal::from_number(0, 1), None);
        assert_eq!(Refusal::from_number(u32::MAX, 1), None);
        assert_eq!(Refusal::Limit { line: 0 }.line(), None);
        assert_eq!(Refusal::Link { line: 0 }.whose(), Whose::Caller);
        assert_eq!(Refusal::Link { line: 2 }.whose(), Whose::Exporter);
    }

    #[test]
    fn of_a_file_with_its_line_or_of_a_line() {
        let lines = [0, 1, 7, u32::MAX];
        let of_file = |number| lines.map(|line| Refusal::of_file(number, line).is_some());
        assert_eq!(of_file(0), [false; 4]);
        assert_eq!(of_file(1), [true, false, false, false]);
        assert_eq!(of_file(2), [false, true, false, false]);
        assert_eq!(of_file(3), [true; 4]);
        assert_eq!(of_file(4), [false, true, true, true]);
        assert_eq!(of_file(5), [true; 4]);
        for number in [6, 7, 8, 9, 10, 11, u32::MAX] {
            assert_eq!(of_file(number), [false; 4], "{number}");
        }
        for number in 0..20 {
            let owed = Refusal::from_number(number, 0).filter(|_| number > 5);
            assert_eq!(Refusal::of_line(number), owed, "{number}");
        }
    }
}
