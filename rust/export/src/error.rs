//! Why an index can't be written.

use std::fmt;

use index_file::limits::{self, PassedLimit};
use index_file::load::Refusal;

#[derive(Debug, Clone, PartialEq, Eq)]
pub enum ExportError {
    /// Two modules have one name.
    SameModule { name: String },
    /// A name that an index file has no form for. `module` is none for a module's own name.
    Name {
        module: Option<String>,
        text: String,
        fault: NameFault,
    },
    /// A position of 2^32 or more.
    Position { module: String, position: u64 },
    /// A count or index of 65,536 or more.
    Number {
        module: String,
        what: &'static str,
        number: u64,
    },
    /// A call of `assert` whose callee has no record, at this span. The file couldn't tell it from
    /// another call without a callee.
    UnrecordedAssert {
        module: String,
        start: u64,
        end: u64,
    },
    /// The limits of the whole file that are passed.
    Limits(Vec<PassedLimit>),
    /// The index has a shape that no builder makes, such as a first scope with a parent.
    Refused(Refusal),
    /// The written index is accepted, but read as another one, as where a name has a tab in it and
    /// becomes two fields. [`records`](crate::records) makes no such index.
    NotAsWritten,
}

#[derive(Debug, Clone, Copy, PartialEq, Eq)]
pub enum NameFault {
    Empty,
    Dash,
    Long { bytes: usize },
    Byte { byte: u8 },
}

impl fmt::Display for NameFault {
    fn fmt(&self, f: &mut fmt::Formatter<'_>) -> fmt::Result {
        match self {
            Self::Empty => write!(f, "it is empty"),
            Self::Dash => write!(f, "`-` means absent"),
            Self::Long { bytes } => {
                let most = limits::NAME_BYTES;
                let over = bytes.saturating_sub(most);
                write!(f, "{bytes} bytes, {over} more than the {most} of a name")
            }
            Self::Byte { byte } => write!(f, "byte {byte:02X} isn't from 21 to 7E"),
        }
    }
}

impl fmt::Display for ExportError {
    fn fmt(&self, f: &mut fmt::Formatter<'_>) -> fmt::Result {
        match self {
            Self::SameModule { name } => write!(f, "two modules are named {name:?}"),
            Self::Name {
                module,
                text,
                fault,
            } => {
                match module {
                    Some(module) => write!(f, "module {module}: the name")?,
                    None => write!(f, "the module name")?,
                }
                write!(f, " {text:?} can't be written: {fault}")
            }
            Self::Position { module, position } => {
                write!(f, "module {module}: position {position} isn't below 2^32")
            }
            Self::Number {
                module,
                what,
                number,
            } => write!(f, "module {module}: {what} {number} isn't below 65536"),
            Self::UnrecordedAssert { module, start, end } => write!(
                f,
                "module {module}, bytes {start} to {end}: a call of `assert` without a record for \
                 its callee"
            ),
            Self::Limits(passed) => {
                let lines: Vec<String> = passed.iter().map(PassedLimit::to_string).collect();
                write!(f, "{}", lines.join("\n"))
            }
            Self::Refused(Refusal { number, line }) => write!(
                f,
                "the written index is refused with {number} at line {line}"
            ),
            Self::NotAsWritten => write!(
                f,
                "the written index is read as another one: a name in it has no form in an index file"
            ),
        }
    }
}

impl std::error::Error for ExportError {}
