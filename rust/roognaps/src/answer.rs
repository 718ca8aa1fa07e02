//! Answer lines.

use std::fmt;
use std::str::FromStr;

use crate::{Refusal, Type};

/// What an answer line is about, as its first fields name it: a kind of record, its module in the file
/// and its number in the module; or a byte of a module's source.
#[derive(Debug, Clone, Copy, PartialEq, Eq, Hash)]
#[non_exhaustive]
pub enum Question {
    /// `expr`: the type of an expression, an E line.
    Expression {
        /// The number of the module in the file.
        module: u32,
        /// The number of the E line in the module.
        expression: u32,
    },
    /// `def`: the type of a definition, a D line.
    Definition {
        /// The number of the module in the file.
        module: u32,
        /// The number of the D line in the module.
        definition: u32,
    },
    /// `type`: what a type expression, a T line, stands for.
    TypeExpression {
        /// The number of the module in the file.
        module: u32,
        /// The number of the T line in the module.
        type_expression: u32,
    },
    /// `at`: the type at a byte of a module's source, that of the expression with the shortest span that
    /// covers the byte.
    At {
        /// The number of the module in the file.
        module: u32,
        /// The byte, from 0.
        position: u32,
    },
}

impl Question {
    /// The number of the module in the file.
    pub fn module(self) -> u32 {
        match self {
            Self::Expression { module, .. }
            | Self::Definition { module, .. }
            | Self::TypeExpression { module, .. }
            | Self::At { module, .. } => module,
        }
    }

    /// The number of the record in its module; of `at` the position.
    pub fn number(self) -> u32 {
        match self {
            Self::Expression { expression, .. } => expression,
            Self::Definition { definition, .. } => definition,
            Self::TypeExpression {
                type_expression, ..
            } => type_expression,
            Self::At { position, .. } => position,
        }
    }

    fn read(kind: &str, module: u32, number: u32) -> Option<Self> {
        Some(match kind {
            "expr" => Self::Expression {
                module,
                expression: number,
            },
            "def" => Self::Definition {
                module,
                definition: number,
            },
            "type" => Self::TypeExpression {
                module,
                type_expression: number,
            },
            "at" => Self::At {
                module,
                position: number,
            },
            _ => return None,
        })
    }
}

/// The three fields that lead an answer line, parted by tabs.
impl fmt::Display for Question {
    fn fmt(&self, f: &mut fmt::Formatter<'_>) -> fmt::Result {
        let kind = match self {
            Self::Expression { .. } => "expr",
            Self::Definition { .. } => "def",
            Self::TypeExpression { .. } => "type",
            Self::At { .. } => "at",
        };
        write!(f, "{kind}\t{}\t{}", self.module(), self.number())
    }
}

/// A question that has a type.
#[derive(Debug, Clone, PartialEq, Eq, Hash)]
pub struct Answer {
    /// What was asked.
    pub question: Question,
    /// The type.
    pub ty: Type,
}

/// The line that `resolve` prints, without its LF.
impl fmt::Display for Answer {
    fn fmt(&self, f: &mut fmt::Formatter<'_>) -> fmt::Result {
        write!(f, "{}\ttype\t{}", self.question, self.ty)
    }
}

/// What a line says where it isn't refused. Lines that say something else are to come.
#[derive(Debug, Clone, PartialEq, Eq, Hash)]
#[non_exhaustive]
pub enum Said {
    /// `type`: the type of what the line is about.
    Type(Type),
    /// `none`: no expression covers the byte, or the module isn't there. Only lines of
    /// [`Question::At`] say so.
    None,
}

/// The fields of an answer line behind those of its [`Question`], parted by tabs.
impl fmt::Display for Said {
    fn fmt(&self, f: &mut fmt::Formatter<'_>) -> fmt::Result {
        match self {
            Self::Type(ty) => write!(f, "type\t{ty}"),
            Self::None => f.write_str("none"),
        }
    }
}

/// An answer line: what it is about, and what it says of it, or refusal 6 to 10.
#[derive(Debug, Clone, PartialEq, Eq, Hash)]
#[non_exhaustive]
pub struct AnswerLine {
    /// What it is about.
    pub question: Question,
    /// What it says, or why it says nothing.
    pub result: Result<Said, Refusal>,
}

impl AnswerLine {
    /// The type, if the line says one.
    ///
    /// ```
    /// use roognaps::{AnswerLine, Type};
    ///
    /// let line: AnswerLine = "def\t0\t4\ttype\tu32".parse()?;
    /// assert_eq!(line.ty(), Some(&Type::U32));
    /// let refused: AnswerLine = "def\t0\t4\trefused\t7".parse()?;
    /// assert_eq!(refused.ty(), None);
    /// let none: AnswerLine = "at\t0\t17\tnone".parse()?;
    /// assert_eq!(none.ty(), None);
    /// # Ok::<(), roognaps::NoAnswerLine>(())
    /// ```
    pub fn ty(&self) -> Option<&Type> {
        match &self.result {
            Ok(Said::Type(ty)) => Some(ty),
            Ok(Said::None) | Err(_) => None,
        }
    }
}

/// The line that `resolve` prints, without its LF.
impl fmt::Display for AnswerLine {
    fn fmt(&self, f: &mut fmt::Formatter<'_>) -> fmt::Result {
        match &self.result {
            Ok(said) => write!(f, "{}\t{said}", self.question),
            Err(refusal) => write!(f, "{}\trefused\t{}", self.question, refusal.number()),
        }
    }
}

impl From<Answer> for AnswerLine {
    fn from(answer: Answer) -> Self {
        Self {
            question: answer.question,
            result: Ok(Said::Type(answer.ty)),
        }
    }
}

/// A text that is no answer line.
#[derive(Debug, Clone, PartialEq, Eq)]
pub struct NoAnswerLine {
    /// The text.
    pub line: String,
}

impl fmt::Display for NoAnswerLine {
    fn fmt(&self, f: &mut fmt::Formatter<'_>) -> fmt::Result {
        write!(f, "{:?} is no answer line", self.line)
    }
}

impl std::error::Error for NoAnswerLine {}

/// Reads what `Display` writes; a line that no question has, as `none` of `expr`, is an error.
///
/// ```
/// use roognaps::{AnswerLine, Question, Said, Type};
///
/// let line: AnswerLine = "def\t0\t4\ttype\tu32".parse()?;
/// assert_eq!(line.question, Question::Definition { module: 0, definition: 4 });
/// assert_eq!(line.result, Ok(Said::Type(Type::U32)));
///
/// let error = "def\t0".parse::<AnswerLine>().unwrap_err();
/// assert_eq!(error.to_string(), "\"def\\t0\" is no answer line");
/// # Ok::<(), roognaps::NoAnswerLine>(())
/// ```
impl FromStr for AnswerLine {
    type Err = NoAnswerLine;

    fn from_str(line: &str) -> Result<Self, NoAnswerLine> {
        let read = read_line(line);
        // Numbers with leading zeros or signs, which `parse` takes, are written otherwise.
        let read = read.filter(|read| read.to_string() == line);
        read.ok_or_else(|| NoAnswerLine {
            line: line.to_string(),
        })
    }
}

fn read_line(line: &str) -> Option<AnswerLine> {
    let mut fields = line.splitn(4, '\t');
    let kind = fields.next()?;
    let module = fields.next()?.parse().ok()?;
    let number = fields.next()?.parse().ok()?;
    let question = Question::read(kind, module, number)?;
    let result = read_result(question, fields.next()?)?;
    Some(AnswerLine { question, result })
}

fn read_result(question: Question, fields: &str) -> Option<Result<Said, Refusal>> {
    if fields == "none" {
        let at = matches!(question, Question::At { .. });
        return at.then_some(Ok(Said::None));
    }
    let (word, rest) = fields.split_once('\t')?;
    match word {
        "type" => Some(Ok(Said::Type(rest.parse().ok()?))),
        "refused" => Refusal::of_line(rest.parse().ok()?).map(Err),
        _ => None,
    }
}

#[cfg(test)]
mod tests {
    use super::*;

    #[test]
    fn lines_are_read_and_written() {
        let lines = [
            "expr\t0\t2\ttype\tu32",
            "def\t7\t255\ttype\t(felt,struct:0.1)",
            "type\t0\t0\trefused\t9",
            "expr\t65535\t65535\trefused\t10",
            "at\t0\t24\ttype\tu32",
            "at\t7\t0\trefused\t7",
            "at\t65535\t4294967295\tnone",
        ];
        for line in lines {
            let read: AnswerLine = line.parse().expect(line);
            assert_eq!(read.to_string(), line);
        }
    }

    #[test]
    fn the_lines_of_at() {
        let question = Question::At {
            module: 2,
            position: u32::MAX,
        };
        assert_eq!((question.module(), question.number()), (2, u32::MAX));
        let owed = [
            ("type\t()", Ok(Said::Type(Type::Tuple(vec![])))),
            ("refused\t6", Err(Refusal::MissingChild)),
            ("none", Ok(Said::None)),
        ];
        for (rest, result) in owed {
            let line = format!("at\t2\t4294967295\t{rest}");
            let read: AnswerLine = line.parse().expect(&line);
            assert_eq!(read, AnswerLine { question, result });
            assert_eq!(read.to_string(), line);
        }
    }

    #[test]
    fn other_lines_are_errors() {
        let lines = [
            "",
            "refused\t4\t1",
            "expr",
            "expr\t0\t0\ttype",
            "expr\t0\t0\ttype\t",
            "expr\t0\t0\ttype\tfelt\n",
            "expr\t0\t0\ttype\tfelt\t",
            "expr\t00\t0\ttype\tfelt",
            "expr\t+0\t0\ttype\tfelt",
            "expr\t0\t4294967296\ttype\tfelt",
            "expr\t0\t0\trefused\t5",
            "expr\t0\t0\trefused\t11",
            "expr\t0\t0\tbudget\t1",
            "Expr\t0\t0\ttype\tfelt",
            "At\t0\t0\tnone",
            "at\t0\tnone",
            "at\t0\t0\tnone\t",
            "at\t0\t0\tnone\t0",
            "at\t0\t0\tNone",
            "at\t0\t0\ttype\tnone",
            "at\t0\t00\tnone",
            "at\t0\t4294967296\tnone",
            "expr\t0\t0\tnone",
            "def\t0\t0\tnone",
            "type\t0\t0\tnone",
        ];
        for line in lines {
            assert!(line.parse::<AnswerLine>().is_err(), "{line:?}");
        }
    }
}
