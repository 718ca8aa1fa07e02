//! Reading an index file by document 01, with its refusals 2 to 5 and their order.

mod fields;
mod links;

use crate::limits;
use crate::records::*;
use fields::Fields;

/// A refused file: the refusal's number and the line, from 1, or 0 for the file as a whole.
#[derive(Debug, Clone, Copy, PartialEq, Eq)]
pub struct Refusal {
    pub number: u8,
    pub line: usize,
}

impl Refusal {
    /// The one line that a refused file is answered with, without its LF.
    pub fn answer_line(self) -> String {
        format!("refused\t{}\t{}", self.number, self.line)
    }
}

fn refused<T>(number: u8, line: usize) -> Result<T, Refusal> {
    Err(Refusal { number, line })
}

/// The first line of each version, with its LF.
const FIRST_LINES: &[(&[u8], u32)] = &[(b"index\t1\n", 1)];

pub fn load(bytes: &[u8]) -> Result<Index, Refusal> {
    if bytes.len() > limits::BYTES {
        return refused(3, 0);
    }
    let found = FIRST_LINES
        .iter()
        .find_map(|(line, version)| Some((bytes.strip_prefix(*line)?, *version)));
    let Some((rest, version)) = found else {
        return refused(2, 1);
    };
    let index = Reader::new(version).read(rest)?;
    links::check(&index)?;
    Ok(index)
}

/// The record kinds in the order in which they stand: `M` to `E` in each module, `Q` last.
#[derive(Debug, Clone, Copy, PartialEq, Eq, PartialOrd, Ord)]
enum Kind {
    M,
    S,
    T,
    D,
    E,
    Q,
}

impl Kind {
    fn of(first_field: &[u8]) -> Option<Self> {
        match first_field {
            b"M" => Some(Self::M),
            b"S" => Some(Self::S),
            b"T" => Some(Self::T),
            b"D" => Some(Self::D),
            b"E" => Some(Self::E),
            b"Q" => Some(Self::Q),
            _ => None,
        }
    }

    const fn limit(self) -> usize {
        match self {
            Self::M => limits::MODULES,
            Self::S => limits::SCOPES,
            Self::T => limits::TYPES,
            Self::D => limits::DEFINITIONS,
            Self::E => limits::EXPRESSIONS,
            Self::Q => limits::QUESTIONS,
        }
    }

    /// Whether a line of this kind may stand behind one of the previous kind.
    fn may_follow(self, previous: Option<Self>) -> bool {
        match (previous, self) {
            (Some(Self::Q), kind) => kind == Self::Q,
            (_, Self::M | Self::Q) => true,
            (None, _) => false,
            (Some(previous), kind) => previous <= kind,
        }
    }
}

enum Record {
    M(String),
    S(Scope),
    T(TypeExpr),
    D(Definition),
    E(Expr),
    Q(Question),
}

impl Record {
    fn items(&self) -> usize {
        match self {
            Self::T(ty) => ty.items(),
            Self::D(definition) => definition.kind.items(),
            Self::E(expression) => expression.node.items(),
            Self::M(_) | Self::S(_) | Self::Q(_) => 0,
        }
    }
}

/// Reads the lines behind the first; refusals 3 and 4 at the first line that has one, 3 before 4.
struct Reader {
    index: Index,
    /// Lines of each kind so far, by their first field.
    counts: [usize; 6],
    items: usize,
    previous: Option<Kind>,
    line_number: usize,
}

impl Reader {
    fn new(version: u32) -> Self {
        Self {
            index: Index {
                version,
                ..Index::default()
            },
            counts: [0; 6],
            items: 0,
            previous: None,
            line_number: 1,
        }
    }

    fn read(mut self, mut rest: &[u8]) -> Result<Index, Refusal> {
        while !rest.is_empty() {
            self.line_number += 1;
            match rest.iter().position(|&b| b == b'\n') {
                Some(length) => {
                    self.line(&rest[..length], true)?;
                    rest = &rest[length + 1..];
                }
                None => self.line(std::mem::take(&mut rest), false)?,
            }
        }
        Ok(self.index)
    }

    fn line(&mut self, line: &[u8], ends_in_lf: bool) -> Result<(), Refusal> {
        let mut fields = Fields::new(line.split(|&b| b == b'\t'));
        let Some(kind) = fields.kind() else {
            return refused(4, self.line_number);
        };
        self.counts[kind as usize] += 1;
        if self.counts[kind as usize] > kind.limit() {
            return refused(3, self.line_number);
        }
        let Some(record) = fields.record(kind) else {
            return refused(4, self.line_number);
        };
        self.items += record.items();
        if self.items > limits::ITEMS {
            return refused(3, self.line_number);
        }
        if !ends_in_lf || !kind.may_follow(self.previous) {
            return refused(4, self.line_number);
        }
        self.previous = Some(kind);
        self.keep(record)
    }

    fn keep(&mut self, record: Record) -> Result<(), Refusal> {
        if let Record::M(name) = record {
            if self.index.modules.iter().any(|module| module.name == name) {
                return refused(4, self.line_number);
            }
            self.index.modules.push(Module {
                name,
                ..Module::default()
            });
            return Ok(());
        }
        if let Record::Q(question) = record {
            self.index.questions.push(question);
            return Ok(());
        }
        let module = self.index.modules.last_mut();
        let module = module.expect("only M and Q may follow nothing");
        match record {
            Record::S(scope) => module.scopes.push(scope),
            Record::T(ty) => module.types.push(ty),
            Record::D(definition) => module.definitions.push(definition),
            Record::E(expression) => module.expressions.push(expression),
            Record::M(_) | Record::Q(_) => unreachable!("kept above"),
        }
        Ok(())
    }
}
