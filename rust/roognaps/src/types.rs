//! Types, and their text in an answer line.

use std::fmt;
use std::str::FromStr;

/// No type of an answer is nested deeper: a question holds at most 256 types, and a part of a type is
/// another one that was there before it.
const DEEPEST: usize = 256;

/// A type, as the text of an answer line has it.
///
/// ```
/// use roognaps::Type;
///
/// let pair: Type = "(felt,[struct:0.2;7])".parse()?;
/// let array = Type::FixedArray {
///     element: Box::new(Type::Struct { module: 0, definition: 2 }),
///     size: 7,
/// };
/// assert_eq!(pair, Type::Tuple(vec![Type::Felt, array]));
/// assert_eq!(pair.to_string(), "(felt,[struct:0.2;7])");
/// # Ok::<(), roognaps::NoType>(())
/// ```
#[derive(Debug, Clone, PartialEq, Eq, Hash)]
#[non_exhaustive]
pub enum Type {
    /// `felt`
    Felt,
    /// `bool`
    Bool,
    /// `u32`
    U32,
    /// `unknown`: nothing says what it is, as for a `let` without type and value.
    Unknown,
    /// `error`: something doesn't fit. It is an answer, not a refusal.
    Error,
    /// `()`, `(T)`, `(T,U)`
    Tuple(Vec<Type>),
    /// `ptr(T)`
    Pointer(Box<Type>),
    /// `[T;n]`
    FixedArray {
        /// The type of each element.
        element: Box<Type>,
        /// How many elements.
        size: u64,
    },
    /// `struct:m.d`
    Struct {
        /// The number of its module in the file.
        module: u32,
        /// The number of its definition in the module.
        definition: u32,
    },
    /// `fn:m.d`
    Function {
        /// The number of its module in the file.
        module: u32,
        /// The number of its definition in the module.
        definition: u32,
    },
}

impl fmt::Display for Type {
    fn fmt(&self, f: &mut fmt::Formatter<'_>) -> fmt::Result {
        match self {
            Self::Felt => f.write_str("felt"),
            Self::Bool => f.write_str("bool"),
            Self::U32 => f.write_str("u32"),
            Self::Unknown => f.write_str("unknown"),
            Self::Error => f.write_str("error"),
            Self::Tuple(elements) => {
                f.write_str("(")?;
                for (number, element) in elements.iter().enumerate() {
                    if number > 0 {
                        f.write_str(",")?;
                    }
                    write!(f, "{element}")?;
                }
                f.write_str(")")
            }
            Self::Pointer(element) => write!(f, "ptr({element})"),
            Self::FixedArray { element, size } => write!(f, "[{element};{size}]"),
            Self::Struct { module, definition } => write!(f, "struct:{module}.{definition}"),
            Self::Function { module, definition } => write!(f, "fn:{module}.{definition}"),
        }
    }
}

/// A text that is no type: where it stops being one.
#[derive(Debug, Clone, Copy, PartialEq, Eq)]
pub struct NoType {
    /// The byte, from 0, at which no type goes on.
    pub at: usize,
}

impl fmt::Display for NoType {
    fn fmt(&self, f: &mut fmt::Formatter<'_>) -> fmt::Result {
        write!(f, "no type: it goes wrong at byte {}", self.at)
    }
}

impl std::error::Error for NoType {}

/// Reads exactly what `Display` writes, nested at most 256 deep.
impl FromStr for Type {
    type Err = NoType;

    fn from_str(text: &str) -> Result<Self, NoType> {
        let mut reader = Reader { text, at: 0 };
        match reader.read_type(DEEPEST) {
            Some(read) if reader.at == text.len() => Ok(read),
            _ => Err(NoType { at: reader.at }),
        }
    }
}

struct Reader<'t> {
    text: &'t str,
    at: usize,
}

impl Reader<'_> {
    fn rest(&self) -> &str {
        self.text.get(self.at..).unwrap_or_default()
    }

    /// Goes over the word if it is next.
    fn word(&mut self, word: &str) -> Option<()> {
        self.rest().starts_with(word).then(|| self.at += word.len())
    }

    /// A decimal number without leading zeros.
    fn number(&mut self) -> Option<u64> {
        let rest = self.rest();
        let digits = rest.bytes().take_while(u8::is_ascii_digit).count();
        let text = rest.get(..digits)?;
        if digits > 1 && text.starts_with('0') {
            return None;
        }
        let number = text.parse().ok()?;
        self.at += digits;
        Some(number)
    }

    fn small_number(&mut self) -> Option<u32> {
        let before = self.at;
        let small = u32::try_from(self.number()?).ok();
        if small.is_none() {
            self.at = before;
        }
        small
    }

    fn module_and_definition(&mut self) -> Option<(u32, u32)> {
        let module = self.small_number()?;
        self.word(".")?;
        Some((module, self.small_number()?))
    }

    fn read_type(&mut self, deeper: usize) -> Option<Type> {
        let deeper = deeper.checked_sub(1)?;
        let words = [
            ("felt", Type::Felt),
            ("bool", Type::Bool),
            ("u32", Type::U32),
            ("unknown", Type::Unknown),
            ("error", Type::Error),
        ];
        for (word, read) in words {
            if self.word(word).is_some() {
                return Some(read);
            }
        }
        if self.word("(").is_some() {
            return self.read_elements(deeper).map(Type::Tuple);
        }
        if self.word("ptr(").is_some() {
            let element = self.read_type(deeper)?;
            self.word(")")?;
            return Some(Type::Pointer(Box::new(element)));
        }
        if self.word("[").is_some() {
            let element = Box::new(self.read_type(deeper)?);
            self.word(";")?;
            let size = self.number()?;
            self.word("]")?;
            return Some(Type::FixedArray { element, size });
        }
        if self.word("struct:").is_some() {
            let (module, definition) = self.module_and_definition()?;
            return Some(Type::Struct { module, definition });
        }
        self.word("fn:")?;
        let (module, definition) = self.module_and_definition()?;
        Some(Type::Function { module, definition })
    }

    /// The elements of a tuple behind its first parenthesis, with the last one.
    fn read_elements(&mut self, deeper: usize) -> Option<Vec<Type>> {
        let mut elements = Vec::new();
        if self.word(")").is_some() {
            return Some(elements);
        }
        loop {
            elements.push(self.read_type(deeper)?);
            if self.word(")").is_some() {
                return Some(elements);
            }
            self.word(",")?;
        }
    }
}

#[cfg(test)]
mod tests {
    use super::*;

    #[test]
    fn what_is_written_is_read_again() {
        let texts = [
            "felt",
            "bool",
            "u32",
            "unknown",
            "error",
            "()",
            "(felt)",
            "(felt,(u32,()),ptr(bool))",
            "ptr(ptr(error))",
            "[[u32;0];18446744073709551615]",
            "struct:0.255",
            "fn:7.0",
            "([struct:1.2;3],fn:4.5)",
        ];
        for text in texts {
            let read: Type = text.parse().expect(text);
            assert_eq!(read.to_string(), text);
        }
    }

    #[test]
    fn other_texts_are_errors_with_a_place() {
        let texts = [
            ("", 0),
            ("felts", 4),
            ("Felt", 0),
            ("(felt", 5),
            ("(felt,)", 6),
            ("(,felt)", 1),
            ("( felt)", 1),
            ("ptr()", 4),
            ("ptr(felt", 8),
            ("[felt]", 5),
            ("[felt;]", 6),
            ("[felt;01]", 6),
            ("[felt;-1]", 6),
            ("[felt;18446744073709551616]", 6),
            ("struct:0", 8),
            ("struct:.1", 7),
            ("fn:4294967296.0", 3),
            ("fn:0.4294967296", 5),
            ("felt ", 4),
            ("\u{e9}", 0),
            ("(felt,\u{e9})", 6),
        ];
        for (text, at) in texts {
            assert_eq!(text.parse::<Type>(), Err(NoType { at }), "{text:?}");
        }
    }

    #[test]
    fn nesting_ends_at_256() {
        let nested = |depth: usize| format!("{}felt{}", "ptr(".repeat(depth), ")".repeat(depth));
        assert!(nested(255).parse::<Type>().is_ok());
        assert!(nested(256).parse::<Type>().is_err());
        assert!("(".repeat(100_000).parse::<Type>().is_err());
    }
}
