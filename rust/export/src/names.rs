//! Names and numbers in the forms of an index file.

use chumsky::span::SimpleSpan;
use index_file::limits;

use crate::error::{ExportError, NameFault};

/// None if the text is a name of an index file.
pub fn name_fault(text: &str) -> Option<NameFault> {
    if text.is_empty() {
        return Some(NameFault::Empty);
    }
    if text == "-" {
        return Some(NameFault::Dash);
    }
    if text.len() > limits::NAME_BYTES {
        return Some(NameFault::Long { bytes: text.len() });
    }
    let mut outside = text.bytes().filter(|byte| !(0x21..=0x7E).contains(byte));
    outside.next().map(|byte| NameFault::Byte { byte })
}

/// What errors of one module are told with.
#[derive(Clone, Copy)]
pub struct Place<'m> {
    pub module: &'m str,
}

impl Place<'_> {
    pub fn name(self, text: &str) -> Result<String, ExportError> {
        match name_fault(text) {
            None => Ok(text.to_string()),
            Some(fault) => Err(ExportError::Name {
                module: Some(self.module.to_string()),
                text: text.to_string(),
                fault,
            }),
        }
    }

    pub fn span(self, span: SimpleSpan<usize>) -> Result<(u64, u64), ExportError> {
        let (start, end) = (span.start as u64, span.end as u64);
        let position = start.max(end);
        if position >= limits::POSITION {
            return Err(ExportError::Position {
                module: self.module.to_string(),
                position,
            });
        }
        Ok((start, end))
    }

    /// A count or index.
    pub fn small(self, number: usize, what: &'static str) -> Result<usize, ExportError> {
        if number as u64 >= limits::LINK {
            return Err(ExportError::Number {
                module: self.module.to_string(),
                what,
                number: number as u64,
            });
        }
        Ok(number)
    }
}
