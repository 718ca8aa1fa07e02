//! From the `SemanticIndex`es of a compilation to the text of an index file (document 01).
//!
//! A compiler calls [`index_text`] with its modules' names and indexes. For Cairo-M source text,
//! [`sources`] has the original parser and index builder in front of it. Only public items of the
//! original crates are used, so the same text compiles against them in their own workspace.

#![cfg(originals)]

mod error;
mod module;
mod names;
mod nodes;
pub mod places;
pub mod sources;

use cairo_m_compiler_semantic::SemanticIndex;
use index_file::limits;
use index_file::load::load;
use index_file::records::{Index, Question};

pub use error::{ExportError, NameFault};

/// A module's name and what the index builder made of it.
#[derive(Clone, Copy)]
pub struct ModuleIndex<'i> {
    pub name: &'i str,
    pub index: &'i SemanticIndex,
}

/// The records of the modules, in the order given, without questions. The result may pass limits.
pub fn records(modules: &[ModuleIndex]) -> Result<Index, ExportError> {
    let mut index = Index::default();
    for module in modules {
        if index.modules.iter().any(|other| other.name == module.name) {
            return Err(ExportError::SameModule {
                name: module.name.to_string(),
            });
        }
        index.modules.push(module::Exporter::new(module).module()?);
    }
    Ok(index)
}

/// A question for each expression and then each definition, module by module.
pub fn all_questions(index: &Index) -> Vec<Question> {
    let mut questions = Vec::new();
    for (module, records) in index.modules.iter().enumerate() {
        let expressions = 0..records.expressions.len();
        questions.extend(expressions.map(|expression| Question::Expr {
            module,
            expression,
            context: None,
        }));
        let definitions = 0..records.definitions.len();
        questions.extend(definitions.map(|definition| Question::Def { module, definition }));
    }
    questions
}

/// The text of an index within the limits; loading it gives the same index.
pub fn text(index: &Index) -> Result<String, ExportError> {
    let passed = limits::passed(index);
    if !passed.is_empty() {
        return Err(ExportError::Limits(passed));
    }
    let text = index.to_text();
    match load(text.as_bytes()) {
        Ok(loaded) if loaded == *index => Ok(text),
        Ok(_) => Err(ExportError::NotAsWritten),
        Err(refusal) => Err(ExportError::Refused(refusal)),
    }
}

/// The text of an index file that holds the modules, in the order given, and asks the questions.
pub fn index_text(
    modules: &[ModuleIndex],
    questions: Vec<Question>,
) -> Result<String, ExportError> {
    let mut index = records(modules)?;
    index.questions = questions;
    text(&index)
}
