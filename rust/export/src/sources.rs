//! Cairo-M source text to `SemanticIndex`es, by the original parser and index builder.

use std::collections::HashMap;
use std::fmt;
use std::path::{Path, PathBuf};

use cairo_m_compiler_diagnostics::Diagnostic;
use cairo_m_compiler_parser::ParsedModule;
use cairo_m_compiler_semantic as semantic;
use index_file::records::Index;
use semantic::db::{project_parse_diagnostics, project_parsed_modules};
use semantic::{Crate, File, SemanticDatabaseImpl, SemanticIndex};

use crate::places::Places;
use crate::{ExportError, ModuleIndex, all_questions, records};

/// One module.
#[derive(Debug, Clone)]
pub struct Source {
    pub module: String,
    pub path: String,
    pub text: String,
}

impl Source {
    /// The source that an argument `[MODULE=]FILE` names. A module is called by the file's stem if
    /// not said otherwise. The error says which file can't be read and why.
    pub fn from_argument(argument: &str) -> Result<Self, String> {
        let (module, path) = match argument.split_once('=') {
            Some((module, path)) => (module.to_string(), path),
            None => {
                let stem = Path::new(argument).file_stem().unwrap_or_default();
                (stem.to_string_lossy().to_string(), argument)
            }
        };
        let text = std::fs::read_to_string(path).map_err(|error| format!("{path}: {error}"))?;
        Ok(Self {
            module,
            path: path.to_string(),
            text,
        })
    }

    /// Line and column of a byte, from 1.
    pub fn line_and_column(&self, at: usize) -> (usize, usize) {
        let before = &self.text.as_bytes()[..at.min(self.text.len())];
        let line = before.iter().filter(|byte| **byte == b'\n').count() + 1;
        let line_start = before.iter().rposition(|byte| *byte == b'\n');
        let column = before.len() - line_start.map_or(0, |at| at + 1) + 1;
        (line, column)
    }

    /// The byte of a line and a column, both from 1: where `line_and_column` gives these two. The LF is
    /// the last byte of its line. None where the text has no such line, or the line no such column.
    pub fn byte_at(&self, line: usize, column: usize) -> Option<usize> {
        let (line, column) = (line.checked_sub(1)?, column.checked_sub(1)?);
        let mut lines = self.text.split_inclusive('\n').map(str::len);
        let before: usize = lines.by_ref().take(line).sum();
        (column < lines.next()?).then_some(before + column)
    }
}

#[derive(Debug, Clone, PartialEq, Eq)]
pub enum SourceError {
    /// What the parser or the index builder complained about, in the order of the sources.
    Messages(Vec<Message>),
    Export(ExportError),
}

/// A complaint about a place in a source, or about the project as a whole.
#[derive(Debug, Clone, PartialEq, Eq, PartialOrd, Ord)]
pub struct Message {
    /// Which of the sources; after all of them for the project as a whole.
    source: usize,
    /// Path, line and column, from 1.
    pub place: Option<(String, usize, usize)>,
    pub text: String,
}

impl fmt::Display for Message {
    fn fmt(&self, f: &mut fmt::Formatter<'_>) -> fmt::Result {
        match &self.place {
            Some((path, line, column)) => write!(f, "{path}:{line}:{column}: {}", self.text),
            None => write!(f, "{}", self.text),
        }
    }
}

impl fmt::Display for SourceError {
    fn fmt(&self, f: &mut fmt::Formatter<'_>) -> fmt::Result {
        match self {
            Self::Messages(messages) => {
                let lines: Vec<String> = messages.iter().map(Message::to_string).collect();
                write!(f, "{}", lines.join("\n"))
            }
            Self::Export(error) => write!(f, "{error}"),
        }
    }
}

impl std::error::Error for SourceError {}

impl From<ExportError> for SourceError {
    fn from(error: ExportError) -> Self {
        Self::Export(error)
    }
}

/// What the original builder makes of each source, in their order.
pub fn semantic_indexes(sources: &[Source]) -> Result<Vec<SemanticIndex>, SourceError> {
    let compiled = compile(sources, |_, _| ())?.into_iter();
    Ok(compiled.map(|(index, ())| index).collect())
}

/// What the original builder makes of each source, with something that its parse tree has beside that, in
/// their order.
fn compile<T>(
    sources: &[Source],
    beside: impl Fn(&Source, &ParsedModule) -> T,
) -> Result<Vec<(SemanticIndex, T)>, SourceError> {
    let db = SemanticDatabaseImpl::default();
    let mut modules = HashMap::new();
    for source in sources {
        let file = File::new(&db, source.text.clone(), source.path.clone());
        if modules.insert(source.module.clone(), file).is_some() {
            let name = source.module.clone();
            return Err(ExportError::SameModule { name }.into());
        }
    }
    let crate_id = Crate::new(&db, modules, String::new(), PathBuf::new(), String::new());

    let diagnostics = project_parse_diagnostics(&db, crate_id);
    if !diagnostics.is_empty() {
        return Err(messages(sources, diagnostics));
    }
    let project = semantic::project_semantic_index(&db, crate_id)
        .map_err(|diagnostics| messages(sources, diagnostics))?;
    let parsed = project_parsed_modules(&db, crate_id);
    let compiled = sources.iter().enumerate().map(|(number, source)| {
        let index = project.modules().get(&source.module);
        let tree = parsed.get(&source.module);
        let (Some(index), Some(tree)) = (index, tree) else {
            return Err(of_module(number, source, "has no index"));
        };
        Ok((index.clone(), beside(source, tree)))
    });
    compiled.collect()
}

/// What neither parser nor builder complained of.
fn of_module(number: usize, source: &Source, fault: &str) -> SourceError {
    SourceError::Messages(vec![Message {
        source: number,
        place: None,
        text: format!("module {} {fault}", source.module),
    }])
}

/// The index of the sources, in their order, with a question for each expression and each definition,
/// and what the original builder made. The index may pass limits.
pub fn export_sources(sources: &[Source]) -> Result<(Index, Vec<SemanticIndex>), SourceError> {
    let indexes = semantic_indexes(sources)?;
    let mut index = records(&named(sources, &indexes))?;
    index.questions = all_questions(&index);
    Ok((index, indexes))
}

/// The index of the sources, in their order, without questions, and the places of each module. It is an
/// error if the scopes of a parse tree aren't those of the records. The index may pass limits.
pub fn export_with_places(sources: &[Source]) -> Result<(Index, Vec<Places>), SourceError> {
    let compiled = compile(sources, |source, tree| Places::new(tree, source.text.len()))?;
    let (indexes, places): (Vec<SemanticIndex>, Vec<Places>) = compiled.into_iter().unzip();
    let index = records(&named(sources, &indexes))?;
    let modules = index.modules.iter().zip(&places);
    for (number, (module, places)) in modules.enumerate() {
        if !places.are_of(module) {
            let fault = "has other scopes in its parse tree than in its index";
            return Err(of_module(number, &sources[number], fault));
        }
    }
    Ok((index, places))
}

fn named<'s>(sources: &'s [Source], indexes: &'s [SemanticIndex]) -> Vec<ModuleIndex<'s>> {
    let modules = sources.iter().zip(indexes);
    let modules = modules.map(|(source, index)| ModuleIndex {
        name: &source.module,
        index,
    });
    modules.collect()
}

fn messages(sources: &[Source], diagnostics: impl IntoIterator<Item = Diagnostic>) -> SourceError {
    let diagnostics = diagnostics.into_iter();
    let mut messages: Vec<Message> = diagnostics.map(|d| message(sources, d)).collect();
    // The project's modules come in no particular order.
    messages.sort();
    SourceError::Messages(messages)
}

fn message(sources: &[Source], diagnostic: Diagnostic) -> Message {
    let found = sources.iter().position(|s| s.path == diagnostic.file_path);
    let place = found.map(|number| {
        let source = &sources[number];
        let (line, column) = source.line_and_column(diagnostic.span.start);
        (source.path.clone(), line, column)
    });
    Message {
        source: found.unwrap_or(sources.len()),
        place,
        text: diagnostic.message,
    }
}
