//! The limits of document 01, and which of them an index passes.

use std::fmt;

use crate::records::{DefinitionKind, Index, Module, Node, TypeExpr};

pub const BYTES: usize = 65_536;
pub const MODULES: usize = 8;
pub const SCOPES: usize = 128;
pub const TYPES: usize = 512;
pub const DEFINITIONS: usize = 256;
pub const EXPRESSIONS: usize = 512;
pub const QUESTIONS: usize = 256;
pub const ITEMS: usize = 2_048;
pub const NAME_BYTES: usize = 64;
/// Links, counts and indexes are below this.
pub const LINK: u64 = 65_536;
/// Positions are below this.
pub const POSITION: u64 = 1 << 32;

pub const OPEN_DEMANDS: usize = 256;
pub const DISTINCT_TYPES: usize = 256;
pub const TYPE_ITEMS: usize = 2_048;
pub const TEXT_BYTES: usize = 4_096;
/// felt, bool, u32, unknown, error and `()`.
pub const FIRST_TYPES: usize = 6;

/// A limit of the whole file that an index passes.
#[derive(Debug, Clone, PartialEq, Eq)]
pub struct PassedLimit {
    pub what: &'static str,
    pub count: usize,
    pub limit: usize,
}

impl fmt::Display for PassedLimit {
    fn fmt(&self, f: &mut fmt::Formatter<'_>) -> fmt::Result {
        let Self { what, count, limit } = self;
        let over = count.saturating_sub(*limit);
        write!(
            f,
            "{count} {what}: {over} more than the {limit} of an index file"
        )
    }
}

/// All limits of the "At most" line that the index passes.
pub fn passed(index: &Index) -> Vec<PassedLimit> {
    let sum = |count: fn(&Module) -> usize| index.modules.iter().map(count).sum::<usize>();
    let counts = [
        ("bytes", index.to_text().len(), BYTES),
        ("modules", index.modules.len(), MODULES),
        ("scopes", sum(|m| m.scopes.len()), SCOPES),
        ("types", sum(|m| m.types.len()), TYPES),
        ("definitions", sum(|m| m.definitions.len()), DEFINITIONS),
        ("expressions", sum(|m| m.expressions.len()), EXPRESSIONS),
        ("questions", index.questions.len(), QUESTIONS),
        ("list items", sum(Module::items), ITEMS),
    ];
    counts
        .into_iter()
        .filter(|(_, count, limit)| count > limit)
        .map(|(what, count, limit)| PassedLimit { what, count, limit })
        .collect()
}

impl TypeExpr {
    /// Items of `..` lists in the line.
    pub fn items(&self) -> usize {
        match self {
            Self::Tuple(elements) => elements.len(),
            _ => 0,
        }
    }
}

impl DefinitionKind {
    /// Items of `..` lists in the line; a name with its type is one.
    pub fn items(&self) -> usize {
        match self {
            Self::Fn { parameters, .. } => parameters.len(),
            Self::Struct { fields } => fields.len(),
            Self::Let { path, .. } => path.len(),
            _ => 0,
        }
    }
}

impl Node {
    /// Items of `..` lists in the line.
    pub fn items(&self) -> usize {
        match self {
            Self::Call { args, .. } => args.len(),
            Self::Tuple { elements } | Self::Array { elements } => elements.len(),
            _ => 0,
        }
    }
}

impl Module {
    /// Items of all `..` lists in the module.
    pub fn items(&self) -> usize {
        let types = self.types.iter().map(TypeExpr::items);
        let definitions = self.definitions.iter().map(|d| d.kind.items());
        let expressions = self.expressions.iter().map(|e| e.node.items());
        types.chain(definitions).chain(expressions).sum()
    }
}
