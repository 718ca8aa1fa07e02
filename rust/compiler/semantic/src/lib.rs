//! The original semantic crate over the shims. The crate root has the original's exports, without
//! the modules that aren't at hand; `visitor` is written anew.

#![cfg(originals)]
#![allow(clippy::all, dead_code, unused_imports)]

use cairo_m_compiler_parser as parser;
pub use parser::{ParsedModule, SourceFile, parse_file};

include!(concat!(env!("OUT_DIR"), "/modules.rs"));

pub mod visitor;

pub use db::{
    Crate, SemanticDatabaseImpl, SemanticDb, module_semantic_index, project_semantic_index,
};
pub use definition::{Definition, DefinitionKind, Definitions};
pub use place::{FileScopeId, Scope, ScopeKind};
pub use semantic_index::{DefinitionId, ExpressionId, SemanticIndex, semantic_index_from_module};
pub use types::{FunctionSignatureId, StructTypeId, TypeData, TypeId};

pub type File = SourceFile;
