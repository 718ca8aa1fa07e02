//! The original's own lookups along the chain of scopes. They give the definition, which has its scope.

use cairo_m_compiler_semantic as semantic;
use index_file::name_lookup::FoundName;
use semantic::semantic_index::DefinitionIndex;
use semantic::{FileScopeId, SemanticIndex};

use crate::ask::Oracle;
use crate::spans::real_span;

impl Oracle<'_> {
    /// `latest_definition_index_by_name_in_chain`; none if the module is absent.
    pub fn latest_definition_index_by_name_in_chain(
        &self,
        module: usize,
        scope: usize,
        name: &str,
    ) -> Option<FoundName> {
        let index = self.semantic_index(module)?;
        let scope = FileScopeId::new(scope);
        let found = index.latest_definition_index_by_name_in_chain(scope, name)?;
        with_scope(index, found)
    }

    /// `resolve_name_at_position`; none if the module is absent.
    pub fn resolve_name_at_position(
        &self,
        module: usize,
        name: &str,
        scope: usize,
        span: (u64, u64),
    ) -> Option<FoundName> {
        let index = self.semantic_index(module)?;
        let scope = FileScopeId::new(scope);
        let (found, _) = index.resolve_name_at_position(name, scope, real_span(span))?;
        with_scope(index, found)
    }
}

fn with_scope(index: &SemanticIndex, definition: DefinitionIndex) -> Option<FoundName> {
    let scope = index.definition(definition)?.scope_id.as_usize();
    let definition = definition.index();
    Some(FoundName { scope, definition })
}
