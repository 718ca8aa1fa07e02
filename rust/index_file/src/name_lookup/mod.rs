//! Where a name is found: the two lookups of `semantic_index.rs` that go up the scopes, under their names
//! there, each with the scope that has the name; and the name that an expression uses. Nothing here
//! assumes that the records were loaded.

use std::iter::successors;

use crate::records::{Definition, DefinitionKind, Module, Node};

/// A definition of a name, and the scope that supplied it.
#[derive(Debug, Clone, Copy, PartialEq, Eq)]
pub struct FoundName {
    pub scope: usize,
    pub definition: usize,
}

/// What supplies a name that an expression uses.
#[derive(Debug, Clone, Copy, PartialEq, Eq)]
pub enum Supplied {
    By(FoundName),
    /// The built-in function `assert`: no definition is asked, even where one has the name.
    BuiltIn,
    /// No definition of the name is meant here.
    Nowhere,
}

/// A name that an expression uses.
#[derive(Debug, Clone, Copy, PartialEq, Eq)]
pub struct NameUse<'m> {
    pub name: &'m str,
    /// Where the name stands.
    pub span: (u64, u64),
    pub supplied: Supplied,
}

/// `is_builtin_function_name`.
pub fn is_builtin_function_name(name: &str) -> bool {
    name == "assert"
}

impl DefinitionKind {
    /// `is_top_level_allowed`: a definition of this kind may stand behind its use.
    fn is_top_level_allowed(&self) -> bool {
        matches!(
            self,
            Self::Fn { .. } | Self::Struct { .. } | Self::Use { .. }
        )
    }

    /// `value_expr_id` of a let.
    fn let_value(&self) -> Option<usize> {
        match self {
            Self::Let { value, .. } => *value,
            _ => None,
        }
    }
}

impl Module {
    /// A scope and its ancestors, nearest first. A parent has a lower number, so the scope's number and 1
    /// are enough, whatever the records say. A number without a record has no chain and ends one.
    fn scope_chain(&self, scope: usize) -> impl Iterator<Item = usize> + '_ {
        let upward = successors(Some(scope), |scope| self.scopes.get(*scope)?.parent);
        let most = scope.saturating_add(1);
        upward
            .take(most)
            .take_while(|scope| *scope < self.scopes.len())
    }

    /// The last definition of the name in the scope for which the test holds.
    fn last_named(
        &self,
        scope: usize,
        name: &str,
        test: impl Fn(&Definition) -> bool,
    ) -> Option<FoundName> {
        let definition = self.definitions.iter().rposition(|definition| {
            definition.scope == scope && definition.name == name && test(definition)
        })?;
        Some(FoundName { scope, definition })
    }

    /// `latest_definition_index_by_name`, in the module's first scope without a parent: what a `use` of
    /// another module leads to.
    pub fn latest_in_root(&self, name: &str) -> Option<FoundName> {
        let root = self.scopes.iter().position(|s| s.parent.is_none())?;
        self.last_named(root, name, |_| true)
    }

    /// `latest_definition_index_by_name_in_chain`: the last definition of the name in the nearest scope
    /// that has one, wherever it stands in the source. None if no scope of the chain has one.
    pub fn latest_definition_index_by_name_in_chain(
        &self,
        scope: usize,
        name: &str,
    ) -> Option<FoundName> {
        let mut chain = self.scope_chain(scope);
        chain.find_map(|scope| self.last_named(scope, name, |_| true))
    }

    /// `resolve_name_at_position`: the last definition of the name that is visible at the span, in the
    /// nearest scope that has one. None if no scope of the chain has one.
    pub fn resolve_name_at_position(
        &self,
        name: &str,
        scope: usize,
        span: (u64, u64),
    ) -> Option<FoundName> {
        let visible = |definition: &Definition| self.is_visible_at(definition, span);
        let mut chain = self.scope_chain(scope);
        chain.find_map(|scope| self.last_named(scope, name, visible))
    }

    /// The definition may be meant by its name at the span: it is of a kind that may stand behind its use
    /// or doesn't begin behind it, and isn't the let whose value the span lies in.
    fn is_visible_at(&self, definition: &Definition, (start, end): (u64, u64)) -> bool {
        let kind = &definition.kind;
        let in_order = kind.is_top_level_allowed() || definition.full_span.0 <= start;
        let value = kind.let_value().and_then(|e| self.expressions.get(e));
        let in_value = value.is_some_and(|value| value.span.0 <= start && end <= value.span.1);
        in_order && !in_value
    }

    /// The name that an expression uses, and what supplies it, as type resolution finds it. None if the
    /// expression is absent, or neither an identifier nor a struct literal.
    pub fn name_used_by(&self, expression: usize) -> Option<NameUse<'_>> {
        let record = self.expressions.get(expression)?;
        match &record.node {
            Node::Ident { name } => Some(NameUse {
                name,
                span: record.span,
                supplied: self.identifier(expression, name),
            }),
            Node::StructLit { name, span } => Some(NameUse {
                name,
                span: *span,
                supplied: supplied(self.resolve_name_at_position(name, record.scope, *span)),
            }),
            _ => None,
        }
    }

    /// An identifier means the definition that is recorded for it, whose own scope then supplies it. Only
    /// where none is recorded is the name looked up.
    fn identifier(&self, expression: usize, name: &str) -> Supplied {
        if is_builtin_function_name(name) {
            return Supplied::BuiltIn;
        }
        supplied(self.recorded(expression).or_else(|| {
            let record = self.expressions.get(expression)?;
            self.resolve_name_at_position(name, record.scope, record.span)
        }))
    }

    /// `definition_for_identifier_expr`, with the definition's scope.
    fn recorded(&self, expression: usize) -> Option<FoundName> {
        let definition = self.expressions.get(expression)?.definition?;
        let scope = self.definitions.get(definition)?.scope;
        Some(FoundName { scope, definition })
    }
}

fn supplied(found: Option<FoundName>) -> Supplied {
    found.map_or(Supplied::Nowhere, Supplied::By)
}

#[cfg(test)]
mod tests;
