//! Refusal 5.

use super::{Refusal, refused};
use crate::records::*;

/// Refusal 5: the first line with a link to no record, a type that isn't earlier, a wrong parent,
/// or an M whose module has no scope.
pub(super) fn check(index: &Index) -> Result<(), Refusal> {
    let mut line = 1;
    let mut check = |right: bool| {
        line += 1;
        if right { Ok(()) } else { refused(5, line) }
    };

    for module in &index.modules {
        check(!module.scopes.is_empty())?;
        for (number, scope) in module.scopes.iter().enumerate() {
            check(match scope.parent {
                None => number == 0,
                Some(parent) => parent < number,
            })?;
        }
        for (number, ty) in module.types.iter().enumerate() {
            check(match ty {
                TypeExpr::Ptr(t) | TypeExpr::Array(t, _) => *t < number,
                TypeExpr::Tuple(ts) => ts.iter().all(|t| *t < number),
                _ => true,
            })?;
        }
        for definition in &module.definitions {
            check(module.definition_links_exist(definition))?;
        }
        for expression in &module.expressions {
            check(module.expression_links_exist(expression))?;
        }
    }
    for question in &index.questions {
        check(question_links_exist(index, question))?;
    }
    Ok(())
}

impl Module {
    fn has_scope(&self, scope: usize) -> bool {
        scope < self.scopes.len()
    }

    fn has_type(&self, ty: usize) -> bool {
        ty < self.types.len()
    }

    fn has_expression(&self, expression: usize) -> bool {
        expression < self.expressions.len()
    }

    fn definition_links_exist(&self, definition: &Definition) -> bool {
        let kind = &definition.kind;
        self.has_scope(definition.scope)
            && kind.types().into_iter().all(|ty| self.has_type(ty))
            && kind
                .expressions()
                .into_iter()
                .all(|e| self.has_expression(e))
    }

    fn expression_links_exist(&self, expression: &Expr) -> bool {
        let Expr { origin, node, .. } = expression;
        let definitions = self.definitions.len();
        let mut children = node.children().into_iter().flatten();
        self.has_scope(expression.scope)
            && expression.expected.is_none_or(|ty| self.has_type(ty))
            && expression.definition.is_none_or(|d| d < definitions)
            && origin.link().is_none_or(|link| self.has_expression(link))
            && node.ty().is_none_or(|ty| self.has_type(ty))
            && children.all(|child| self.has_expression(child))
    }
}

/// An absent module, expression or definition is answered, not refused; a position is no link.
fn question_links_exist(index: &Index, question: &Question) -> bool {
    match *question {
        Question::Expr {
            module,
            expression,
            context,
        } => index.modules.get(module).is_none_or(|module| {
            !module.has_expression(expression) || context.is_none_or(|ty| module.has_type(ty))
        }),
        Question::Def { .. } | Question::At { .. } => true,
        Question::Type { module, ty, scope } => index
            .modules
            .get(module)
            .is_none_or(|module| module.has_type(ty) && module.has_scope(scope)),
    }
}
