//! Questions about arbitrary modules, now and then about absent ones.

use index_file::records::*;

use super::ty;
use crate::generate::Random;

pub fn question(random: &mut Random, index: &Index) -> Question {
    let module = match random.percent(3) {
        true => random.between(index.modules.len(), 65_535),
        false => random.below(index.modules.len()),
    };
    let absent = Module::default();
    let records = index.modules.get(module).unwrap_or(&absent);
    match random.below(10) {
        0..6 => expression_question(random, module, records),
        6..9 => Question::Def {
            module,
            definition: number(random, records.definitions.len()),
        },
        _ => type_question(random, module, records),
    }
}

/// Mostly below the count, sometimes absent.
fn number(random: &mut Random, count: usize) -> usize {
    if count == 0 || random.percent(4) {
        return random.between(count, count + 3);
    }
    random.below(count)
}

fn expression_question(random: &mut Random, module: usize, records: &Module) -> Question {
    let expression = number(random, records.expressions.len());
    let context = match (random.percent(35), records.expressions.get(expression)) {
        (true, Some(record)) => context(random, records, record),
        // Never looked at.
        (true, None) => Some(random.below(65_536)),
        (false, _) => None,
    };
    Question::Expr {
        module,
        expression,
        context,
    }
}

/// A type as context, rather one whose form fits the expression.
fn context(random: &mut Random, module: &Module, expression: &Expr) -> Option<usize> {
    let fits = |ty: &TypeExpr| match expression.node {
        Node::Tuple { .. } => matches!(ty, TypeExpr::Tuple(_)),
        Node::Array { .. } | Node::Repeat { .. } => matches!(ty, TypeExpr::Array(..)),
        _ => matches!(ty, TypeExpr::U32),
    };
    let numbered = module.types.iter().enumerate();
    let fitting: Vec<usize> = numbered.filter(|(_, t)| fits(t)).map(|(n, _)| n).collect();
    if !fitting.is_empty() && random.percent(60) {
        return Some(*random.pick(&fitting));
    }
    ty(random, module)
}

/// About a type in any scope; where the module has no type, about an absent definition. An absent
/// module's links aren't looked at.
fn type_question(random: &mut Random, module: usize, records: &Module) -> Question {
    match ty(random, records) {
        Some(ty) => Question::Type {
            module,
            ty,
            scope: random.below(records.scopes.len()),
        },
        None if !records.scopes.is_empty() => Question::Def {
            module,
            definition: 0,
        },
        None => Question::Type {
            module,
            ty: random.below(65_536),
            scope: random.below(65_536),
        },
    }
}
