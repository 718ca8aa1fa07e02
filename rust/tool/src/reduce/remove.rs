//! Taking out one record, with all links to later ones renumbered. Each function gives none if the
//! record isn't there.

use index_file::records::*;

/// The link after record `removed` is gone; none if it led there.
fn after(link: usize, removed: usize) -> Option<usize> {
    match link.cmp(&removed) {
        std::cmp::Ordering::Less => Some(link),
        std::cmp::Ordering::Equal => None,
        std::cmp::Ordering::Greater => Some(link - 1),
    }
}

fn update(link: &mut Option<usize>, removed: usize) {
    *link = link.and_then(|link| after(link, removed));
}

pub fn module(index: &mut Index, number: usize) -> Option<()> {
    index.modules.get(number)?;
    index.modules.remove(number);
    index
        .questions
        .retain(|question| question.lead().1 != number);
    for question in &mut index.questions {
        let (Question::Expr { module, .. }
        | Question::Def { module, .. }
        | Question::Type { module, .. }
        | Question::At { module, .. }) = question;
        if *module > number {
            *module -= 1;
        }
    }
    Some(())
}

pub fn expression(index: &mut Index, module_number: usize, number: usize) -> Option<()> {
    let module = index.modules.get_mut(module_number)?;
    module.expressions.get(number)?;
    module.expressions.remove(number);
    for definition in &mut module.definitions {
        forget_value(&mut definition.kind, number);
    }
    for expression in &mut module.expressions {
        if let Some(link) = expression.origin.link_mut() {
            match after(*link, number) {
                Some(updated) => *link = updated,
                None => expression.origin = Origin::Plain,
            }
        }
        let children = expression.node.children_mut();
        children.into_iter().for_each(|child| update(child, number));
    }
    index.questions.retain_mut(|question| match question {
        Question::Expr {
            module, expression, ..
        } if *module == module_number => after(*expression, number)
            .map(|updated| *expression = updated)
            .is_some(),
        _ => true,
    });
    Some(())
}

/// The links of a definition after the expression is gone.
fn forget_value(kind: &mut DefinitionKind, removed: usize) {
    match kind {
        DefinitionKind::Const { value, .. } => update(value, removed),
        DefinitionKind::Let {
            value,
            destructured,
            path,
            ..
        } => {
            update(value, removed);
            update(destructured, removed);
            if destructured.is_none() {
                path.clear();
            }
        }
        _ => {}
    }
}

pub fn definition(index: &mut Index, module_number: usize, number: usize) -> Option<()> {
    let module = index.modules.get_mut(module_number)?;
    module.definitions.get(number)?;
    module.definitions.remove(number);
    for expression in &mut module.expressions {
        update(&mut expression.definition, number);
    }
    index.questions.retain_mut(|question| match question {
        Question::Def { module, definition } if *module == module_number => {
            after(*definition, number)
                .map(|updated| *definition = updated)
                .is_some()
        }
        _ => true,
    });
    Some(())
}

/// Whatever needs the type gets type 0; type 0 itself stays while it is needed.
pub fn ty(index: &mut Index, module_number: usize, number: usize) -> Option<()> {
    let module = index.modules.get_mut(module_number)?;
    module.types.get(number)?;
    module.types.remove(number);
    let needed = |link: &mut usize| *link = after(*link, number).unwrap_or(0);
    for ty in &mut module.types {
        match ty {
            TypeExpr::Ptr(t) | TypeExpr::Array(t, _) => needed(t),
            TypeExpr::Tuple(ts) => ts.iter_mut().for_each(needed),
            _ => {}
        }
    }
    for definition in &mut module.definitions {
        let kind = &mut definition.kind;
        kind.needed_types_mut().into_iter().for_each(needed);
        if let DefinitionKind::Const { ty, .. } | DefinitionKind::Let { ty, .. } = kind {
            update(ty, number);
        }
    }
    for expression in &mut module.expressions {
        update(&mut expression.expected, number);
        if let Node::Cast { ty } | Node::New { ty, .. } = &mut expression.node {
            needed(ty);
        }
    }
    index
        .questions
        .retain_mut(|question| forget_type(question, module_number, number));
    Some(())
}

/// False if the question goes with the type.
fn forget_type(question: &mut Question, module_number: usize, removed: usize) -> bool {
    match question {
        Question::Expr {
            module, context, ..
        } if *module == module_number => {
            update(context, removed);
            true
        }
        Question::Type { module, ty, .. } if *module == module_number => {
            after(*ty, removed).map(|updated| *ty = updated).is_some()
        }
        _ => true,
    }
}

/// What stood in the scope moves to its parent.
pub fn scope(index: &mut Index, module_number: usize, number: usize) -> Option<()> {
    let module = index.modules.get_mut(module_number)?;
    let parent = module.scopes.get(number)?.parent?;
    module.scopes.remove(number);
    let moved = |link: &mut usize| *link = after(*link, number).unwrap_or(parent);
    for scope in &mut module.scopes {
        scope.parent.iter_mut().for_each(moved);
    }
    module
        .definitions
        .iter_mut()
        .for_each(|d| moved(&mut d.scope));
    module
        .expressions
        .iter_mut()
        .for_each(|e| moved(&mut e.scope));
    for question in &mut index.questions {
        if let Question::Type { module, scope, .. } = question
            && *module == module_number
        {
            moved(scope);
        }
    }
    Some(())
}
