//! Definitions of arbitrary modules.

use index_file::records::*;

use super::{FIELD_NAMES, Shape, TYPE_NAMES, optional_ty, span, ty, value_name};
use crate::generate::Random;

/// Which definition, of how many, beside how many expressions.
#[derive(Clone, Copy)]
pub struct Counts {
    pub number: usize,
    pub definitions: usize,
    pub expressions: usize,
}

pub fn definition(
    random: &mut Random,
    shape: &Shape,
    module: &Module,
    counts: Counts,
) -> Definition {
    let kind = kind(random, shape, module, counts);
    let name = match kind {
        DefinitionKind::Struct { .. } if random.percent(80) => {
            random.pick(&TYPE_NAMES[..5]).to_string()
        }
        _ => value_name(random),
    };
    // The root scope is seen from everywhere.
    let scope = match random.percent(50) {
        true => 0,
        false => random.below(module.scopes.len()),
    };
    let mut definition = Definition {
        scope,
        name,
        name_span: span(random, shape),
        full_span: span(random, shape),
        kind,
    };
    if random.percent(60) {
        make_usual(random, module, counts.number, &mut definition);
    }
    definition
}

/// The first definitions of most modules are two structs, two functions and some variables that
/// everything sees.
fn make_usual(random: &mut Random, module: &Module, number: usize, definition: &mut Definition) {
    let Some(ty) = ty(random, module) else {
        return;
    };
    let (name, kind) = match number {
        0 | 1 => {
            let fields = named_types(random, module);
            (["A", "B"][number], DefinitionKind::Struct { fields })
        }
        2 | 3 => {
            let parameters = named_types(random, module);
            let kind = DefinitionKind::Fn {
                returns: ty,
                parameters,
            };
            (["f", "g"][number - 2], kind)
        }
        4..7 => (["x", "y", "z"][number - 4], DefinitionKind::Param { ty }),
        _ => return,
    };
    definition.scope = 0;
    definition.name = name.to_string();
    definition.full_span = (0, 0);
    definition.kind = kind;
}

fn named_types(random: &mut Random, module: &Module) -> Vec<NamedType> {
    let length = random.below(4);
    let mut items = Vec::new();
    for _ in 0..length {
        if let Some(ty) = ty(random, module) {
            items.push((random.pick(&FIELD_NAMES).to_string(), ty));
        }
    }
    items
}

fn kind(random: &mut Random, shape: &Shape, module: &Module, counts: Counts) -> DefinitionKind {
    match (random.below(13), ty(random, module)) {
        (0 | 1, Some(returns)) => DefinitionKind::Fn {
            returns,
            parameters: named_types(random, module),
        },
        (2 | 3, _) => DefinitionKind::Struct {
            fields: named_types(random, module),
        },
        (4 | 5, Some(ty)) => DefinitionKind::Param { ty },
        (6, _) => DefinitionKind::Use {
            module: module_name(random, shape.modules),
            item: value_name(random),
        },
        (7, _) => DefinitionKind::Loop,
        (8 | 9, _) => DefinitionKind::Const {
            ty: optional_ty(random, module, 30),
            value: value(random, shape, counts, 90),
        },
        (10, _) => destructuring_let(random, shape, module, counts),
        _ => DefinitionKind::Let {
            ty: optional_ty(random, module, 30),
            value: value(random, shape, counts, 90),
            destructured: None,
            path: vec![],
        },
    }
}

fn module_name(random: &mut Random, modules: usize) -> String {
    if random.percent(8) {
        return "nowhere".to_string();
    }
    format!("m{}", random.below(modules))
}

fn destructuring_let(
    random: &mut Random,
    shape: &Shape,
    module: &Module,
    counts: Counts,
) -> DefinitionKind {
    let destructured = value(random, shape, counts, 100);
    let length = random.below(3);
    let path = match destructured {
        Some(_) => (0..length).map(|_| random.below(3)).collect(),
        None => vec![],
    };
    DefinitionKind::Let {
        ty: optional_ty(random, module, 20),
        value: value(random, shape, counts, 80),
        destructured,
        path,
    }
}

/// With this chance, an expression. Without rings it lies in the same part of the expressions as the
/// definition among the definitions; the expressions' own links go by the same rule.
fn value(random: &mut Random, shape: &Shape, counts: Counts, chance: usize) -> Option<usize> {
    let end = match shape.rings {
        true => counts.expressions,
        false => (counts.number + 1) * counts.expressions / counts.definitions,
    };
    (random.percent(chance) && end > 0).then(|| random.below(end))
}
