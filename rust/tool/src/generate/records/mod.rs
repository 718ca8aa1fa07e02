//! Arbitrary well-formed records. Links are mostly to lower-numbered expressions, so that not every
//! question ends in a ring; spans are mostly different, so that most files can be compared.

mod definitions;
mod expressions;
mod questions;
mod sensible;

use std::collections::HashSet;

use index_file::records::*;

use super::Random;

/// How one file is made.
struct Shape {
    /// Children, values and recorded definitions may link anywhere.
    rings: bool,
    /// Chance of a missing child.
    missing: usize,
    /// Expressions may share spans.
    equal_spans: bool,
    /// Positions are below this.
    positions: usize,
    /// Expressions in a module, at most.
    expressions: usize,
    /// Modules of the file.
    modules: usize,
}

const TYPE_NAMES: [&str; 6] = ["A", "A", "B", "B", "C", "felt"];
const VALUE_NAMES: [&str; 7] = ["x", "y", "z", "f", "g", "A", "B"];
const FIELD_NAMES: [&str; 4] = ["p", "q", "r", "x"];
const SUFFIXES: [&str; 5] = ["u32", "felt", "u8", "bool", "i"];

pub fn index(random: &mut Random) -> Index {
    let shape = Shape {
        rings: random.percent(20),
        missing: *random.pick(&[0, 0, 3, 10]),
        equal_spans: random.percent(10),
        positions: *random.pick(&[8, 40, 200]),
        expressions: *random.pick(&[6, 15, 30, 60]),
        modules: match random.below(10) {
            0..5 => 1,
            5..9 => random.between(2, 3),
            _ => random.between(4, 8),
        },
    };
    let mut index = Index::default();
    for number in 0..shape.modules {
        index.modules.push(module(random, &shape, number));
    }
    for _ in 0..random.between(1, 40) {
        let question = questions::question(random, &index);
        index.questions.push(question);
    }
    index
}

fn module(random: &mut Random, shape: &Shape, number: usize) -> Module {
    let mut module = Module {
        name: format!("m{number}"),
        scopes: scopes(random),
        ..Module::default()
    };
    for number in 0..random.between(0, 14) {
        module.types.push(type_expr(random, number));
    }
    let definitions = random.between(0, 14);
    let expressions = random.between(0, shape.expressions);
    for number in 0..definitions {
        let counts = definitions::Counts {
            number,
            definitions,
            expressions,
        };
        let definition = definitions::definition(random, shape, &module, counts);
        module.definitions.push(definition);
    }
    let mut spans = HashSet::new();
    for number in 0..expressions {
        let mut record = expressions::expression(random, shape, &module, number, expressions);
        if !shape.equal_spans {
            record.span = span_of_its_own(random, shape, &mut spans, record.span, number);
        }
        module.expressions.push(record);
    }
    sensible::make_sensible(random, &mut module);
    module
}

fn scopes(random: &mut Random) -> Vec<Scope> {
    let mut scopes = vec![Scope {
        parent: None,
        kind: ScopeKind::Module,
    }];
    for number in 1..=random.between(0, 6) {
        let kinds = [ScopeKind::Function, ScopeKind::Block, ScopeKind::Loop];
        scopes.push(Scope {
            parent: Some(random.below(number)),
            kind: *random.pick(&kinds),
        });
    }
    scopes
}

fn type_expr(random: &mut Random, number: usize) -> TypeExpr {
    if number == 0 || random.percent(55) {
        return match random.below(6) {
            0 => TypeExpr::Felt,
            1 => TypeExpr::Bool,
            2 | 3 => TypeExpr::U32,
            _ => TypeExpr::Custom(random.pick(&TYPE_NAMES).to_string()),
        };
    }
    match random.below(4) {
        0 => TypeExpr::Ptr(random.below(number)),
        1 => {
            let sizes = [0, 1, 2, 3, 7, u64::MAX];
            TypeExpr::Array(random.below(number), *random.pick(&sizes))
        }
        _ => {
            let length = random.below(4);
            TypeExpr::Tuple((0..length).map(|_| random.below(number)).collect())
        }
    }
}

/// A type link; none only if there is no type.
fn ty(random: &mut Random, module: &Module) -> Option<usize> {
    (!module.types.is_empty()).then(|| random.below(module.types.len()))
}

fn optional_ty(random: &mut Random, module: &Module, chance: usize) -> Option<usize> {
    if random.percent(chance) {
        return ty(random, module);
    }
    None
}

fn value_name(random: &mut Random) -> String {
    if random.percent(3) {
        return "assert".to_string();
    }
    random.pick(&VALUE_NAMES).to_string()
}

fn span(random: &mut Random, shape: &Shape) -> (u64, u64) {
    let start = random.below(shape.positions);
    let end = if random.percent(5) {
        random.below(shape.positions)
    } else {
        start + random.below(shape.positions)
    };
    (start as u64, end as u64)
}

/// The span, or another one if it is taken.
fn span_of_its_own(
    random: &mut Random,
    shape: &Shape,
    taken: &mut HashSet<(u64, u64)>,
    first: (u64, u64),
    number: usize,
) -> (u64, u64) {
    let mut tried = first;
    for _ in 0..20 {
        if taken.insert(tried) {
            return tried;
        }
        tried = span(random, shape);
    }
    // Past all others, and different for each number.
    tried.1 += 1000 + 1000 * number as u64;
    taken.insert(tried);
    tried
}
