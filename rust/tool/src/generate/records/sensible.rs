//! Random links seldom mean something. This leads some of them to records of a fitting kind.

use index_file::records::*;

use crate::generate::Random;

/// The records of a module that links may be led to.
struct Fitting {
    literals: Vec<usize>,
    struct_literals: Vec<usize>,
    /// Identifiers whose recorded definition is a function.
    functions: Vec<usize>,
    /// Of many types: compatibility of parts is looked at among the elements of an array only.
    composed: Vec<usize>,
    tuple_types: Vec<usize>,
    array_types: Vec<usize>,
}

impl Fitting {
    fn new(module: &Module) -> Self {
        let expressions = |fits: &dyn Fn(&Expr) -> bool| numbers(&module.expressions, fits);
        let types = |fits: &dyn Fn(&TypeExpr) -> bool| numbers(&module.types, fits);
        Self {
            literals: expressions(&|e| e.node == Node::Lit { suffix: None }),
            struct_literals: expressions(&|e| matches!(e.node, Node::StructLit { .. })),
            functions: expressions(&|e| names_function(module, e)),
            composed: expressions(&|e| {
                matches!(
                    e.node,
                    Node::Cast { .. } | Node::New { .. } | Node::Tuple { .. } | Node::Repeat { .. }
                )
            }),
            tuple_types: types(&|t| matches!(t, TypeExpr::Tuple(_))),
            array_types: types(&|t| matches!(t, TypeExpr::Array(..))),
        }
    }
}

fn numbers<T>(records: &[T], fits: &dyn Fn(&T) -> bool) -> Vec<usize> {
    let numbered = records.iter().enumerate();
    numbered.filter(|(_, r)| fits(r)).map(|(n, _)| n).collect()
}

fn names_function(module: &Module, expression: &Expr) -> bool {
    let definition = expression.definition.map(|d| &module.definitions[d].kind);
    matches!(expression.node, Node::Ident { .. })
        && matches!(definition, Some(DefinitionKind::Fn { .. }))
}

pub fn make_sensible(random: &mut Random, module: &mut Module) {
    let fitting = Fitting::new(module);
    for (number, expression) in module.expressions.iter_mut().enumerate() {
        if random.percent(40) {
            continue;
        }
        lead_origin(random, &fitting, expression);
        lead_node(random, &fitting, number, expression);
    }
}

fn lead_origin(random: &mut Random, fitting: &Fitting, expression: &mut Expr) {
    match &mut expression.origin {
        Origin::Field { parent, .. } if !fitting.struct_literals.is_empty() => {
            *parent = *random.pick(&fitting.struct_literals);
        }
        Origin::Arg { callee, .. } if !fitting.functions.is_empty() => {
            *callee = *random.pick(&fitting.functions);
        }
        _ => {}
    }
}

fn lead_node(random: &mut Random, fitting: &Fitting, number: usize, expression: &mut Expr) {
    let lower = |numbers: &[usize]| -> Vec<usize> {
        numbers.iter().copied().filter(|n| *n < number).collect()
    };
    match &mut expression.node {
        Node::Bin { op, left, right } if random.percent(50) => {
            let literals = lower(&fitting.literals);
            if !literals.is_empty() {
                let side = if random.percent(70) { left } else { right };
                *side = Some(*random.pick(&literals));
                *op = random.pick::<&'static str>(&["+", "*", "==", "!=", "-", "<"]);
            }
        }
        Node::Call { callee, .. } => {
            let functions = lower(&fitting.functions);
            if !functions.is_empty() {
                *callee = Some(*random.pick(&functions));
            }
        }
        Node::Tuple { .. } if !fitting.tuple_types.is_empty() => {
            expression.expected = Some(*random.pick(&fitting.tuple_types));
        }
        Node::Array { elements } => {
            let composed = lower(&fitting.composed);
            if !composed.is_empty() && random.percent(60) {
                for element in elements {
                    *element = Some(*random.pick(&composed));
                }
            }
            if !fitting.array_types.is_empty() {
                expression.expected = Some(*random.pick(&fitting.array_types));
            }
        }
        _ => {}
    }
}
