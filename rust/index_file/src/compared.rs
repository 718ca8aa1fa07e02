//! Which indexes document 01 compares with the Rust.

use std::collections::HashMap;

use crate::records::{Index, Node};

/// A child whose own span leads the Rust to another expression.
#[derive(Debug, Clone, Copy, PartialEq, Eq)]
pub struct MisledChild {
    pub module: usize,
    pub expression: usize,
    pub child: usize,
}

/// The children whose own span leads to another expression. An index with such a child isn't
/// compared with the Rust; it is answered by its records' fields.
pub fn misled_children(index: &Index) -> Vec<MisledChild> {
    let mut misled = Vec::new();
    for (number, module) in index.modules.iter().enumerate() {
        // As in the Rust, the last expression with a span is found.
        let numbered = module.expressions.iter().enumerate();
        let by_span: HashMap<(u64, u64), usize> = numbered
            .clone()
            .map(|(e, record)| (record.span, e))
            .collect();
        for (expression, record) in numbered {
            for child in record.node.children().into_iter().flatten() {
                if by_span[&module.expressions[child].span] != child {
                    misled.push(MisledChild {
                        module: number,
                        expression,
                        child,
                    });
                }
            }
        }
    }
    misled
}

/// The calls without a callee, by module and expression. The index doesn't say whether the callee
/// was `assert`; if so, it isn't compared.
pub fn calls_without_callee(index: &Index) -> Vec<(usize, usize)> {
    let mut calls = Vec::new();
    for (number, module) in index.modules.iter().enumerate() {
        for (expression, record) in module.expressions.iter().enumerate() {
            if matches!(record.node, Node::Call { callee: None, .. }) {
                calls.push((number, expression));
            }
        }
    }
    calls
}
