//! Type expressions as the Rust's trees. Records may share parts, trees can't; so a tree may be far
//! larger than its record, and too large ones are only stood in for.

use std::collections::HashSet;

use cairo_m_compiler_parser::parser::{
    NamedType as AstNamedType, Spanned, TypeExpr as AstTypeExpr,
};
use index_file::records::{Module, TypeExpr};

use crate::spans::{NO_SPAN, TYPE_SPANS, own_span};

/// A tree has at most this many nodes.
const TREE_NODES: u64 = 20_000;
/// All trees of the module together, one for each use in a record.
const ALL_TREE_NODES: u64 = 1_000_000;

pub struct Trees {
    pub trees: Vec<Spanned<AstTypeExpr>>,
    /// Types whose tree would be too large; asking one gives up the question.
    pub too_large: HashSet<usize>,
}

impl Trees {
    pub fn new(module: &Module) -> Self {
        let nodes = tree_nodes(module);
        let limit = node_limit(&nodes, &uses(module));
        let too_large: HashSet<usize> = (0..nodes.len()).filter(|t| nodes[*t] > limit).collect();
        let mut trees = Vec::new();
        for number in 0..nodes.len() {
            let tree = tree(module, number, &trees, too_large.contains(&number));
            trees.push(Spanned::new(tree, own_span(TYPE_SPANS, number)));
        }
        Self { trees, too_large }
    }
}

/// How many nodes the tree of each type has.
fn tree_nodes(module: &Module) -> Vec<u64> {
    let mut nodes: Vec<u64> = Vec::new();
    for ty in &module.types {
        nodes.push(match ty {
            TypeExpr::Ptr(t) => nodes[*t].saturating_add(1),
            TypeExpr::Tuple(ts) => ts
                .iter()
                .fold(1, |sum: u64, t| sum.saturating_add(nodes[*t])),
            // An array directly of arrays is an error before its element is asked.
            TypeExpr::Array(t, _) if is_array(module, *t) => 2,
            TypeExpr::Array(t, _) => nodes[*t].saturating_add(1),
            _ => 1,
        });
    }
    nodes
}

/// How often each type is copied: once for itself and once for each link of a definition or
/// expression.
fn uses(module: &Module) -> Vec<u64> {
    let mut uses = vec![1; module.types.len()];
    let of_definitions = module.definitions.iter().flat_map(|d| d.kind.types());
    let of_expressions = module.expressions.iter();
    let of_expressions = of_expressions.flat_map(|e| e.expected.into_iter().chain(e.node.ty()));
    for ty in of_definitions.chain(of_expressions) {
        uses[ty] += 1;
    }
    uses
}

/// The most nodes of a tree that isn't too large.
fn node_limit(nodes: &[u64], uses: &[u64]) -> u64 {
    let total = |limit: u64| -> u64 {
        let kept = nodes.iter().zip(uses).filter(|(n, _)| **n <= limit);
        kept.map(|(n, uses)| n * uses).sum()
    };
    let mut limit = TREE_NODES;
    while total(limit) > ALL_TREE_NODES {
        limit /= 2;
    }
    limit
}

fn is_array(module: &Module, ty: usize) -> bool {
    matches!(module.types[ty], TypeExpr::Array(..))
}

fn stand_in() -> Spanned<AstTypeExpr> {
    Spanned::new(AstTypeExpr::Tuple(vec![]), own_span(NO_SPAN, 0))
}

/// The tree of a type, given those of all earlier ones.
fn tree(
    module: &Module,
    number: usize,
    trees: &[Spanned<AstTypeExpr>],
    too_large: bool,
) -> AstTypeExpr {
    let span = own_span(TYPE_SPANS, number);
    let named = |name| AstTypeExpr::Named(Spanned::new(name, span));
    let part = |t: usize| match too_large {
        true => stand_in(),
        false => trees[t].clone(),
    };
    match &module.types[number] {
        TypeExpr::Felt => named(AstNamedType::Felt),
        TypeExpr::Bool => named(AstNamedType::Bool),
        TypeExpr::U32 => named(AstNamedType::U32),
        TypeExpr::Custom(name) => named(AstNamedType::Custom(name.clone())),
        TypeExpr::Ptr(t) => AstTypeExpr::Pointer(Box::new(part(*t))),
        TypeExpr::Tuple(ts) => AstTypeExpr::Tuple(ts.iter().map(|t| part(*t)).collect()),
        TypeExpr::Array(t, size) => {
            let element = match is_array(module, *t) {
                true => inner_array(*t),
                false => part(*t),
            };
            AstTypeExpr::FixedArray {
                element_type: Box::new(element),
                size: Spanned::new(*size, span),
            }
        }
    }
}

/// An array inside an array: the Rust looks only at its being one.
fn inner_array(number: usize) -> Spanned<AstTypeExpr> {
    let span = own_span(TYPE_SPANS, number);
    let array = AstTypeExpr::FixedArray {
        element_type: Box::new(stand_in()),
        size: Spanned::new(0, span),
    };
    Spanned::new(array, span)
}
