//! Refusal 9, counted beside the Rust: its interned types and the items they hold.

use std::any::Any;
use std::cell::Cell;
use std::collections::HashSet;

use cairo_m_compiler_parser::parser::{Spanned, TypeExpr as AstTypeExpr};
use cairo_m_compiler_semantic::{Crate, DefinitionId, File, FileScopeId, TypeData, TypeId};
use index_file::limits;
use salsa::{Fault, Watcher};

use crate::spans::Span;

/// The watcher's fault for refusal 9.
pub const TYPE_BUFFER_FULL: u32 = 9;

/// Counts the distinct types of a question and the items they hold (refusal 9), and gives up at
/// type expressions that are too large.
pub struct Counts {
    types: Cell<usize>,
    items: Cell<usize>,
    too_large: HashSet<(File, Span)>,
}

type StructFields = (
    DefinitionId<'static>,
    String,
    Vec<(String, TypeId<'static>)>,
    FileScopeId,
);
type SignatureFields = (
    DefinitionId<'static>,
    Vec<(String, TypeId<'static>)>,
    TypeId<'static>,
);
type ResolveKey = (Crate, File, Spanned<AstTypeExpr>, FileScopeId);

impl Counts {
    /// `too_large` are the type expressions at which a question is given up, by file and span.
    pub fn new(too_large: HashSet<(File, Span)>) -> Self {
        Self {
            types: Cell::new(limits::FIRST_TYPES),
            items: Cell::new(0),
            too_large,
        }
    }

    fn add_type(&self, items: usize) {
        self.types.set(self.types.get() + 1);
        self.items.set(self.items.get() + items);
        let full =
            self.types.get() > limits::DISTINCT_TYPES || self.items.get() > limits::TYPE_ITEMS;
        if full {
            salsa::fail(Fault::Watcher(TYPE_BUFFER_FULL));
        }
    }
}

impl Watcher for Counts {
    fn demand(&self, _function: &'static str, key: &dyn Any) {
        if let Some((_, file, type_expr, _)) = key.downcast_ref::<ResolveKey>()
            && self.too_large.contains(&(*file, type_expr.span()))
        {
            salsa::fail(Fault::Budget);
        }
    }

    fn interned(&self, _name: &'static str, fields: &dyn Any) {
        if let Some((data,)) = fields.downcast_ref::<(TypeData<'static>,)>() {
            match data {
                TypeData::Tuple(elements) if !elements.is_empty() => self.add_type(elements.len()),
                TypeData::Pointer { .. } | TypeData::FixedArray { .. } => self.add_type(0),
                // Six are there from the start; structs and functions are counted below.
                _ => {}
            }
        } else if let Some((_, _, fields, _)) = fields.downcast_ref::<StructFields>() {
            self.add_type(fields.len());
        } else if let Some((_, parameters, _)) = fields.downcast_ref::<SignatureFields>() {
            self.add_type(parameters.len());
        }
    }
}
