//! The tables of the original `SemanticIndex`, built from loaded records: a hash map of names for each
//! scope, the two maps from an identifier over its usage to its definition, and the map of modules.
//! The lookups have the bodies of `semantic_index.rs`.

use std::collections::HashMap;
use std::hash::{BuildHasher, Hasher};

use index_file::records::*;

/// The hash of `rustc_hash`, which the original takes for all but the map of modules.
#[derive(Default)]
pub struct FxHasher(u64);

impl FxHasher {
    fn add(&mut self, word: u64) {
        self.0 = (self.0.rotate_left(5) ^ word).wrapping_mul(0x517C_C1B7_2722_0A95);
    }
}

impl Hasher for FxHasher {
    fn write(&mut self, mut bytes: &[u8]) {
        while let Some((word, rest)) = bytes.split_first_chunk::<8>() {
            self.add(u64::from_le_bytes(*word));
            bytes = rest;
        }
        if let Some((word, rest)) = bytes.split_first_chunk::<4>() {
            self.add(u32::from_le_bytes(*word).into());
            bytes = rest;
        }
        for byte in bytes {
            self.add((*byte).into());
        }
    }

    fn write_u8(&mut self, byte: u8) {
        self.add(byte.into());
    }

    fn write_usize(&mut self, number: usize) {
        self.add(number as u64);
    }

    fn finish(&self) -> u64 {
        self.0
    }
}

pub struct Tables<'i, S> {
    by_name: HashMap<String, usize>,
    modules: Vec<ModuleTables<'i, S>>,
}

struct ModuleTables<'i, S> {
    records: &'i Module,
    name_index: Vec<HashMap<String, Vec<usize>, S>>,
    identifier_expr_to_usage: HashMap<usize, usize, S>,
    uses: HashMap<usize, usize, S>,
}

impl<'i, S: BuildHasher + Default> Tables<'i, S> {
    pub fn new(index: &'i Index) -> Self {
        let names = index.modules.iter().map(|module| module.name.clone());
        Self {
            by_name: names.zip(0..).collect(),
            modules: index.modules.iter().map(ModuleTables::new).collect(),
        }
    }

    pub fn module_by_name(&self, name: &str) -> Option<usize> {
        self.by_name.get(name).copied()
    }

    pub fn latest_definition_index_by_name_in_chain(
        &self,
        m: usize,
        s: usize,
        name: &str,
    ) -> Option<usize> {
        let module = &self.modules[m];
        let mut current = Some(s);
        while let Some(scope) = current {
            if let Some(found) = module.latest_definition_index_by_name(scope, name) {
                return Some(found);
            }
            current = module.parent(scope);
        }
        None
    }

    pub fn resolve_name_at_position(
        &self,
        m: usize,
        name: &str,
        s: usize,
        span: (u64, u64),
    ) -> Option<usize> {
        let module = &self.modules[m];
        let mut current = Some(s);
        while let Some(scope) = current {
            if let Some(definitions) = module.name_index.get(scope).and_then(|map| map.get(name)) {
                let newest_first = definitions.iter().rev().copied();
                let mut visible = newest_first.filter(|d| module.is_visible_at(*d, span));
                if let Some(found) = visible.next() {
                    return Some(found);
                }
            }
            current = module.parent(scope);
        }
        None
    }

    pub fn definition_for_identifier_expr(&self, m: usize, e: usize) -> Option<usize> {
        let module = &self.modules[m];
        let usage = *module.identifier_expr_to_usage.get(&e)?;
        module.uses.get(&usage).copied()
    }

    /// No map in the original either: the definitions in order, for each the scope's ancestors.
    pub fn first_function_around(&self, m: usize, s: usize) -> Option<usize> {
        let module = &self.modules[m];
        let definitions = module.records.definitions.iter();
        let functions = definitions
            .enumerate()
            .filter(|(_, definition)| matches!(definition.kind, DefinitionKind::Fn { .. }));
        for (number, definition) in functions {
            let mut current = Some(s);
            while let Some(scope) = current {
                if scope == definition.scope {
                    return Some(number);
                }
                current = module.parent(scope);
            }
        }
        None
    }
}

impl<'i, S: BuildHasher + Default> ModuleTables<'i, S> {
    fn new(records: &'i Module) -> Self {
        let mut name_index: Vec<HashMap<String, Vec<usize>, S>> = Vec::new();
        name_index.resize_with(records.scopes.len(), HashMap::default);
        for (number, definition) in records.definitions.iter().enumerate() {
            let names = &mut name_index[definition.scope];
            let definitions = names.entry(definition.name.clone()).or_default();
            definitions.push(number);
        }
        let mut identifier_expr_to_usage: HashMap<usize, usize, S> = HashMap::default();
        let mut uses: HashMap<usize, usize, S> = HashMap::default();
        for (number, expression) in records.expressions.iter().enumerate() {
            if let Some(definition) = expression.definition {
                let usage = identifier_expr_to_usage.len();
                identifier_expr_to_usage.insert(number, usage);
                uses.insert(usage, definition);
            }
        }
        Self {
            records,
            name_index,
            identifier_expr_to_usage,
            uses,
        }
    }

    fn parent(&self, scope: usize) -> Option<usize> {
        self.records.scopes.get(scope)?.parent
    }

    fn latest_definition_index_by_name(&self, scope: usize, name: &str) -> Option<usize> {
        let definitions = self.name_index.get(scope)?.get(name)?;
        definitions.last().copied()
    }

    fn is_visible_at(&self, definition: usize, (start, end): (u64, u64)) -> bool {
        let Some(definition) = self.records.definitions.get(definition) else {
            return false;
        };
        let is_top_level_allowed = matches!(
            definition.kind,
            DefinitionKind::Fn { .. } | DefinitionKind::Struct { .. } | DefinitionKind::Use { .. }
        );
        if !is_top_level_allowed && definition.full_span.0 > start {
            return false;
        }
        let DefinitionKind::Let {
            value: Some(value), ..
        } = definition.kind
        else {
            return true;
        };
        let initializer = self.records.expressions.get(value);
        initializer.is_none_or(|e| start < e.span.0 || end > e.span.1)
    }
}
