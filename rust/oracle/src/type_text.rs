//! The text of a type, as an answer line has it.

use std::cell::RefCell;
use std::collections::HashMap;

use cairo_m_compiler_semantic::{DefinitionId, File, SemanticDb, TypeData, TypeId};
use index_file::limits;

/// The text of types, with its length first: shared parts can make it very long.
pub struct TypeText<'db> {
    db: &'db dyn SemanticDb,
    module_numbers: HashMap<File, usize>,
    lengths: RefCell<HashMap<TypeId<'db>, usize>>,
}

impl<'db> TypeText<'db> {
    /// `files` are those of the modules, in their order.
    pub fn new(db: &'db dyn SemanticDb, files: &[File]) -> Self {
        let numbers = files.iter().enumerate();
        Self {
            db,
            module_numbers: numbers.map(|(number, file)| (*file, number)).collect(),
            lengths: RefCell::default(),
        }
    }

    /// None if the text is too long.
    pub fn of(&self, ty: TypeId<'db>) -> Option<String> {
        if self.length(ty) > limits::TEXT_BYTES {
            return None;
        }
        let mut text = String::new();
        self.write(ty, &mut text);
        assert_eq!(text.len(), self.length(ty));
        Some(text)
    }

    fn definition(&self, kind: &str, definition: DefinitionId<'db>) -> String {
        let module = self.module_numbers[&definition.file(self.db)];
        let number = definition.id_in_file(self.db).index();
        format!("{kind}:{module}.{number}")
    }

    fn length(&self, ty: TypeId<'db>) -> usize {
        if let Some(length) = self.lengths.borrow().get(&ty) {
            return *length;
        }
        let length = match ty.data(self.db) {
            TypeData::Tuple(elements) => elements
                .iter()
                .fold(1, |sum: usize, element| {
                    sum.saturating_add(self.length(*element)).saturating_add(1)
                })
                .max(2),
            TypeData::Pointer { element_type } => self.length(element_type).saturating_add(5),
            TypeData::FixedArray { element_type, size } => self
                .length(element_type)
                .saturating_add(3 + size.to_string().len()),
            _ => {
                let mut text = String::new();
                self.write(ty, &mut text);
                text.len()
            }
        };
        self.lengths.borrow_mut().insert(ty, length);
        length
    }

    fn write(&self, ty: TypeId<'db>, text: &mut String) {
        match ty.data(self.db) {
            TypeData::Felt => text.push_str("felt"),
            TypeData::Bool => text.push_str("bool"),
            TypeData::U32 => text.push_str("u32"),
            TypeData::Unknown => text.push_str("unknown"),
            TypeData::Error => text.push_str("error"),
            TypeData::Struct(id) => {
                text.push_str(&self.definition("struct", id.definition_id(self.db)));
            }
            TypeData::Function(id) => {
                text.push_str(&self.definition("fn", id.definition_id(self.db)));
            }
            TypeData::Tuple(elements) => {
                text.push('(');
                for (number, element) in elements.iter().enumerate() {
                    if number > 0 {
                        text.push(',');
                    }
                    self.write(*element, text);
                }
                text.push(')');
            }
            TypeData::Pointer { element_type } => {
                text.push_str("ptr(");
                self.write(element_type, text);
                text.push(')');
            }
            TypeData::FixedArray { element_type, size } => {
                text.push('[');
                self.write(element_type, text);
                text.push_str(&format!(";{size}]"));
            }
        }
    }
}
