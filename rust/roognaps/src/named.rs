//! Types for people.

use index_file::records::Index;

use crate::Type;

/// The type with the names of its structs and functions: `struct main.Item`, and `(u32, fn tax.rate)`.
/// What the index doesn't have keeps its numbers.
///
/// ```
/// use roognaps::Type;
/// use roognaps::export::{Index, named};
///
/// let lacking = Type::Struct { module: 0, definition: 2 };
/// assert_eq!(named(&Index::default(), &Type::Tuple(vec![Type::U32, lacking])), "(u32, struct:0.2)");
/// ```
pub fn named(index: &Index, ty: &Type) -> String {
    match ty {
        Type::Struct { module, definition } => with_name(index, "struct", ty, *module, *definition),
        Type::Function { module, definition } => with_name(index, "fn", ty, *module, *definition),
        Type::Tuple(elements) => {
            let elements: Vec<String> = elements.iter().map(|ty| named(index, ty)).collect();
            format!("({})", elements.join(", "))
        }
        Type::Pointer(element) => format!("ptr({})", named(index, element)),
        Type::FixedArray { element, size } => format!("[{}; {size}]", named(index, element)),
        _ => ty.to_string(),
    }
}

fn with_name(index: &Index, kind: &str, ty: &Type, module: u32, definition: u32) -> String {
    let module = index.modules.get(module as usize);
    let found = module.and_then(|module| {
        let definition = module.definitions.get(definition as usize)?;
        Some(format!("{kind} {}.{}", module.name, definition.name))
    });
    found.unwrap_or_else(|| ty.to_string())
}
