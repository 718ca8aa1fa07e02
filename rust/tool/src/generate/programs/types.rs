//! What the generator believes of types and items; it may be wrong.

#[derive(Debug, Clone, Default)]
pub struct Items {
    pub module: usize,
    pub structs: Vec<(String, Vec<(String, Type)>)>,
    pub functions: Vec<(String, Vec<Type>, Type)>,
    pub constants: Vec<(String, Type)>,
}

#[derive(Debug, Clone, PartialEq, Eq)]
pub enum Type {
    Felt,
    U32,
    Bool,
    Struct(String),
    Pointer(Box<Type>),
    Tuple(Vec<Type>),
    Array(Box<Type>, usize),
}

impl Type {
    pub fn holds_struct(&self) -> bool {
        match self {
            Self::Felt | Self::U32 | Self::Bool => false,
            Self::Struct(_) => true,
            Self::Pointer(inner) | Self::Array(inner, _) => inner.holds_struct(),
            Self::Tuple(elements) => elements.iter().any(Self::holds_struct),
        }
    }
}

impl std::fmt::Display for Type {
    fn fmt(&self, f: &mut std::fmt::Formatter<'_>) -> std::fmt::Result {
        match self {
            Self::Felt => write!(f, "felt"),
            Self::U32 => write!(f, "u32"),
            Self::Bool => write!(f, "bool"),
            Self::Struct(name) => write!(f, "{name}"),
            Self::Pointer(inner) => write!(f, "{inner}*"),
            Self::Tuple(elements) => {
                let elements: Vec<String> = elements.iter().map(|e| format!("{e},")).collect();
                write!(f, "({})", elements.join(" "))
            }
            Self::Array(element, size) => write!(f, "[{element}; {size}]"),
        }
    }
}
