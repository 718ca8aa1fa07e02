//! The links of a record, read and changed.

use crate::records::{Child, DefinitionKind, Node, Origin};

impl DefinitionKind {
    /// The links to types, in the order of the line.
    pub fn types(&self) -> Vec<usize> {
        match self {
            Self::Fn {
                returns,
                parameters,
            } => {
                let parameters = parameters.iter().map(|(_, ty)| *ty);
                std::iter::once(*returns).chain(parameters).collect()
            }
            Self::Struct { fields } => fields.iter().map(|(_, ty)| *ty).collect(),
            Self::Const { ty, .. } | Self::Let { ty, .. } => ty.iter().copied().collect(),
            Self::Param { ty } => vec![*ty],
            Self::Use { .. } | Self::Loop => vec![],
        }
    }

    /// The links to types that can't be absent.
    pub fn needed_types_mut(&mut self) -> Vec<&mut usize> {
        match self {
            Self::Fn {
                returns,
                parameters,
            } => {
                let parameters = parameters.iter_mut().map(|(_, ty)| ty);
                std::iter::once(returns).chain(parameters).collect()
            }
            Self::Struct { fields } => fields.iter_mut().map(|(_, ty)| ty).collect(),
            Self::Param { ty } => vec![ty],
            Self::Const { .. } | Self::Let { .. } | Self::Use { .. } | Self::Loop => vec![],
        }
    }

    /// The links to expressions: a constant's or let's value, and a let's destructured value.
    pub fn expressions(&self) -> Vec<usize> {
        match self {
            Self::Const { value, .. } => value.iter().copied().collect(),
            Self::Let {
                value,
                destructured,
                ..
            } => value.iter().chain(destructured).copied().collect(),
            _ => vec![],
        }
    }
}

impl Origin {
    pub fn link(&self) -> Option<usize> {
        match self {
            Self::Field { parent: link, .. }
            | Self::Arg { callee: link, .. }
            | Self::Assign { lhs: link } => Some(*link),
            Self::Plain | Self::Return | Self::Cond => None,
        }
    }

    pub fn link_mut(&mut self) -> Option<&mut usize> {
        match self {
            Self::Field { parent: link, .. }
            | Self::Arg { callee: link, .. }
            | Self::Assign { lhs: link } => Some(link),
            Self::Plain | Self::Return | Self::Cond => None,
        }
    }
}

impl Node {
    /// The link to a type of `cast` and `new`.
    pub fn ty(&self) -> Option<usize> {
        match self {
            Self::Cast { ty } | Self::New { ty, .. } => Some(*ty),
            _ => None,
        }
    }

    /// The child links in the order of the line.
    pub fn children(&self) -> Vec<Child> {
        match self {
            Self::Lit { .. }
            | Self::Bool
            | Self::Ident { .. }
            | Self::StructLit { .. }
            | Self::Cast { .. } => vec![],
            Self::Un { child, .. } | Self::Paren { child } => vec![*child],
            Self::Bin { left, right, .. } => vec![*left, *right],
            Self::Call { callee, args } => std::iter::once(callee).chain(args).copied().collect(),
            Self::Member { object, .. } => vec![*object],
            Self::Index { array, index } => vec![*array, *index],
            Self::Tuple { elements } | Self::Array { elements } => elements.clone(),
            Self::TupleIndex { tuple, .. } => vec![*tuple],
            Self::Repeat { element, .. } => vec![*element],
            Self::New { count, .. } => vec![*count],
        }
    }

    pub fn children_mut(&mut self) -> Vec<&mut Child> {
        match self {
            Self::Lit { .. }
            | Self::Bool
            | Self::Ident { .. }
            | Self::StructLit { .. }
            | Self::Cast { .. } => vec![],
            Self::Un { child, .. } | Self::Paren { child } => vec![child],
            Self::Bin { left, right, .. } => vec![left, right],
            Self::Call { callee, args } => std::iter::once(callee).chain(args).collect(),
            Self::Member { object, .. } => vec![object],
            Self::Index { array, index } => vec![array, index],
            Self::Tuple { elements } | Self::Array { elements } => elements.iter_mut().collect(),
            Self::TupleIndex { tuple, .. } => vec![tuple],
            Self::Repeat { element, .. } => vec![element],
            Self::New { count, .. } => vec![count],
        }
    }
}
