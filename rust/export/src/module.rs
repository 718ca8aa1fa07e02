//! One `SemanticIndex` as the records of a module.

use std::collections::HashMap;

use cairo_m_compiler_parser::parser::{
    NamedType as AstNamedType, Spanned, TypeExpr as AstTypeExpr,
};
use cairo_m_compiler_semantic as semantic;
use index_file::records::*;
use semantic::definition::LetDefRef;
use semantic::semantic_index::{ExpressionInfo, Origin as RustOrigin};
use semantic::{ExpressionId, SemanticIndex};

use crate::ModuleIndex;
use crate::error::ExportError;
use crate::names::{Place, name_fault};

pub struct Exporter<'i> {
    pub(crate) place: Place<'i>,
    pub(crate) rust: &'i SemanticIndex,
    types: Vec<TypeExpr>,
    /// One record for each type expression that the Rust can tell apart.
    type_numbers: HashMap<Spanned<AstTypeExpr>, usize>,
}

impl<'i> Exporter<'i> {
    pub fn new(module: &ModuleIndex<'i>) -> Self {
        Self {
            place: Place {
                module: module.name,
            },
            rust: module.index,
            types: Vec::new(),
            type_numbers: HashMap::new(),
        }
    }

    pub fn module(mut self) -> Result<Module, ExportError> {
        let name = self.place.module.to_string();
        if let Some(fault) = name_fault(&name) {
            return Err(ExportError::Name {
                module: None,
                text: name,
                fault,
            });
        }
        let rust = self.rust;
        let definitions = rust.all_definitions();
        let definitions: Result<_, _> = definitions.map(|(_, d)| self.definition(d)).collect();
        let expressions = rust.all_expressions();
        let expressions: Result<_, _> = expressions
            .map(|(id, info)| self.expression(id, info))
            .collect();
        Ok(Module {
            name,
            scopes: rust
                .scopes()
                .map(|(_, scope)| scope_record(scope))
                .collect(),
            definitions: definitions?,
            expressions: expressions?,
            types: self.types,
        })
    }

    pub(crate) fn ty(&mut self, ty: &Spanned<AstTypeExpr>) -> Result<usize, ExportError> {
        if let Some(number) = self.type_numbers.get(ty) {
            return Ok(*number);
        }
        let record = match ty.value() {
            AstTypeExpr::Named(named) => match named.value() {
                AstNamedType::Felt => TypeExpr::Felt,
                AstNamedType::Bool => TypeExpr::Bool,
                AstNamedType::U32 => TypeExpr::U32,
                AstNamedType::Custom(text) => TypeExpr::Custom(self.place.name(text)?),
            },
            AstTypeExpr::Pointer(inner) => TypeExpr::Ptr(self.ty(inner)?),
            AstTypeExpr::Tuple(elements) => {
                let elements: Result<_, _> = elements.iter().map(|e| self.ty(e)).collect();
                TypeExpr::Tuple(elements?)
            }
            AstTypeExpr::FixedArray { element_type, size } => {
                TypeExpr::Array(self.ty(element_type)?, *size.value())
            }
        };
        let number = self.types.len();
        self.types.push(record);
        self.type_numbers.insert(ty.clone(), number);
        Ok(number)
    }

    fn optional_ty(
        &mut self,
        ty: &Option<Spanned<AstTypeExpr>>,
    ) -> Result<Option<usize>, ExportError> {
        ty.as_ref().map(|ty| self.ty(ty)).transpose()
    }

    fn named_types(
        &mut self,
        items: &[(String, Spanned<AstTypeExpr>)],
    ) -> Result<Vec<NamedType>, ExportError> {
        let items = items.iter();
        items
            .map(|(text, ty)| Ok((self.place.name(text)?, self.ty(ty)?)))
            .collect()
    }

    fn definition(&mut self, definition: &semantic::Definition) -> Result<Definition, ExportError> {
        Ok(Definition {
            scope: definition.scope_id.as_usize(),
            name: self.place.name(&definition.name)?,
            name_span: self.place.span(definition.name_span)?,
            full_span: self.place.span(definition.full_span)?,
            kind: self.definition_kind(&definition.kind)?,
        })
    }

    fn definition_kind(
        &mut self,
        kind: &semantic::DefinitionKind,
    ) -> Result<DefinitionKind, ExportError> {
        use semantic::DefinitionKind as Kind;
        Ok(match kind {
            Kind::Function(function) => DefinitionKind::Fn {
                parameters: self.named_types(&function.params_ast)?,
                returns: self.ty(&function.return_type_ast)?,
            },
            Kind::Struct(definition) => DefinitionKind::Struct {
                fields: self.named_types(&definition.fields_ast)?,
            },
            Kind::Const(constant) => DefinitionKind::Const {
                ty: self.optional_ty(&constant.type_ast)?,
                value: constant.value_expr_id.map(|id| id.index()),
            },
            Kind::Let(variable) => self.let_kind(variable)?,
            Kind::Parameter(parameter) => DefinitionKind::Param {
                ty: self.ty(&parameter.type_ast)?,
            },
            Kind::Use(import) => DefinitionKind::Use {
                module: self.place.name(import.imported_module.value())?,
                item: self.place.name(import.item.value())?,
            },
            Kind::LoopVariable(_) => DefinitionKind::Loop,
        })
    }

    fn let_kind(&mut self, variable: &LetDefRef) -> Result<DefinitionKind, ExportError> {
        let (destructured, path) = match &variable.destructuring_info {
            Some((value, path)) => (Some(value.index()), path.clone()),
            None => (None, vec![]),
        };
        for index in &path {
            self.place.small(*index, "the place in a tuple pattern")?;
        }
        Ok(DefinitionKind::Let {
            ty: self.optional_ty(&variable.explicit_type_ast)?,
            value: variable.value_expr_id.map(|id| id.index()),
            destructured,
            path,
        })
    }

    fn expression(&mut self, id: ExpressionId, info: &ExpressionInfo) -> Result<Expr, ExportError> {
        let recorded = self.rust.definition_for_identifier_expr(id);
        Ok(Expr {
            scope: info.scope_id.as_usize(),
            span: self.place.span(info.ast_span)?,
            expected: self.optional_ty(&info.expected_type_ast)?,
            definition: recorded.map(|(definition, _)| definition.index()),
            origin: self.origin(&info.origin)?,
            node: self.node(info)?,
        })
    }

    fn origin(&self, origin: &RustOrigin) -> Result<Origin, ExportError> {
        Ok(match origin {
            RustOrigin::Plain | RustOrigin::TupleElem { .. } | RustOrigin::ArrayElem { .. } => {
                Origin::Plain
            }
            RustOrigin::StructField { parent, field, .. } => Origin::Field {
                parent: parent.index(),
                name: self.place.name(field)?,
            },
            RustOrigin::Arg { callee, index } => Origin::Arg {
                callee: callee.index(),
                index: self.place.small(*index, "the place of an argument")?,
            },
            RustOrigin::AssignmentRhs { lhs } => Origin::Assign { lhs: lhs.index() },
            RustOrigin::ReturnExpr => Origin::Return,
            RustOrigin::Condition { .. } => Origin::Cond,
        })
    }
}

fn scope_record(scope: &semantic::Scope) -> Scope {
    Scope {
        parent: scope.parent.map(|parent| parent.as_usize()),
        kind: match scope.kind {
            semantic::ScopeKind::Module => ScopeKind::Module,
            semantic::ScopeKind::Function => ScopeKind::Function,
            semantic::ScopeKind::Block => ScopeKind::Block,
            semantic::ScopeKind::Loop { .. } => ScopeKind::Loop,
        },
    }
}
