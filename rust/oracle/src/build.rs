//! Turns the records of one module into a `SemanticIndex`.

use cairo_m_compiler_parser::parser::{Spanned, TypeExpr as AstTypeExpr};
use cairo_m_compiler_semantic as semantic;
use index_file::records::*;
use semantic::definition::{
    ConstDefRef, FunctionDefRef, LetDefRef, LoopVariableDefRef, ParameterDefRef, StructDefRef,
    UseDefRef,
};
use semantic::semantic_index::from_records::ExpressionPart;
use semantic::semantic_index::{
    ConditionKind, DefinitionIndex, ExpressionInfo, Origin as RustOrigin,
};
use semantic::{ExpressionId, File, FileScopeId, SemanticIndex};

use crate::spans::{EXPRESSION_SPANS, NO_SPAN, Span, own_span, real_span};

pub struct Builder<'m> {
    pub module: &'m Module,
    pub types: &'m [Spanned<AstTypeExpr>],
    pub file: File,
    /// Whether the expressions' own spans lead to them, or spans that stand for their numbers.
    pub real_spans: bool,
}

impl Builder<'_> {
    pub fn index(&self) -> SemanticIndex {
        let scopes = self.module.scopes.iter().map(scope).collect();
        let definitions = self.module.definitions.iter().map(|d| self.definition(d));
        let expressions = self.module.expressions.iter().map(|e| self.expression(e));
        let numbers = 0..self.module.expressions.len();
        let lookup: Vec<Span> = numbers.map(|n| own_span(EXPRESSION_SPANS, n)).collect();
        SemanticIndex::from_parts(
            scopes,
            definitions.collect(),
            expressions.collect(),
            (!self.real_spans).then_some(&lookup),
        )
    }

    pub fn ty(&self, ty: usize) -> Spanned<AstTypeExpr> {
        self.types[ty].clone()
    }

    fn named_types(&self, items: &[NamedType]) -> Vec<(String, Spanned<AstTypeExpr>)> {
        let items = items.iter();
        items
            .map(|(name, ty)| (name.clone(), self.ty(*ty)))
            .collect()
    }

    fn definition(&self, definition: &Definition) -> semantic::Definition {
        semantic::Definition {
            file: self.file,
            scope_id: FileScopeId::new(definition.scope),
            name: definition.name.clone(),
            name_span: real_span(definition.name_span),
            full_span: real_span(definition.full_span),
            kind: self.definition_kind(definition),
        }
    }

    fn definition_kind(&self, definition: &Definition) -> semantic::DefinitionKind {
        use semantic::DefinitionKind as Kind;
        let name = definition.name.clone();
        let spanned = |text: &String| Spanned::new(text.clone(), real_span(definition.name_span));
        match &definition.kind {
            DefinitionKind::Fn {
                returns,
                parameters,
            } => Kind::Function(FunctionDefRef {
                name,
                params_ast: self.named_types(parameters),
                return_type_ast: self.ty(*returns),
            }),
            DefinitionKind::Struct { fields } => Kind::Struct(StructDefRef {
                name,
                fields_ast: self.named_types(fields),
            }),
            DefinitionKind::Const { ty, value } => Kind::Const(ConstDefRef {
                name,
                type_ast: ty.map(|ty| self.ty(ty)),
                value_expr_id: value.map(ExpressionId::new),
            }),
            DefinitionKind::Let { .. } => Kind::Let(self.let_definition(definition)),
            DefinitionKind::Param { ty } => Kind::Parameter(ParameterDefRef {
                name,
                type_ast: self.ty(*ty),
            }),
            DefinitionKind::Use { module, item } => Kind::Use(UseDefRef {
                imported_module: spanned(module),
                item: spanned(item),
            }),
            DefinitionKind::Loop => Kind::LoopVariable(LoopVariableDefRef { name }),
        }
    }

    fn let_definition(&self, definition: &Definition) -> LetDefRef {
        let DefinitionKind::Let {
            ty,
            value,
            destructured,
            path,
        } = &definition.kind
        else {
            unreachable!("the caller has looked");
        };
        LetDefRef {
            name: definition.name.clone(),
            value_expr_id: value.map(ExpressionId::new),
            explicit_type_ast: ty.map(|ty| self.ty(ty)),
            destructuring_info: destructured.map(|value| (ExpressionId::new(value), path.clone())),
        }
    }

    fn expression(&self, expression: &Expr) -> ExpressionPart {
        ExpressionPart {
            info: ExpressionInfo {
                file: self.file,
                ast_node: self.node(expression),
                ast_span: real_span(expression.span),
                scope_id: FileScopeId::new(expression.scope),
                expected_type_ast: expression.expected.map(|ty| self.ty(ty)),
                origin: origin(&expression.origin),
            },
            definition: expression.definition.map(DefinitionIndex::new),
        }
    }
}

fn origin(origin: &Origin) -> RustOrigin {
    match origin {
        Origin::Plain => RustOrigin::Plain,
        Origin::Field { parent, name } => RustOrigin::StructField {
            parent: ExpressionId::new(*parent),
            field: name.clone(),
            field_span: own_span(NO_SPAN, 0),
        },
        Origin::Arg { callee, index } => RustOrigin::Arg {
            callee: ExpressionId::new(*callee),
            index: *index,
        },
        Origin::Assign { lhs } => RustOrigin::AssignmentRhs {
            lhs: ExpressionId::new(*lhs),
        },
        Origin::Return => RustOrigin::ReturnExpr,
        Origin::Cond => RustOrigin::Condition {
            kind: ConditionKind::If,
        },
    }
}

fn scope(scope: &Scope) -> semantic::Scope {
    let kind = match scope.kind {
        ScopeKind::Module => semantic::ScopeKind::Module,
        ScopeKind::Function => semantic::ScopeKind::Function,
        ScopeKind::Block => semantic::ScopeKind::Block,
        ScopeKind::Loop => semantic::ScopeKind::Loop { depth: 0 },
    };
    semantic::Scope::new(scope.parent.map(FileScopeId::new), kind)
}
