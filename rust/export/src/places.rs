//! Where the scopes of a module stand, and the names in its types: what the parse tree has and an index
//! file doesn't.
//!
//! The tree is walked as the original builder walks it, so that scopes come in the order of their S
//! records. The builder's own scopes are compared with those of the walk ([`Places::are_of`]).

use cairo_m_compiler_parser::ParsedModule;
use cairo_m_compiler_parser::parser::{
    ConstDef, Expression, FunctionDef, NamedType, Spanned, Statement, TopLevelItem, TypeExpr,
};
use chumsky::span::SimpleSpan;
use index_file::records::{Module, Scope, ScopeKind};

/// Start and end, which is exclusive, in bytes.
pub type Span = (u64, u64);

/// What the parse tree of a module says beside its records.
#[derive(Debug, Clone, Default, PartialEq, Eq)]
pub struct Places {
    /// In the order of the S records.
    pub scopes: Vec<ScopePlace>,
    /// In the order of the walk.
    pub type_names: Vec<TypeName>,
}

/// A scope and where it stands: the module's scope is the whole text, a function's is the function, that
/// of a loop the statement, and that of a block the block or the branch of an `if`.
#[derive(Debug, Clone, PartialEq, Eq)]
pub struct ScopePlace {
    pub scope: Scope,
    pub span: Span,
}

/// A name in a type, other than the names that the language has.
#[derive(Debug, Clone, PartialEq, Eq)]
pub struct TypeName {
    pub name: String,
    pub span: Span,
    /// The scope from which type resolution looks the name up for what the type is written at: that of the
    /// parameter, the let or the constant, of the function or the struct whose result or field has the
    /// type, of the cast or the allocation.
    pub scope: usize,
    /// Of a parameter's type, the scope from which the function's signature looks it up.
    pub in_signature: Option<usize>,
}

impl Places {
    /// The places of a parsed module whose text has so many bytes.
    pub fn new(module: &ParsedModule, bytes: usize) -> Self {
        let mut walk = Walk::default();
        walk.within(ScopeKind::Module, (0, bytes as u64), |walk| {
            for item in module.items() {
                walk.item(item);
            }
        });
        walk.places
    }

    /// Whether there is a place for each scope of the module's records, with the same parent and kind.
    pub fn are_of(&self, module: &Module) -> bool {
        let walked = self.scopes.iter().map(|place| &place.scope);
        walked.eq(&module.scopes)
    }
}

/// A walk through a module's tree.
#[derive(Default)]
struct Walk {
    places: Places,
    /// The scope that the walk is in; none outside the module.
    current: Option<usize>,
    /// While the types of parameters are walked, the scope around the function.
    in_signature: Option<usize>,
}

impl Walk {
    /// Makes a scope in the current one and does something within it.
    fn within(&mut self, kind: ScopeKind, span: Span, inside: impl FnOnce(&mut Self)) {
        let parent = self.current;
        let scope = Scope { parent, kind };
        self.current = Some(self.places.scopes.len());
        self.places.scopes.push(ScopePlace { scope, span });
        inside(self);
        self.current = parent;
    }

    fn item(&mut self, item: &TopLevelItem) {
        match item {
            TopLevelItem::Function(function) => self.function(function),
            TopLevelItem::Struct(definition) => {
                for (_, ty) in &definition.value().fields {
                    self.type_expr(ty);
                }
            }
            TopLevelItem::Const(constant) => self.constant(constant.value()),
            TopLevelItem::Use(_) => {}
        }
    }

    /// The result's type is looked up from around the function, where the function's definition is; a
    /// parameter's from within, where the parameter is, and for the signature from around it too.
    fn function(&mut self, function: &Spanned<FunctionDef>) {
        let around = self.current;
        self.type_expr(&function.value().return_type);
        self.within(ScopeKind::Function, bytes(function.span()), |walk| {
            walk.in_signature = around;
            for parameter in &function.value().params {
                walk.type_expr(&parameter.type_expr);
            }
            walk.in_signature = None;
            for statement in &function.value().body {
                walk.statement(statement);
            }
        });
    }

    fn constant(&mut self, constant: &ConstDef) {
        if let Some(ty) = &constant.ty {
            self.type_expr(ty);
        }
        self.expression(&constant.value);
    }

    fn statement(&mut self, statement: &Spanned<Statement>) {
        let span = bytes(statement.span());
        match statement.value() {
            Statement::Let {
                statement_type,
                value,
                ..
            } => {
                if let Some(ty) = statement_type {
                    self.type_expr(ty);
                }
                self.expression(value);
            }
            Statement::Const(constant) => self.constant(constant),
            Statement::Assignment { lhs, rhs } => {
                self.expression(lhs);
                self.expression(rhs);
            }
            Statement::Return { value } => {
                if let Some(value) = value {
                    self.expression(value);
                }
            }
            Statement::Expression(expression) => self.expression(expression),
            Statement::Block(statements) => self.within(ScopeKind::Block, span, |walk| {
                for statement in statements {
                    walk.statement(statement);
                }
            }),
            Statement::Break | Statement::Continue => {}
            Statement::If { .. }
            | Statement::Loop { .. }
            | Statement::While { .. }
            | Statement::For { .. } => self.control_flow(statement),
        }
    }

    /// Each branch of an `if` has a scope, and within it that of its block. What is in front of the body
    /// of a `while` is outside the loop's scope, that of a `for` is inside.
    fn control_flow(&mut self, statement: &Spanned<Statement>) {
        let span = bytes(statement.span());
        match statement.value() {
            Statement::If {
                condition,
                then_block,
                else_block,
            } => {
                self.expression(condition);
                for branch in std::iter::once(then_block).chain(else_block) {
                    let span = bytes(branch.span());
                    self.within(ScopeKind::Block, span, |walk| walk.statement(branch));
                }
            }
            Statement::Loop { body } => {
                self.within(ScopeKind::Loop, span, |walk| walk.statement(body));
            }
            Statement::While { condition, body } => {
                self.expression(condition);
                self.within(ScopeKind::Loop, span, |walk| walk.statement(body));
            }
            Statement::For {
                init,
                condition,
                step,
                body,
            } => self.within(ScopeKind::Loop, span, |walk| {
                walk.statement(init);
                walk.expression(condition);
                walk.statement(body);
                walk.statement(step);
            }),
            _ => {}
        }
    }

    /// The types that stand in an expression; no expression makes a scope.
    fn expression(&mut self, expression: &Spanned<Expression>) {
        match expression.value() {
            Expression::Cast { target_type, .. } => self.type_expr(target_type),
            Expression::New { elem_type, .. } => self.type_expr(elem_type),
            _ => {}
        }
        for part in parts(expression.value()) {
            self.expression(part);
        }
    }

    fn type_expr(&mut self, ty: &Spanned<TypeExpr>) {
        match ty.value() {
            TypeExpr::Named(named) => {
                if let NamedType::Custom(name) = named.value() {
                    self.places.type_names.push(TypeName {
                        name: name.clone(),
                        span: bytes(named.span()),
                        scope: self.current.unwrap_or_default(),
                        in_signature: self.in_signature,
                    });
                }
            }
            TypeExpr::Pointer(inner) => self.type_expr(inner),
            TypeExpr::Tuple(elements) => {
                for element in elements {
                    self.type_expr(element);
                }
            }
            TypeExpr::FixedArray { element_type, .. } => self.type_expr(element_type),
        }
    }
}

fn bytes(span: SimpleSpan<usize>) -> Span {
    (span.start as u64, span.end as u64)
}

/// The expressions within one.
fn parts(expression: &Expression) -> Vec<&Spanned<Expression>> {
    match expression {
        Expression::Literal(..) | Expression::BooleanLiteral(_) | Expression::Identifier(_) => {
            vec![]
        }
        Expression::UnaryOp { expr, .. } | Expression::Cast { expr, .. } => vec![expr],
        Expression::New { count, .. } => vec![count],
        Expression::BinaryOp { left, right, .. } => vec![left, right],
        Expression::FunctionCall { callee, args } => {
            std::iter::once(&**callee).chain(args).collect()
        }
        Expression::MemberAccess { object, .. } => vec![object],
        Expression::IndexAccess { array, index } => vec![array, index],
        Expression::StructLiteral { fields, .. } => fields.iter().map(|(_, value)| value).collect(),
        Expression::Tuple(elements) | Expression::ArrayLiteral(elements) => {
            elements.iter().collect()
        }
        Expression::TupleIndex { tuple, .. } => vec![tuple],
        Expression::ArrayRepeat { element, .. } => vec![element],
        Expression::Parenthesized(inner) => vec![inner],
    }
}
