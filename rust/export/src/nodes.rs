//! Nodes of expressions as records. A child's link is what the Rust finds under the child's span.

use cairo_m_compiler_parser::parser::{Expression, Spanned};
use cairo_m_compiler_semantic::semantic_index::ExpressionInfo;
use index_file::records::{BINARY_OPERATORS, Child, Node, UNARY_OPERATORS};

use crate::error::ExportError;
use crate::module::Exporter;

impl Exporter<'_> {
    pub(crate) fn node(&mut self, info: &ExpressionInfo) -> Result<Node, ExportError> {
        let place = self.place;
        Ok(match &info.ast_node {
            Expression::Literal(_, suffix) => Node::Lit {
                suffix: suffix.as_deref().map(|text| place.name(text)).transpose()?,
            },
            Expression::BooleanLiteral(_) => Node::Bool,
            Expression::Identifier(text) => Node::Ident {
                name: place.name(text.value())?,
            },
            Expression::StructLiteral { name, .. } => Node::StructLit {
                name: place.name(name.value())?,
                span: place.span(name.span())?,
            },
            Expression::Cast { target_type, .. } => Node::Cast {
                ty: self.ty(target_type)?,
            },
            Expression::New { elem_type, count } => Node::New {
                ty: self.ty(elem_type)?,
                count: self.child(count),
            },
            Expression::FunctionCall { callee, args } => Node::Call {
                callee: self.callee(info, callee)?,
                args: self.list(args),
            },
            Expression::Tuple(elements) => Node::Tuple {
                elements: self.list(elements),
            },
            Expression::ArrayLiteral(elements) => Node::Array {
                elements: self.list(elements),
            },
            other => self.node_with_fixed_children(other)?,
        })
    }

    fn node_with_fixed_children(&self, node: &Expression) -> Result<Node, ExportError> {
        let place = self.place;
        Ok(match node {
            Expression::UnaryOp { op, expr } => Node::Un {
                op: operator(op, &UNARY_OPERATORS),
                child: self.child(expr),
            },
            Expression::BinaryOp { op, left, right } => Node::Bin {
                op: operator(op, &BINARY_OPERATORS),
                left: self.child(left),
                right: self.child(right),
            },
            Expression::MemberAccess { object, field } => Node::Member {
                object: self.child(object),
                field: place.name(field.value())?,
            },
            Expression::IndexAccess { array, index } => Node::Index {
                array: self.child(array),
                index: self.child(index),
            },
            Expression::TupleIndex { tuple, index } => Node::TupleIndex {
                tuple: self.child(tuple),
                index: place.small(*index, "tuple index")?,
            },
            Expression::ArrayRepeat { element, count } => Node::Repeat {
                element: self.child(element),
                size: *count.value(),
            },
            Expression::Parenthesized(inner) => Node::Paren {
                child: self.child(inner),
            },
            other => unreachable!("{other:?} is exported by the caller"),
        })
    }

    fn child(&self, child: &Spanned<Expression>) -> Child {
        let found = self.rust.expression_id_by_span(child.span());
        found.map(|id| id.index())
    }

    fn list(&self, children: &[Spanned<Expression>]) -> Vec<Child> {
        children.iter().map(|child| self.child(child)).collect()
    }

    /// A missing callee counts as not an identifier, so it may not be `assert`.
    fn callee(
        &self,
        call: &ExpressionInfo,
        callee: &Spanned<Expression>,
    ) -> Result<Child, ExportError> {
        let link = self.child(callee);
        let is_assert = |name: &Spanned<String>| name.value() == "assert";
        match (link, callee.value()) {
            (None, Expression::Identifier(name)) if is_assert(name) => {
                Err(ExportError::UnrecordedAssert {
                    module: self.place.module.to_string(),
                    start: call.ast_span.start as u64,
                    end: call.ast_span.end as u64,
                })
            }
            _ => Ok(link),
        }
    }
}

fn operator(op: &impl ToString, operators: &[&'static str]) -> &'static str {
    let text = op.to_string();
    let mut known = operators.iter().copied().filter(|known| *known == text);
    known.next().expect("all operators are listed")
}
