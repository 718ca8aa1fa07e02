//! Nodes as the Rust's expressions. A child is a stand-in with the span under which
//! `expression_id_by_span` finds it: the resolution looks at nothing else in a child, except whether
//! a callee is an identifier and its name.

use cairo_m_compiler_parser::parser::{BinaryOp, Expression, Spanned, UnaryOp};
use index_file::records::{Child, Expr, Node};

use crate::build::Builder;
use crate::spans::{EXPRESSION_SPANS, NO_SPAN, own_span, real_span};

impl Builder<'_> {
    pub(crate) fn node(&self, expression: &Expr) -> Expression {
        let here = real_span(expression.span);
        match &expression.node {
            Node::Lit { suffix } => Expression::Literal(0, suffix.clone()),
            Node::Bool => Expression::BooleanLiteral(false),
            Node::Ident { name } => Expression::Identifier(Spanned::new(name.clone(), here)),
            Node::StructLit { name, span } => Expression::StructLiteral {
                name: Spanned::new(name.clone(), real_span(*span)),
                fields: vec![],
            },
            Node::Cast { ty } => Expression::Cast {
                expr: self.boxed(None),
                target_type: self.ty(*ty),
            },
            Node::New { ty, count } => Expression::New {
                elem_type: self.ty(*ty),
                count: self.boxed(*count),
            },
            Node::Call { callee, args } => Expression::FunctionCall {
                callee: self.boxed(*callee),
                args: self.list(args),
            },
            Node::Tuple { elements } => Expression::Tuple(self.list(elements)),
            Node::Array { elements } => Expression::ArrayLiteral(self.list(elements)),
            other => self.node_with_fixed_children(expression, other),
        }
    }

    fn node_with_fixed_children(&self, expression: &Expr, node: &Node) -> Expression {
        let here = real_span(expression.span);
        match node {
            Node::Un { op, child } => Expression::UnaryOp {
                op: unary_operator(op),
                expr: self.boxed(*child),
            },
            Node::Bin { op, left, right } => Expression::BinaryOp {
                op: binary_operator(op),
                left: self.boxed(*left),
                right: self.boxed(*right),
            },
            Node::Member { object, field } => Expression::MemberAccess {
                object: self.boxed(*object),
                field: Spanned::new(field.clone(), here),
            },
            Node::Index { array, index } => Expression::IndexAccess {
                array: self.boxed(*array),
                index: self.boxed(*index),
            },
            Node::TupleIndex { tuple, index } => Expression::TupleIndex {
                tuple: self.boxed(*tuple),
                index: *index,
            },
            Node::Repeat { element, size } => Expression::ArrayRepeat {
                element: self.boxed(*element),
                count: Spanned::new(*size, here),
            },
            Node::Paren { child } => Expression::Parenthesized(self.boxed(*child)),
            other => unreachable!("{other:?} is made by the caller"),
        }
    }

    /// An identifier where the child is one, else a boolean.
    fn child(&self, child: Child) -> Spanned<Expression> {
        let Some(number) = child else {
            return Spanned::new(Expression::BooleanLiteral(false), own_span(NO_SPAN, 0));
        };
        let record = &self.module.expressions[number];
        let lookup_span = match self.real_spans {
            true => real_span(record.span),
            false => own_span(EXPRESSION_SPANS, number),
        };
        let node = match &record.node {
            Node::Ident { name } => {
                Expression::Identifier(Spanned::new(name.clone(), real_span(record.span)))
            }
            _ => Expression::BooleanLiteral(false),
        };
        Spanned::new(node, lookup_span)
    }

    fn boxed(&self, child: Child) -> Box<Spanned<Expression>> {
        Box::new(self.child(child))
    }

    fn list(&self, children: &[Child]) -> Vec<Spanned<Expression>> {
        children.iter().map(|child| self.child(*child)).collect()
    }
}

fn unary_operator(op: &str) -> UnaryOp {
    [UnaryOp::Not, UnaryOp::Neg]
        .into_iter()
        .find(|known| known.to_string() == op)
        .expect("the loader knows the operators")
}

fn binary_operator(op: &str) -> BinaryOp {
    use BinaryOp::*;
    let operators = [
        [Add, Sub, Mul, Div],
        [Mod, Eq, Neq, Less],
        [Greater, LessEqual, GreaterEqual, And],
        [Or, BitwiseAnd, BitwiseOr, BitwiseXor],
    ];
    operators
        .into_iter()
        .flatten()
        .find(|known| known.to_string() == op)
        .expect("the loader knows the operators")
}
