//! Expressions of arbitrary modules.

use index_file::records::*;

use super::{FIELD_NAMES, SUFFIXES, Shape, TYPE_NAMES, VALUE_NAMES, optional_ty, span, ty};
use crate::generate::Random;

pub fn expression(
    random: &mut Random,
    shape: &Shape,
    module: &Module,
    number: usize,
    expressions: usize,
) -> Expr {
    let mut made = Maker {
        random,
        shape,
        module,
        number,
        expressions,
    };
    let origin = made.origin();
    let node = made.node();
    let definition = made.recorded(&node);
    Expr {
        scope: random.below(module.scopes.len()),
        span: span(random, shape),
        expected: optional_ty(random, module, 20),
        definition,
        origin,
        node,
    }
}

/// Makes expression `number` of `expressions`.
struct Maker<'r> {
    random: &'r mut Random,
    shape: &'r Shape,
    module: &'r Module,
    number: usize,
    expressions: usize,
}

impl Maker<'_> {
    fn origin(&mut self) -> Origin {
        let any = self.random.below(self.expressions);
        match self.random.below(20) {
            0 | 1 => Origin::Field {
                parent: any,
                name: self.random.pick(&FIELD_NAMES).to_string(),
            },
            2..5 => Origin::Arg {
                callee: any,
                index: self.random.below(3),
            },
            5 | 6 => Origin::Assign { lhs: any },
            7..9 => Origin::Return,
            9 => Origin::Cond,
            _ => Origin::Plain,
        }
    }

    /// Only an identifier's recorded definition is ever read; others have one now and then.
    fn recorded(&mut self, node: &Node) -> Option<usize> {
        let definitions = self.module.definitions.len();
        match node {
            Node::Ident { name } => self.recorded_of_name(name),
            _ if definitions > 0 && self.random.percent(5) => Some(self.random.below(definitions)),
            _ => None,
        }
    }

    /// Mostly a definition of the name, sometimes any, sometimes none.
    fn recorded_of_name(&mut self, name: &str) -> Option<usize> {
        let definitions = self.module.definitions.len();
        let end = match self.shape.rings {
            true => definitions,
            false => self.number * definitions / self.expressions,
        };
        if end == 0 || self.random.percent(25) {
            return None;
        }
        let of_name: Vec<usize> = (0..end)
            .filter(|d| self.module.definitions[*d].name == name)
            .collect();
        if of_name.is_empty() || self.random.percent(15) {
            return Some(self.random.below(end));
        }
        Some(*self.random.pick(&of_name))
    }

    fn child(&mut self) -> Child {
        let end = match self.shape.rings {
            true => self.expressions,
            false => self.number,
        };
        if end == 0 || self.random.percent(self.shape.missing) {
            return None;
        }
        // Near ones more often: deeper expressions.
        if self.random.percent(50) {
            return Some(end - 1 - self.random.below(end.min(4)));
        }
        Some(self.random.below(end))
    }

    fn children(&mut self) -> Vec<Child> {
        let length = self.random.below(4);
        (0..length).map(|_| self.child()).collect()
    }

    fn node(&mut self) -> Node {
        let leaf = self.number == 0 && !self.shape.rings;
        match self.random.below(if leaf { 12 } else { 42 }) {
            0..12 => self.leaf(),
            12..34 => self.composed(),
            choice => self.typed(choice),
        }
    }

    fn leaf(&mut self) -> Node {
        match self.random.below(12) {
            0..3 => Node::Lit { suffix: None },
            3 => Node::Lit {
                suffix: Some(self.random.pick(&SUFFIXES).to_string()),
            },
            4 => Node::Bool,
            5..10 => Node::Ident {
                name: super::value_name(self.random),
            },
            10 => Node::StructLit {
                name: self.random.pick(&VALUE_NAMES).to_string(),
                span: span(self.random, self.shape),
            },
            _ => Node::StructLit {
                name: self.random.pick(&TYPE_NAMES).to_string(),
                span: span(self.random, self.shape),
            },
        }
    }

    fn composed(&mut self) -> Node {
        match self.random.below(22) {
            0..2 => Node::Un {
                op: self.random.pick::<&'static str>(&UNARY_OPERATORS),
                child: self.child(),
            },
            2..7 => Node::Bin {
                op: self.random.pick::<&'static str>(&BINARY_OPERATORS),
                left: self.child(),
                right: self.child(),
            },
            7..11 => Node::Call {
                callee: self.child(),
                args: self.children(),
            },
            11 | 12 => Node::Member {
                object: self.child(),
                field: self.random.pick(&FIELD_NAMES).to_string(),
            },
            13 | 14 => Node::Index {
                array: self.child(),
                index: self.child(),
            },
            15 | 16 => Node::Tuple {
                elements: self.children(),
            },
            17 => Node::TupleIndex {
                tuple: self.child(),
                index: self.random.below(3),
            },
            _ => self.array_or_parentheses(),
        }
    }

    fn array_or_parentheses(&mut self) -> Node {
        match self.random.below(4) {
            0 | 1 => Node::Array {
                elements: self.children(),
            },
            2 => Node::Repeat {
                element: self.child(),
                size: *self.random.pick(&[0, 1, 3, u64::MAX]),
            },
            _ => Node::Paren {
                child: self.child(),
            },
        }
    }

    /// A cast or `new`, if there is a type.
    fn typed(&mut self, choice: usize) -> Node {
        match ty(self.random, self.module) {
            None => Node::Bool,
            Some(ty) if choice < 39 => Node::Cast { ty },
            Some(ty) => Node::New {
                ty,
                count: self.child(),
            },
        }
    }
}
