//! The form of a line: its fields, one after the other.

use super::{Kind, Record};
use crate::limits;
use crate::records::*;

/// The fields of a line. Each method takes the next field and gives none if it is missing or has the
/// wrong form.
pub(super) struct Fields<I>(I);

impl<'f, I: Iterator<Item = &'f [u8]>> Fields<I> {
    pub(super) fn new(fields: I) -> Self {
        Self(fields)
    }

    /// The first field.
    pub(super) fn kind(&mut self) -> Option<Kind> {
        Kind::of(self.0.next()?)
    }

    /// The record of a line of right form; `kind` was its first field.
    pub(super) fn record(mut self, kind: Kind) -> Option<Record> {
        let record = match kind {
            Kind::M => Record::M(self.name()?),
            Kind::S => Record::S(self.scope()?),
            Kind::T => Record::T(self.type_expr()?),
            Kind::D => Record::D(self.definition()?),
            Kind::E => Record::E(self.expression()?),
            Kind::Q => Record::Q(self.question()?),
        };
        self.0.next().is_none().then_some(record)
    }

    fn keyword(&mut self) -> Option<&'f str> {
        std::str::from_utf8(self.0.next()?).ok()
    }

    fn name(&mut self) -> Option<String> {
        name(self.0.next()?)
    }

    fn optional_name(&mut self) -> Option<Option<String>> {
        optional(self.0.next()?, name)
    }

    fn link(&mut self) -> Option<usize> {
        link(self.0.next()?)
    }

    fn optional_link(&mut self) -> Option<Option<usize>> {
        optional(self.0.next()?, link)
    }

    fn size(&mut self) -> Option<u64> {
        number(self.0.next()?)
    }

    fn span(&mut self) -> Option<(u64, u64)> {
        Some((self.position()?, self.position()?))
    }

    fn position(&mut self) -> Option<u64> {
        number(self.0.next()?).filter(|&position| position < limits::POSITION)
    }

    fn absent(&mut self) -> Option<()> {
        (self.0.next()? == b"-").then_some(())
    }

    /// The rest of the line as a list, each item read by `item`.
    fn list<T>(&mut self, item: impl Fn(&'f [u8]) -> Option<T>) -> Option<Vec<T>> {
        let mut items = Vec::new();
        for field in &mut self.0 {
            items.push(item(field)?);
        }
        Some(items)
    }

    fn children(&mut self) -> Option<Vec<Child>> {
        self.list(|field| optional(field, link))
    }

    fn named_types(&mut self) -> Option<Vec<NamedType>> {
        let mut items = Vec::new();
        while let Some(field) = self.0.next() {
            items.push((name(field)?, self.link()?));
        }
        Some(items)
    }

    fn scope(&mut self) -> Option<Scope> {
        let parent = self.optional_link()?;
        let kind = match self.keyword()? {
            "module" => ScopeKind::Module,
            "function" => ScopeKind::Function,
            "block" => ScopeKind::Block,
            "loop" => ScopeKind::Loop,
            _ => return None,
        };
        let right = parent.is_none() == (kind == ScopeKind::Module);
        right.then_some(Scope { parent, kind })
    }

    fn type_expr(&mut self) -> Option<TypeExpr> {
        Some(match self.keyword()? {
            "felt" => TypeExpr::Felt,
            "bool" => TypeExpr::Bool,
            "u32" => TypeExpr::U32,
            "custom" => TypeExpr::Custom(self.name()?),
            "ptr" => TypeExpr::Ptr(self.link()?),
            "tuple" => TypeExpr::Tuple(self.list(link)?),
            "array" => TypeExpr::Array(self.link()?, self.size()?),
            _ => return None,
        })
    }

    fn definition(&mut self) -> Option<Definition> {
        Some(Definition {
            scope: self.link()?,
            name: self.name()?,
            name_span: self.span()?,
            full_span: self.span()?,
            kind: self.definition_kind()?,
        })
    }

    fn definition_kind(&mut self) -> Option<DefinitionKind> {
        Some(match self.keyword()? {
            "fn" => DefinitionKind::Fn {
                returns: self.link()?,
                parameters: self.named_types()?,
            },
            "struct" => DefinitionKind::Struct {
                fields: self.named_types()?,
            },
            "const" => DefinitionKind::Const {
                ty: self.optional_link()?,
                value: self.optional_link()?,
            },
            "let" => return self.let_kind(),
            "param" => DefinitionKind::Param { ty: self.link()? },
            "use" => DefinitionKind::Use {
                module: self.name()?,
                item: self.name()?,
            },
            "loop" => DefinitionKind::Loop,
            _ => return None,
        })
    }

    /// Without a destructured value there is no path.
    fn let_kind(&mut self) -> Option<DefinitionKind> {
        let ty = self.optional_link()?;
        let value = self.optional_link()?;
        let destructured = self.optional_link()?;
        let path = self.list(link)?;
        let right = destructured.is_some() || path.is_empty();
        right.then_some(DefinitionKind::Let {
            ty,
            value,
            destructured,
            path,
        })
    }

    fn expression(&mut self) -> Option<Expr> {
        Some(Expr {
            scope: self.link()?,
            span: self.span()?,
            expected: self.optional_link()?,
            definition: self.optional_link()?,
            origin: self.origin()?,
            node: self.node()?,
        })
    }

    fn origin(&mut self) -> Option<Origin> {
        Some(match self.keyword()? {
            "plain" => self.without_link(Origin::Plain)?,
            "return" => self.without_link(Origin::Return)?,
            "cond" => self.without_link(Origin::Cond)?,
            "field" => Origin::Field {
                parent: self.link()?,
                name: self.name()?,
            },
            "arg" => Origin::Arg {
                callee: self.link()?,
                index: self.link()?,
            },
            "assign" => {
                let lhs = self.link()?;
                self.absent()?;
                Origin::Assign { lhs }
            }
            _ => return None,
        })
    }

    fn without_link(&mut self, origin: Origin) -> Option<Origin> {
        self.absent()?;
        self.absent()?;
        Some(origin)
    }

    fn node(&mut self) -> Option<Node> {
        let keyword = self.keyword()?;
        Some(match keyword {
            "lit" => Node::Lit {
                suffix: self.optional_name()?,
            },
            "bool" => Node::Bool,
            "ident" => Node::Ident { name: self.name()? },
            "slit" => Node::StructLit {
                name: self.name()?,
                span: self.span()?,
            },
            "cast" => Node::Cast { ty: self.link()? },
            "new" => Node::New {
                ty: self.link()?,
                count: self.optional_link()?,
            },
            "call" => Node::Call {
                callee: self.optional_link()?,
                args: self.children()?,
            },
            "tuple" => Node::Tuple {
                elements: self.children()?,
            },
            "arr" => Node::Array {
                elements: self.children()?,
            },
            _ => return self.node_with_fixed_children(keyword),
        })
    }

    fn node_with_fixed_children(&mut self, keyword: &str) -> Option<Node> {
        Some(match keyword {
            "un" => Node::Un {
                op: operator(self.keyword()?, &UNARY_OPERATORS)?,
                child: self.optional_link()?,
            },
            "bin" => Node::Bin {
                op: operator(self.keyword()?, &BINARY_OPERATORS)?,
                left: self.optional_link()?,
                right: self.optional_link()?,
            },
            "member" => Node::Member {
                object: self.optional_link()?,
                field: self.name()?,
            },
            "index" => Node::Index {
                array: self.optional_link()?,
                index: self.optional_link()?,
            },
            "tidx" => Node::TupleIndex {
                tuple: self.optional_link()?,
                index: self.link()?,
            },
            "rep" => Node::Repeat {
                element: self.optional_link()?,
                size: self.size()?,
            },
            "paren" => Node::Paren {
                child: self.optional_link()?,
            },
            _ => return None,
        })
    }

    fn question(&mut self) -> Option<Question> {
        Some(match self.keyword()? {
            "expr" => Question::Expr {
                module: self.link()?,
                expression: self.link()?,
                context: self.optional_link()?,
            },
            "def" => Question::Def {
                module: self.link()?,
                definition: self.link()?,
            },
            "type" => Question::Type {
                module: self.link()?,
                ty: self.link()?,
                scope: self.link()?,
            },
            "at" => Question::At {
                module: self.link()?,
                position: self.position()?,
            },
            _ => return None,
        })
    }
}

/// Decimal, without leading zeros, below 2^64.
fn number(field: &[u8]) -> Option<u64> {
    let digits_only = !field.is_empty() && field.iter().all(u8::is_ascii_digit);
    let leading_zero = field.len() > 1 && field[0] == b'0';
    if !digits_only || leading_zero {
        return None;
    }
    std::str::from_utf8(field).ok()?.parse().ok()
}

/// A link, count or index.
fn link(field: &[u8]) -> Option<usize> {
    number(field)
        .filter(|&link| link < limits::LINK)
        .map(|link| link as usize)
}

fn name(field: &[u8]) -> Option<String> {
    let right = (1..=limits::NAME_BYTES).contains(&field.len())
        && field.iter().all(|byte| (0x21..=0x7E).contains(byte))
        && field != b"-";
    right.then(|| String::from_utf8(field.to_vec()).expect("ASCII"))
}

fn optional<'f, T>(field: &'f [u8], read: impl Fn(&'f [u8]) -> Option<T>) -> Option<Option<T>> {
    if field == b"-" {
        return Some(None);
    }
    read(field).map(Some)
}

fn operator(field: &str, operators: &[&'static str]) -> Option<&'static str> {
    operators.iter().copied().find(|op| *op == field)
}
