//! The text form of an index.

use std::fmt::Write;

use crate::records::*;

/// One line of the file, by its fields.
struct Line(String);

impl Line {
    fn new(kind: &str) -> Self {
        Self(kind.to_string())
    }

    fn field(mut self, value: impl std::fmt::Display) -> Self {
        write!(self.0, "\t{value}").unwrap();
        self
    }

    fn optional(self, value: Option<impl std::fmt::Display>) -> Self {
        match value {
            Some(value) => self.field(value),
            None => self.field("-"),
        }
    }

    fn span(self, (start, end): (u64, u64)) -> Self {
        self.field(start).field(end)
    }

    fn list<T>(self, items: &[T], add: impl Fn(Self, &T) -> Self) -> Self {
        items.iter().fold(self, add)
    }

    fn named_types(self, items: &[NamedType]) -> Self {
        self.list(items, |line, (name, ty)| line.field(name).field(ty))
    }

    fn children(self, items: &[Child]) -> Self {
        self.list(items, |line, child| line.optional(*child))
    }
}

impl Index {
    /// The lines without their LF, the first one included.
    pub fn lines(&self) -> Vec<String> {
        let mut lines = vec![Line::new("index").field(self.version).0];
        for module in &self.modules {
            lines.push(Line::new("M").field(&module.name).0);
            lines.extend(module.scopes.iter().map(|s| scope_line(s).0));
            lines.extend(module.types.iter().map(|t| type_line(t).0));
            lines.extend(module.definitions.iter().map(|d| definition_line(d).0));
            lines.extend(module.expressions.iter().map(|e| expression_line(e).0));
        }
        lines.extend(self.questions.iter().map(|q| question_line(q).0));
        lines
    }

    pub fn to_text(&self) -> String {
        let mut text = self.lines().join("\n");
        text.push('\n');
        text
    }
}

fn scope_line(scope: &Scope) -> Line {
    Line::new("S")
        .optional(scope.parent)
        .field(match scope.kind {
            ScopeKind::Module => "module",
            ScopeKind::Function => "function",
            ScopeKind::Block => "block",
            ScopeKind::Loop => "loop",
        })
}

fn type_line(ty: &TypeExpr) -> Line {
    let line = Line::new("T");
    match ty {
        TypeExpr::Felt => line.field("felt"),
        TypeExpr::Bool => line.field("bool"),
        TypeExpr::U32 => line.field("u32"),
        TypeExpr::Custom(name) => line.field("custom").field(name),
        TypeExpr::Ptr(t) => line.field("ptr").field(t),
        TypeExpr::Tuple(ts) => line.field("tuple").list(ts, |line, t| line.field(t)),
        TypeExpr::Array(t, size) => line.field("array").field(t).field(size),
    }
}

fn definition_line(definition: &Definition) -> Line {
    let line = Line::new("D")
        .field(definition.scope)
        .field(&definition.name)
        .span(definition.name_span)
        .span(definition.full_span);
    match &definition.kind {
        DefinitionKind::Fn {
            returns,
            parameters,
        } => line.field("fn").field(returns).named_types(parameters),
        DefinitionKind::Struct { fields } => line.field("struct").named_types(fields),
        DefinitionKind::Const { ty, value } => line.field("const").optional(*ty).optional(*value),
        DefinitionKind::Let {
            ty,
            value,
            destructured,
            path,
        } => line
            .field("let")
            .optional(*ty)
            .optional(*value)
            .optional(*destructured)
            .list(path, |line, index| line.field(index)),
        DefinitionKind::Param { ty } => line.field("param").field(ty),
        DefinitionKind::Use { module, item } => line.field("use").field(module).field(item),
        DefinitionKind::Loop => line.field("loop"),
    }
}

fn expression_line(expression: &Expr) -> Line {
    let line = Line::new("E")
        .field(expression.scope)
        .span(expression.span)
        .optional(expression.expected)
        .optional(expression.definition);
    let line = match &expression.origin {
        Origin::Plain => line.field("plain").field("-").field("-"),
        Origin::Field { parent, name } => line.field("field").field(parent).field(name),
        Origin::Arg { callee, index } => line.field("arg").field(callee).field(index),
        Origin::Assign { lhs } => line.field("assign").field(lhs).field("-"),
        Origin::Return => line.field("return").field("-").field("-"),
        Origin::Cond => line.field("cond").field("-").field("-"),
    };
    match &expression.node {
        Node::Lit { suffix } => line.field("lit").optional(suffix.as_ref()),
        Node::Bool => line.field("bool"),
        Node::Ident { name } => line.field("ident").field(name),
        Node::Un { op, child } => line.field("un").field(op).optional(*child),
        Node::Bin { op, left, right } => {
            line.field("bin").field(op).optional(*left).optional(*right)
        }
        Node::Call { callee, args } => line.field("call").optional(*callee).children(args),
        Node::Member { object, field } => line.field("member").optional(*object).field(field),
        Node::Index { array, index } => line.field("index").optional(*array).optional(*index),
        Node::StructLit { name, span } => line.field("slit").field(name).span(*span),
        Node::Tuple { elements } => line.field("tuple").children(elements),
        Node::TupleIndex { tuple, index } => line.field("tidx").optional(*tuple).field(index),
        Node::Array { elements } => line.field("arr").children(elements),
        Node::Repeat { element, size } => line.field("rep").optional(*element).field(size),
        Node::Cast { ty } => line.field("cast").field(ty),
        Node::New { ty, count } => line.field("new").field(ty).optional(*count),
        Node::Paren { child } => line.field("paren").optional(*child),
    }
}

fn question_line(question: &Question) -> Line {
    let line = Line::new("Q");
    match question {
        Question::Expr {
            module,
            expression,
            context,
        } => line
            .field("expr")
            .field(module)
            .field(expression)
            .optional(*context),
        Question::Def { module, definition } => line.field("def").field(module).field(definition),
        Question::Type { module, ty, scope } => {
            line.field("type").field(module).field(ty).field(scope)
        }
        Question::At { module, position } => line.field("at").field(module).field(position),
    }
}
