//! How many vectors reach each form that document 01 names.
//!
//! A vector has a form if a record of its index has it; it asks the form if one of its questions
//! names such a record. Answers and refusals are counted by the answer lines.

use std::collections::BTreeSet;
use std::fmt::Write;

use crate::load::load;
use crate::records::*;
use crate::vectors::Vector;

/// All forms, by group, in the order of document 01.
const GROUPS: &[(&str, &[&str])] = &[
    ("scope", &["module", "function", "block", "loop"]),
    (
        "type",
        &["felt", "bool", "u32", "custom", "ptr", "tuple", "array"],
    ),
    (
        "definition",
        &[
            "fn", "struct", "const", "let", "path", "param", "use", "loop",
        ],
    ),
    (
        "origin",
        &["plain", "field", "arg", "assign", "return", "cond"],
    ),
    (
        "node",
        &[
            "lit", "bool", "ident", "un", "bin", "call", "member", "index", "slit", "tuple",
            "tidx", "arr", "rep", "cast", "new", "paren",
        ],
    ),
    ("unary", &UNARY_OPERATORS),
    ("binary", &BINARY_OPERATORS),
    ("question", &["expr", "context", "def", "type", "at"]),
    (
        "answer",
        &[
            "felt", "bool", "u32", "unknown", "error", "()", "tuple", "ptr", "array", "struct",
            "fn", "none",
        ],
    ),
    ("refusal", &["2", "3", "4", "5", "6", "7", "8", "9", "10"]),
];

/// A form: its group and name.
type Form = (&'static str, &'static str);

#[derive(Debug, Clone, PartialEq, Eq)]
pub struct Row {
    pub form: Form,
    /// Vectors that have it, and those that ask it.
    pub has: usize,
    pub asks: usize,
}

/// One row for each form, in fixed order.
pub fn rows(vectors: &[Vector]) -> Vec<Row> {
    let forms = GROUPS.iter().flat_map(|(group, names)| {
        let names = names.iter();
        names.map(|name| Row {
            form: (group, name),
            has: 0,
            asks: 0,
        })
    });
    let mut rows: Vec<Row> = forms.collect();
    for vector in vectors {
        let seen = Seen::of(vector);
        for row in &mut rows {
            row.has += usize::from(seen.has.contains(&row.form));
            row.asks += usize::from(seen.asks.contains(&row.form));
        }
    }
    rows
}

/// The rows as a text table, with tabs.
pub fn table(vectors: &[Vector]) -> String {
    let mut text = format!("vectors\t{}\nform\thave it\task it\n", vectors.len());
    for row in rows(vectors) {
        let (group, name) = row.form;
        writeln!(text, "{group} {name}\t{}\t{}", row.has, row.asks).expect("a string");
    }
    text
}

#[derive(Default)]
struct Seen {
    has: BTreeSet<Form>,
    asks: BTreeSet<Form>,
}

impl Seen {
    fn of(vector: &Vector) -> Self {
        let mut seen = Self::default();
        for line in String::from_utf8_lossy(&vector.answer).lines() {
            if let Some(form) = answer_form(line) {
                seen.has.insert(form);
                seen.asks.insert(form);
            }
        }
        let Ok(index) = load(&vector.index) else {
            return seen;
        };
        for module in &index.modules {
            let forms = module.scopes.iter().map(|scope| scope_form(scope.kind));
            seen.has.extend(forms);
            seen.has.extend(module.types.iter().map(type_form));
            let forms = module.definitions.iter().flat_map(definition_forms);
            seen.has.extend(forms);
            let forms = module.expressions.iter().flat_map(expression_forms);
            seen.has.extend(forms);
        }
        for question in &index.questions {
            seen.question(&index, question);
        }
        seen
    }

    /// Absent records are asked too, but have no form. `at` asks the expression that it picks.
    fn question(&mut self, index: &Index, question: &Question) {
        let (kind, module, number) = question.lead();
        let absent = Module::default();
        let module = index.modules.get(module).unwrap_or(&absent);
        let mut forms = vec![("question", kind)];
        match question {
            Question::Expr { context, .. } => {
                let expression = module.expressions.get(number);
                forms.extend(expression.map(expression_forms).into_iter().flatten());
                if let (Some(ty), Some(expression)) = (context, expression) {
                    forms.push(("question", "context"));
                    forms.push(type_form(&module.types[*ty]));
                    forms.push(scope_form(module.scopes[expression.scope].kind));
                }
            }
            Question::Def { .. } => {
                let definition = module.definitions.get(number);
                forms.extend(definition.map(definition_forms).into_iter().flatten());
            }
            Question::Type { scope, .. } => {
                forms.extend(module.types.get(number).map(type_form));
                forms.extend(module.scopes.get(*scope).map(|s| scope_form(s.kind)));
            }
            Question::At { position, .. } => {
                let expression = module.expression_at(*position);
                let expression = expression.map(|number| &module.expressions[number]);
                forms.extend(expression.map(expression_forms).into_iter().flatten());
            }
        }
        self.has.insert(forms[0]);
        self.has.extend(forms.iter().filter(|f| f.0 == "question"));
        self.asks.extend(forms);
    }
}

fn scope_form(kind: ScopeKind) -> Form {
    let name = match kind {
        ScopeKind::Module => "module",
        ScopeKind::Function => "function",
        ScopeKind::Block => "block",
        ScopeKind::Loop => "loop",
    };
    ("scope", name)
}

fn type_form(ty: &TypeExpr) -> Form {
    let name = match ty {
        TypeExpr::Felt => "felt",
        TypeExpr::Bool => "bool",
        TypeExpr::U32 => "u32",
        TypeExpr::Custom(_) => "custom",
        TypeExpr::Ptr(_) => "ptr",
        TypeExpr::Tuple(_) => "tuple",
        TypeExpr::Array(..) => "array",
    };
    ("type", name)
}

/// A let with a destructured value has the form `path` beside its own.
fn definition_forms(definition: &Definition) -> Vec<Form> {
    let name = match &definition.kind {
        DefinitionKind::Fn { .. } => "fn",
        DefinitionKind::Struct { .. } => "struct",
        DefinitionKind::Const { .. } => "const",
        DefinitionKind::Let {
            destructured: Some(_),
            ..
        } => return vec![("definition", "let"), ("definition", "path")],
        DefinitionKind::Let { .. } => "let",
        DefinitionKind::Param { .. } => "param",
        DefinitionKind::Use { .. } => "use",
        DefinitionKind::Loop => "loop",
    };
    vec![("definition", name)]
}

fn expression_forms(expression: &Expr) -> Vec<Form> {
    let origin = match expression.origin {
        Origin::Plain => "plain",
        Origin::Field { .. } => "field",
        Origin::Arg { .. } => "arg",
        Origin::Assign { .. } => "assign",
        Origin::Return => "return",
        Origin::Cond => "cond",
    };
    let mut forms = vec![("origin", origin), ("node", node_name(&expression.node))];
    match expression.node {
        Node::Un { op, .. } => forms.push(("unary", op)),
        Node::Bin { op, .. } => forms.push(("binary", op)),
        _ => {}
    }
    forms
}

fn node_name(node: &Node) -> &'static str {
    match node {
        Node::Lit { .. } => "lit",
        Node::Bool => "bool",
        Node::Ident { .. } => "ident",
        Node::Un { .. } => "un",
        Node::Bin { .. } => "bin",
        Node::Call { .. } => "call",
        Node::Member { .. } => "member",
        Node::Index { .. } => "index",
        Node::StructLit { .. } => "slit",
        Node::Tuple { .. } => "tuple",
        Node::TupleIndex { .. } => "tidx",
        Node::Array { .. } => "arr",
        Node::Repeat { .. } => "rep",
        Node::Cast { .. } => "cast",
        Node::New { .. } => "new",
        Node::Paren { .. } => "paren",
    }
}

/// The form of an answer line: of its type by the outermost part, of its refusal, or `none`.
fn answer_form(line: &str) -> Option<Form> {
    let fields: Vec<&str> = line.split('\t').collect();
    let (group, text) = match fields[..] {
        ["refused", number, _] | [_, _, _, "refused", number] => ("refusal", number),
        [_, _, _, "type", text] => ("answer", text),
        [_, _, _, "none"] => ("answer", "none"),
        _ => return None,
    };
    let name = match text.as_bytes() {
        b"()" => "()",
        [b'(', ..] => "tuple",
        [b'p', ..] => "ptr",
        [b'[', ..] => "array",
        [b's', ..] => "struct",
        [b'f', b'n', ..] => "fn",
        _ => text,
    };
    let names = GROUPS.iter().find(|(g, _)| *g == group)?.1;
    let name = names.iter().find(|known| **known == name)?;
    Some((group, name))
}
