//! The record words of a loaded index, as docs/LAYOUT.md sets them out: the words that a loader
//! owes. They are written here from the records and the file, apart from any other loader.

use crate::records::*;

/// Words of the record buffer.
pub const WORDS: usize = 16_384;

const MODULES: usize = 16;
const SCOPES: usize = 256;
const TYPES: usize = 512;
const DEFINITIONS: usize = 2_560;
const EXPRESSIONS: usize = 5_632;
const QUESTIONS: usize = 11_264;
const ITEMS: usize = 12_288;

const MODULE_WORDS: usize = 8;
const SCOPE_WORDS: usize = 2;
const TYPE_WORDS: usize = 4;
const DEFINITION_WORDS: usize = 12;
const EXPRESSION_WORDS: usize = 11;
const QUESTION_WORDS: usize = 4;
const ITEM_WORDS: usize = 2;

/// The number of items of all `..` lists.
pub fn item_count(index: &Index) -> usize {
    index.modules.iter().map(Module::items).sum()
}

/// The words of an index that was loaded from this file.
pub fn words(file: &[u8], index: &Index) -> Vec<u32> {
    let mut writer = Writer::new(file);
    writer.line();
    for (number, module) in index.modules.iter().enumerate() {
        writer.module(number, module);
    }
    let end = writer.begins();
    writer.put(MODULES + MODULE_WORDS * index.modules.len() + 1, &end);
    for question in &index.questions {
        writer.question(question);
    }
    let header = [
        index.modules.len() as u32,
        index.questions.len() as u32,
        writer.items as u32,
        index.version,
    ];
    writer.put(0, &header);
    writer.words
}

/// A region whose rows may hold a list.
struct Lists {
    rows: std::ops::Range<usize>,
    row_words: usize,
    /// Kinds of rows that have a word for one, and its place in the row.
    kinds: &'static [u32],
    place: usize,
}

const LISTS: [Lists; 3] = [
    Lists {
        rows: TYPES..DEFINITIONS,
        row_words: TYPE_WORDS,
        kinds: &[5],
        place: 3,
    },
    Lists {
        rows: DEFINITIONS..EXPRESSIONS,
        row_words: DEFINITION_WORDS,
        // Every definition has the word: one that has no list has an empty one.
        kinds: &[0, 1, 2, 3, 4, 5, 6],
        place: 10,
    },
    Lists {
        rows: EXPRESSIONS..QUESTIONS,
        row_words: EXPRESSION_WORDS,
        kinds: &[5, 9, 11],
        place: 10,
    },
];

/// The words with 0 for each empty list: where one begins is the loader's choice.
pub fn with_plain_empty_lists(words: &[u32]) -> Vec<u32> {
    let mut words = words.to_vec();
    for lists in &LISTS {
        for row in lists.rows.clone().step_by(lists.row_words) {
            let at = row + lists.place;
            // An expression's word has its origin beside its node.
            if lists.kinds.contains(&(words[row] % 256)) && words[at] < 65_536 {
                words[at] = 0;
            }
        }
    }
    words
}

/// 0 for none, else the number and 1.
fn link(link: Option<usize>) -> u32 {
    link.map_or(0, |number| number as u32 + 1)
}

/// A size as two words, the low one first.
fn size(size: u64) -> [u32; 2] {
    [size as u32, (size >> 32) as u32]
}

fn place(op: &str, operators: &[&str]) -> u32 {
    let place = operators.iter().position(|other| *other == op);
    place.expect("a loaded operator") as u32
}

/// Walks the file's lines beside the records.
struct Writer<'f> {
    file: &'f [u8],
    /// Where the next line begins.
    next: usize,
    /// Where each field of the present line begins, and how long it is.
    fields: Vec<(usize, usize)>,
    words: Vec<u32>,
    scopes: usize,
    types: usize,
    definitions: usize,
    expressions: usize,
    questions: usize,
    items: usize,
}

impl<'f> Writer<'f> {
    fn new(file: &'f [u8]) -> Self {
        Self {
            file,
            next: 0,
            fields: Vec::new(),
            words: vec![0; WORDS],
            scopes: 0,
            types: 0,
            definitions: 0,
            expressions: 0,
            questions: 0,
            items: 0,
        }
    }

    fn put(&mut self, at: usize, values: &[u32]) {
        self.words[at..at + values.len()].copy_from_slice(values);
    }

    /// Goes on to the next line of the file.
    fn line(&mut self) {
        let mut at = self.next;
        let rest = &self.file[at..];
        let length = rest.iter().position(|byte| *byte == b'\n');
        let length = length.expect("a loaded file has this line");
        self.fields.clear();
        for field in rest[..length].split(|byte| *byte == b'\t') {
            self.fields.push((at, field.len()));
            at += field.len() + 1;
        }
        self.next += length + 1;
    }

    /// The word of the name that stands in a field of the present line.
    fn name(&self, field: usize) -> u32 {
        let (start, length) = self.fields[field];
        (start + 65_536 * length) as u32
    }

    /// Where the records of each kind begin that come next.
    fn begins(&self) -> [u32; 4] {
        [
            self.scopes as u32,
            self.types as u32,
            self.definitions as u32,
            self.expressions as u32,
        ]
    }

    /// Writes the items of a list behind those before, and gives the list's word.
    fn list(&mut self, items: impl IntoIterator<Item = [u32; 2]>) -> u32 {
        let first = self.items;
        for item in items {
            self.put(ITEMS + ITEM_WORDS * self.items, &item);
            self.items += 1;
        }
        (first + 65_536 * (self.items - first)) as u32
    }

    /// Names with their types; the first name stands in this field.
    fn named_types(&mut self, items: &[NamedType], first_field: usize) -> u32 {
        let names: Vec<u32> = (0..items.len())
            .map(|item| self.name(first_field + 2 * item))
            .collect();
        let types = items.iter().map(|(_, ty)| *ty as u32);
        self.list(types.zip(names).map(|(ty, name)| [ty, name]))
    }

    fn numbers(&mut self, items: &[usize]) -> u32 {
        self.list(items.iter().map(|number| [*number as u32, 0]))
    }

    fn children(&mut self, items: &[Child]) -> u32 {
        self.list(items.iter().map(|child| [link(*child), 0]))
    }

    fn module(&mut self, number: usize, module: &Module) {
        self.line();
        let [s, t, d, e] = self.begins();
        let row = [self.name(1), s, t, d, e];
        self.put(MODULES + MODULE_WORDS * number, &row);
        for scope in &module.scopes {
            self.scope(scope);
        }
        for ty in &module.types {
            self.type_expr(ty);
        }
        for definition in &module.definitions {
            self.definition(definition);
        }
        for expression in &module.expressions {
            self.expression(expression);
        }
    }

    fn scope(&mut self, scope: &Scope) {
        self.line();
        let row = [link(scope.parent), scope.kind as u32];
        self.put(SCOPES + SCOPE_WORDS * self.scopes, &row);
        self.scopes += 1;
    }

    fn type_expr(&mut self, ty: &TypeExpr) {
        self.line();
        let row = match ty {
            TypeExpr::Felt => [0, 0, 0, 0],
            TypeExpr::Bool => [1, 0, 0, 0],
            TypeExpr::U32 => [2, 0, 0, 0],
            TypeExpr::Custom(_) => [3, self.name(2), 0, 0],
            TypeExpr::Ptr(t) => [4, *t as u32, 0, 0],
            TypeExpr::Tuple(ts) => [5, 0, 0, self.numbers(ts)],
            TypeExpr::Array(t, length) => {
                let [low, high] = size(*length);
                [6, *t as u32, low, high]
            }
        };
        self.put(TYPES + TYPE_WORDS * self.types, &row);
        self.types += 1;
    }

    fn definition(&mut self, definition: &Definition) {
        self.line();
        let (kind, [a, b, c], list) = match &definition.kind {
            DefinitionKind::Fn {
                returns,
                parameters,
            } => (0, [*returns as u32, 0, 0], self.named_types(parameters, 9)),
            DefinitionKind::Struct { fields } => (1, [0; 3], self.named_types(fields, 8)),
            DefinitionKind::Const { ty, value } => (2, [link(*ty), link(*value), 0], 0),
            DefinitionKind::Let {
                ty,
                value,
                destructured,
                path,
            } => {
                let links = [link(*ty), link(*value), link(*destructured)];
                (3, links, self.numbers(path))
            }
            DefinitionKind::Param { ty } => (4, [*ty as u32, 0, 0], 0),
            DefinitionKind::Use { .. } => (5, [self.name(8), self.name(9), 0], 0),
            DefinitionKind::Loop => (6, [0; 3], 0),
        };
        let row = [
            kind,
            definition.scope as u32,
            self.name(2),
            definition.name_span.0 as u32,
            definition.name_span.1 as u32,
            definition.full_span.0 as u32,
            definition.full_span.1 as u32,
            a,
            b,
            c,
            list,
        ];
        self.put(DEFINITIONS + DEFINITION_WORDS * self.definitions, &row);
        self.definitions += 1;
    }

    fn expression(&mut self, expression: &Expr) {
        self.line();
        let (origin, origin_link, value) = match expression.origin {
            Origin::Plain => (0, 0, 0),
            Origin::Field { parent, .. } => (1, parent as u32, self.name(8)),
            Origin::Arg { callee, index } => (2, callee as u32, index as u32),
            Origin::Assign { lhs } => (3, lhs as u32, 0),
            Origin::Return => (4, 0, 0),
            Origin::Cond => (5, 0, 0),
        };
        let (node, [a, b, c]) = self.node(&expression.node);
        let row = [
            node + 256 * origin,
            expression.scope as u32,
            expression.span.0 as u32,
            expression.span.1 as u32,
            link(expression.expected),
            link(expression.definition),
            origin_link,
            value,
            a,
            b,
            c,
        ];
        self.put(EXPRESSIONS + EXPRESSION_WORDS * self.expressions, &row);
        self.expressions += 1;
    }

    /// The node's number and its three words.
    fn node(&mut self, node: &Node) -> (u32, [u32; 3]) {
        match node {
            Node::Lit { suffix: None } => (0, [0; 3]),
            Node::Lit { suffix: Some(_) } => (0, [self.name(10), 0, 0]),
            Node::Bool => (1, [0; 3]),
            Node::Ident { .. } => (2, [self.name(10), 0, 0]),
            Node::Un { op, child } => (3, [place(op, &UNARY_OPERATORS), link(*child), 0]),
            Node::Bin { op, left, right } => {
                let op = place(op, &BINARY_OPERATORS);
                (4, [op, link(*left), link(*right)])
            }
            Node::Call { callee, args } => (5, [link(*callee), 0, self.children(args)]),
            Node::Member { object, .. } => (6, [link(*object), self.name(11), 0]),
            Node::Index { array, index } => (7, [link(*array), link(*index), 0]),
            Node::StructLit { span, .. } => (8, [self.name(10), span.0 as u32, span.1 as u32]),
            Node::Tuple { elements } => (9, [0, 0, self.children(elements)]),
            Node::TupleIndex { tuple, index } => (10, [link(*tuple), *index as u32, 0]),
            Node::Array { elements } => (11, [0, 0, self.children(elements)]),
            Node::Repeat { element, size: n } => {
                let [low, high] = size(*n);
                (12, [link(*element), low, high])
            }
            Node::Cast { ty } => (13, [*ty as u32, 0, 0]),
            Node::New { ty, count } => (14, [*ty as u32, link(*count), 0]),
            Node::Paren { child } => (15, [link(*child), 0, 0]),
        }
    }

    fn question(&mut self, question: &Question) {
        self.line();
        let row = match *question {
            Question::Expr {
                module,
                expression,
                context,
            } => [0, module as u32, expression as u32, link(context)],
            Question::Def { module, definition } => [1, module as u32, definition as u32, 0],
            Question::Type { module, ty, scope } => [2, module as u32, ty as u32, scope as u32],
            Question::At { module, position } => [3, module as u32, position as u32, 0],
        };
        self.put(QUESTIONS + QUESTION_WORDS * self.questions, &row);
        self.questions += 1;
    }
}
