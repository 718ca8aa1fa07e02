//! Index files of given sizes, the same at each run: records of all kinds, up to the size near the
//! proportions of exported programs (rust/programs: 14 E, 18 Q, 4 D and 4 T in a KB); at 64 KB as many
//! as document 01 allows of each kind. Names are as long as the size needs.

use index_file::limits;
use index_file::records::*;

pub struct File {
    pub name: &'static str,
    pub bytes: Vec<u8>,
}

/// Records over the whole file.
#[derive(Clone, Copy)]
struct Counts {
    modules: usize,
    scopes: usize,
    types: usize,
    definitions: usize,
    expressions: usize,
    questions: usize,
    /// Items of a list, at most.
    list: usize,
}

pub fn files() -> Vec<File> {
    let small = Counts {
        modules: 1,
        scopes: 3,
        types: 4,
        definitions: 4,
        expressions: 14,
        questions: 10,
        list: 2,
    };
    let middle = Counts {
        modules: 3,
        scopes: 26,
        types: 60,
        definitions: 60,
        expressions: 220,
        questions: 240,
        list: 3,
    };
    let largest = Counts {
        modules: limits::MODULES,
        scopes: limits::SCOPES,
        types: limits::TYPES,
        definitions: limits::DEFINITIONS,
        expressions: limits::EXPRESSIONS,
        questions: limits::QUESTIONS,
        list: 8,
    };
    let expressions = Counts {
        modules: 1,
        scopes: 16,
        types: 8,
        definitions: 8,
        expressions: limits::EXPRESSIONS,
        questions: 4,
        list: 6,
    };
    let file = |name, counts, most| File {
        name,
        bytes: fitting(counts, most),
    };
    vec![
        file("1 KB", small, 1_024),
        file("16 KB", middle, 16_384),
        file("64 KB", largest, limits::BYTES),
        file("32 KB, E lines", expressions, 32_768),
    ]
}

/// The file with the longest names that has at most so many bytes.
fn fitting(counts: Counts, most: usize) -> Vec<u8> {
    let texts = (2..=40).map(|length| index(counts, length).to_text().into_bytes());
    let fits = |text: &Vec<u8>| text.len() <= most;
    texts.take_while(fits).last().expect("short names fit")
}

/// SplitMix64.
struct Random(u64);

impl Random {
    fn below(&mut self, end: usize) -> usize {
        self.0 = self.0.wrapping_add(0x9E37_79B9_7F4A_7C15);
        let mut z = self.0;
        z = (z ^ (z >> 30)).wrapping_mul(0xBF58_476D_1CE4_E5B9);
        z = (z ^ (z >> 27)).wrapping_mul(0x94D0_49BB_1331_11EB);
        ((z ^ (z >> 31)) % end as u64) as usize
    }

    fn percent(&mut self, chance: usize) -> bool {
        self.below(100) < chance
    }
}

/// This module's share of so many records.
fn share(count: usize, module: usize, modules: usize) -> usize {
    count * (module + 1) / modules - count * module / modules
}

fn index(counts: Counts, name_length: usize) -> Index {
    let mut index = Index::default();
    for number in 0..counts.modules {
        let part = |count| share(count, number, counts.modules);
        let mut maker = Maker {
            random: Random(number as u64),
            counts: Counts {
                scopes: part(counts.scopes),
                types: part(counts.types),
                definitions: part(counts.definitions),
                expressions: part(counts.expressions),
                ..counts
            },
            name_length,
            module: Module::default(),
            position: 0,
        };
        maker.module(number);
        index.modules.push(maker.module);
    }
    let mut random = Random(99);
    for number in 0..counts.questions {
        let module = number * counts.modules / counts.questions;
        index
            .questions
            .push(question(&mut random, &index.modules[module], module));
    }
    index
}

fn question(random: &mut Random, records: &Module, module: usize) -> Question {
    match random.below(10) {
        0 | 1 => Question::Def {
            module,
            definition: random.below(records.definitions.len()),
        },
        2 => Question::Type {
            module,
            ty: random.below(records.types.len()),
            scope: random.below(records.scopes.len()),
        },
        other => Question::Expr {
            module,
            expression: random.below(records.expressions.len()),
            context: (other == 3).then(|| random.below(records.types.len())),
        },
    }
}

struct Maker {
    random: Random,
    /// Of this module.
    counts: Counts,
    name_length: usize,
    module: Module,
    position: u64,
}

impl Maker {
    fn module(&mut self, number: usize) {
        self.module.name = self.name("mod", number);
        for number in 0..self.counts.scopes {
            let scope = self.scope(number);
            self.module.scopes.push(scope);
        }
        for number in 0..self.counts.types {
            let ty = self.type_expr(number);
            self.module.types.push(ty);
        }
        for number in 0..self.counts.definitions {
            let definition = self.definition(number);
            self.module.definitions.push(definition);
        }
        for _ in 0..self.counts.expressions {
            let expression = self.expression();
            self.module.expressions.push(expression);
        }
    }

    /// A name of about the length asked for.
    fn name(&mut self, stem: &str, number: usize) -> String {
        let length = self.name_length / 2 + self.random.below(self.name_length + 1);
        let mut name = format!("{stem}_{number}");
        while name.len() < length {
            name.push_str("_of_the_balance");
        }
        name.truncate(length.max(stem.len() + 4).min(limits::NAME_BYTES));
        name
    }

    fn span(&mut self) -> (u64, u64) {
        self.position += self.random.below(40) as u64;
        (self.position, self.position + self.random.below(30) as u64)
    }

    fn any_type(&mut self) -> usize {
        self.random.below(self.counts.types)
    }

    fn any_expression(&mut self) -> usize {
        self.random.below(self.counts.expressions)
    }

    fn child(&mut self) -> Child {
        Some(self.any_expression()).filter(|_| !self.random.percent(2))
    }

    fn children(&mut self) -> Vec<Child> {
        let count = self.random.below(self.counts.list + 1);
        (0..count).map(|_| self.child()).collect()
    }

    fn scope(&mut self, number: usize) -> Scope {
        if number == 0 {
            return Scope {
                parent: None,
                kind: ScopeKind::Module,
            };
        }
        let is_function = number == 1 || self.random.percent(30);
        let (parent, kind) = match is_function {
            true => (0, ScopeKind::Function),
            false if self.random.percent(20) => (number - 1, ScopeKind::Loop),
            false => (1 + self.random.below(number - 1), ScopeKind::Block),
        };
        Scope {
            parent: Some(parent),
            kind,
        }
    }

    fn type_expr(&mut self, number: usize) -> TypeExpr {
        let earlier = number.max(1);
        match self.random.below(10) {
            0 => TypeExpr::Bool,
            1 | 2 => TypeExpr::U32,
            3..6 => {
                let number = self.random.below(20);
                TypeExpr::Custom(self.name("Ty", number))
            }
            6 if number > 0 => TypeExpr::Ptr(self.random.below(earlier)),
            7 if number > 0 => {
                let count = self.random.below(self.counts.list + 1);
                TypeExpr::Tuple((0..count).map(|_| self.random.below(earlier)).collect())
            }
            8 if number > 0 => TypeExpr::Array(self.random.below(earlier), 1 << (number % 40)),
            _ => TypeExpr::Felt,
        }
    }

    fn named_types(&mut self) -> Vec<NamedType> {
        let count = self.random.below(self.counts.list + 1);
        (0..count)
            .map(|number| (self.name("fi", number), self.any_type()))
            .collect()
    }

    fn definition(&mut self, number: usize) -> Definition {
        let kind = match self.random.below(20) {
            0..4 => DefinitionKind::Fn {
                returns: self.any_type(),
                parameters: self.named_types(),
            },
            4..6 => DefinitionKind::Struct {
                fields: self.named_types(),
            },
            6 => DefinitionKind::Const {
                ty: Some(self.any_type()),
                value: Some(self.any_expression()),
            },
            7..13 => {
                let destructured = self.random.percent(15).then(|| self.any_expression());
                DefinitionKind::Let {
                    ty: self.random.percent(30).then(|| self.any_type()),
                    value: Some(self.any_expression()),
                    destructured,
                    path: destructured.map_or(vec![], |_| vec![self.random.below(3)]),
                }
            }
            13..17 => DefinitionKind::Param {
                ty: self.any_type(),
            },
            17..19 => DefinitionKind::Use {
                module: self.name("mod", 1),
                item: self.name("it", number),
            },
            _ => DefinitionKind::Loop,
        };
        let is_top_level = matches!(
            kind,
            DefinitionKind::Fn { .. } | DefinitionKind::Struct { .. } | DefinitionKind::Use { .. }
        );
        let scope = match is_top_level {
            true => 0,
            false => self.random.below(self.counts.scopes),
        };
        let shadowed = self.random.below(number + 1);
        let name = match self.module.definitions.get(shadowed) {
            Some(other) if self.random.percent(20) => other.name.clone(),
            _ => self.name("na", number),
        };
        Definition {
            scope,
            name,
            name_span: self.span(),
            full_span: self.span(),
            kind,
        }
    }

    /// A definition's name and number, or a name that is nowhere.
    fn used_name(&mut self) -> (String, Option<usize>) {
        if self.random.percent(10) {
            return (self.name("no", 7), None);
        }
        let number = self.random.below(self.counts.definitions);
        (self.module.definitions[number].name.clone(), Some(number))
    }

    fn expression(&mut self) -> Expr {
        let (node, definition) = self.node();
        let origin = match self.random.below(20) {
            0..13 => Origin::Plain,
            13..15 => Origin::Field {
                parent: self.any_expression(),
                name: self.name("fi", 3),
            },
            15..17 => Origin::Arg {
                callee: self.any_expression(),
                index: self.random.below(4),
            },
            17 => Origin::Assign {
                lhs: self.any_expression(),
            },
            18 => Origin::Return,
            _ => Origin::Cond,
        };
        Expr {
            scope: self.random.below(self.counts.scopes),
            span: self.span(),
            expected: self.random.percent(10).then(|| self.any_type()),
            definition,
            origin,
            node,
        }
    }

    /// A node, and the definition that an identifier's is recorded to mean.
    fn node(&mut self) -> (Node, Option<usize>) {
        let node = match self.random.below(100) {
            0..38 => {
                let (name, definition) = self.used_name();
                return (Node::Ident { name }, definition);
            }
            38..53 => Node::Lit {
                suffix: self.random.percent(20).then(|| "u32".to_string()),
            },
            53..66 => Node::Member {
                object: self.child(),
                field: self.name("fi", 2),
            },
            66..78 => Node::Bin {
                op: BINARY_OPERATORS[self.random.below(16)],
                left: self.child(),
                right: self.child(),
            },
            78..84 => Node::Call {
                callee: self.child(),
                args: self.children(),
            },
            84..88 => Node::StructLit {
                name: self.used_name().0,
                span: self.span(),
            },
            88..91 => Node::Bool,
            other => self.seldom_node(other - 91),
        };
        (node, None)
    }

    fn seldom_node(&mut self, kind: usize) -> Node {
        match kind {
            0 => Node::Un {
                op: UNARY_OPERATORS[self.random.below(2)],
                child: self.child(),
            },
            1 => Node::Index {
                array: self.child(),
                index: self.child(),
            },
            2 => Node::Tuple {
                elements: self.children(),
            },
            3 => Node::TupleIndex {
                tuple: self.child(),
                index: self.random.below(3),
            },
            4 => Node::Array {
                elements: self.children(),
            },
            5 => Node::Repeat {
                element: self.child(),
                size: 1 << self.random.below(40),
            },
            6 => Node::Cast {
                ty: self.any_type(),
            },
            7 => Node::New {
                ty: self.any_type(),
                count: self.child(),
            },
            _ => Node::Paren {
                child: self.child(),
            },
        }
    }
}
