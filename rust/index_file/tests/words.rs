//! The record words: read back they give the index that they were written from.

use index_file::load::load;
use index_file::records::*;
use index_file::vectors::read;
use index_file::words::{WORDS, item_count, with_plain_empty_lists, words};

/// What words hold, by docs/LAYOUT.md.
struct Words<'a> {
    file: &'a [u8],
    words: &'a [u32],
}

fn link(word: u32) -> Option<usize> {
    word.checked_sub(1).map(|number| number as usize)
}

impl Words<'_> {
    fn name(&self, word: u32) -> String {
        let (start, length) = (word as usize % 65_536, word as usize / 65_536);
        String::from_utf8(self.file[start..start + length].to_vec()).unwrap()
    }

    fn items(&self, word: u32) -> Vec<(u32, u32)> {
        let (first, count) = (word as usize % 65_536, word as usize / 65_536);
        let rows = (first..first + count).map(|row| 12_288 + 2 * row);
        rows.map(|at| (self.words[at], self.words[at + 1]))
            .collect()
    }

    fn numbers(&self, word: u32) -> Vec<usize> {
        let items = self.items(word).into_iter();
        items.map(|(value, _)| value as usize).collect()
    }

    fn children(&self, word: u32) -> Vec<Child> {
        let items = self.items(word).into_iter();
        items.map(|(value, _)| link(value)).collect()
    }

    fn named_types(&self, word: u32) -> Vec<NamedType> {
        let items = self.items(word).into_iter();
        items
            .map(|(ty, name)| (self.name(name), ty as usize))
            .collect()
    }

    fn index(&self) -> Index {
        let modules = 0..self.words[0] as usize;
        let questions = 0..self.words[1] as usize;
        Index {
            version: self.words[3],
            modules: modules.map(|m| self.module(16 + 8 * m)).collect(),
            questions: questions.map(|q| self.question(11_264 + 4 * q)).collect(),
        }
    }

    fn module(&self, at: usize) -> Module {
        let rows = |kind: usize| self.words[at + kind] as usize..self.words[at + 8 + kind] as usize;
        Module {
            name: self.name(self.words[at]),
            scopes: rows(1).map(|row| self.scope(256 + 2 * row)).collect(),
            types: rows(2).map(|row| self.type_expr(512 + 4 * row)).collect(),
            definitions: rows(3)
                .map(|row| self.definition(2_560 + 12 * row))
                .collect(),
            expressions: rows(4)
                .map(|row| self.expression(5_632 + 11 * row))
                .collect(),
        }
    }

    fn scope(&self, at: usize) -> Scope {
        let kinds = [
            ScopeKind::Module,
            ScopeKind::Function,
            ScopeKind::Block,
            ScopeKind::Loop,
        ];
        Scope {
            parent: link(self.words[at]),
            kind: kinds[self.words[at + 1] as usize],
        }
    }

    fn type_expr(&self, at: usize) -> TypeExpr {
        let [kind, a, b, c] = self.words[at..at + 4].try_into().unwrap();
        match kind {
            0 => TypeExpr::Felt,
            1 => TypeExpr::Bool,
            2 => TypeExpr::U32,
            3 => TypeExpr::Custom(self.name(a)),
            4 => TypeExpr::Ptr(a as usize),
            5 => TypeExpr::Tuple(self.numbers(c)),
            _ => TypeExpr::Array(a as usize, u64::from(b) + (u64::from(c) << 32)),
        }
    }

    fn definition(&self, at: usize) -> Definition {
        let row = &self.words[at..at + 12];
        let [a, b, c, list] = row[7..11].try_into().unwrap();
        assert_eq!(row[11], 0);
        Definition {
            scope: row[1] as usize,
            name: self.name(row[2]),
            name_span: (row[3].into(), row[4].into()),
            full_span: (row[5].into(), row[6].into()),
            kind: match row[0] {
                0 => DefinitionKind::Fn {
                    returns: a as usize,
                    parameters: self.named_types(list),
                },
                1 => DefinitionKind::Struct {
                    fields: self.named_types(list),
                },
                2 => DefinitionKind::Const {
                    ty: link(a),
                    value: link(b),
                },
                3 => DefinitionKind::Let {
                    ty: link(a),
                    value: link(b),
                    destructured: link(c),
                    path: self.numbers(list),
                },
                4 => DefinitionKind::Param { ty: a as usize },
                5 => DefinitionKind::Use {
                    module: self.name(a),
                    item: self.name(b),
                },
                _ => DefinitionKind::Loop,
            },
        }
    }

    fn expression(&self, at: usize) -> Expr {
        let row = &self.words[at..at + 11];
        let (origin_link, value) = (row[6] as usize, row[7]);
        Expr {
            scope: row[1] as usize,
            span: (row[2].into(), row[3].into()),
            expected: link(row[4]),
            definition: link(row[5]),
            origin: match row[0] / 256 {
                0 => Origin::Plain,
                1 => Origin::Field {
                    parent: origin_link,
                    name: self.name(value),
                },
                2 => Origin::Arg {
                    callee: origin_link,
                    index: value as usize,
                },
                3 => Origin::Assign { lhs: origin_link },
                4 => Origin::Return,
                _ => Origin::Cond,
            },
            node: self.node(row[0] % 256, row[8..11].try_into().unwrap()),
        }
    }

    fn node(&self, node: u32, [a, b, c]: [u32; 3]) -> Node {
        match node {
            0 => Node::Lit {
                suffix: (a != 0).then(|| self.name(a)),
            },
            1 => Node::Bool,
            2 => Node::Ident { name: self.name(a) },
            3 => Node::Un {
                op: UNARY_OPERATORS[a as usize],
                child: link(b),
            },
            4 => Node::Bin {
                op: BINARY_OPERATORS[a as usize],
                left: link(b),
                right: link(c),
            },
            5 => Node::Call {
                callee: link(a),
                args: self.children(c),
            },
            6 => Node::Member {
                object: link(a),
                field: self.name(b),
            },
            7 => Node::Index {
                array: link(a),
                index: link(b),
            },
            8 => Node::StructLit {
                name: self.name(a),
                span: (b.into(), c.into()),
            },
            9 => Node::Tuple {
                elements: self.children(c),
            },
            10 => Node::TupleIndex {
                tuple: link(a),
                index: b as usize,
            },
            11 => Node::Array {
                elements: self.children(c),
            },
            12 => Node::Repeat {
                element: link(a),
                size: u64::from(b) + (u64::from(c) << 32),
            },
            13 => Node::Cast { ty: a as usize },
            14 => Node::New {
                ty: a as usize,
                count: link(b),
            },
            _ => Node::Paren { child: link(a) },
        }
    }

    fn question(&self, at: usize) -> Question {
        let [kind, module, a, b] = self.words[at..at + 4].try_into().unwrap();
        let module = module as usize;
        match kind {
            0 => Question::Expr {
                module,
                expression: a as usize,
                context: link(b),
            },
            1 => Question::Def {
                module,
                definition: a as usize,
            },
            2 => Question::Type {
                module,
                ty: a as usize,
                scope: b as usize,
            },
            _ => Question::At {
                module,
                position: a.into(),
            },
        }
    }
}

/// All accepted vectors, the files at the limits among them.
#[test]
fn words_of_the_vectors_hold_their_index() {
    let mut accepted = 0;
    for number in 1..=2 {
        let folder = concat!(env!("CARGO_MANIFEST_DIR"), "/../vectors");
        let bytes = std::fs::read(format!("{folder}/accepted-{number}.txt")).unwrap();
        for vector in read(&bytes).unwrap() {
            let file = &vector.index;
            let index = load(file).unwrap();
            let words = words(file, &index);
            assert_eq!(words.len(), WORDS, "{}", vector.name);
            assert_eq!(words[2] as usize, item_count(&index), "{}", vector.name);
            for words in [&words, &with_plain_empty_lists(&words)] {
                assert_eq!(Words { file, words }.index(), index, "{}", vector.name);
            }
            accepted += 1;
        }
    }
    assert!(accepted > 300);
}

/// The rows of the four kinds of question, by hand.
#[test]
fn words_of_questions() {
    let file = "index 1\nQ expr 1 2 3\nQ expr 1 2 -\nQ def 4 5\nQ type 6 7 8\n\
        Q at 9 4294967295\nQ at 65535 0\n";
    let file = file.replace(' ', "\t").into_bytes();
    let index = load(&file).unwrap();
    let words = words(&file, &index);
    let rows = [
        [0, 1, 2, 4],
        [0, 1, 2, 0],
        [1, 4, 5, 0],
        [2, 6, 7, 8],
        [3, 9, u32::MAX, 0],
        [3, 65_535, 0, 0],
    ];
    assert_eq!(words[11_264..11_264 + 24], rows.concat());
    let file = &file;
    let words = &words;
    assert_eq!(Words { file, words }.index(), index);
    assert_eq!(index.to_text().as_bytes(), &file[..]);
}

/// Some words of the whole case of document 01, by hand.
#[test]
fn words_of_the_whole_case() {
    let file = "index 1\nM main\nS - module\nS 0 function\nT u32\nD 0 f 3 4 0 30 fn 0 x 0\n\
        D 1 x 5 6 5 11 param 0\nE 1 24 25 - 1 plain - - ident x\nE 1 20 21 - - plain - - lit -\n\
        E 1 20 25 - - plain - - bin + 1 0\nQ expr 0 2 -\nQ expr 0 1 -\n";
    let file = file.replace(' ', "\t").into_bytes();
    let words = words(&file, &load(&file).unwrap());
    let name = |start: u32, length: u32| start + 65_536 * length;
    let rows: [(usize, &[u32]); 11] = [
        (0, &[1, 2, 1, 1]),
        (16, &[name(10, 4), 0, 0, 0, 0, 0, 0, 0]),
        (24, &[0, 2, 1, 2, 3, 0, 0, 0]),
        (256, &[0, 0, 1, 1]),
        (512, &[2, 0, 0, 0]),
        (2_560, &[0, 0, name(49, 1), 3, 4, 0, 30, 0, 0, 0, 65_536, 0]),
        (2_572, &[4, 1, name(73, 1), 5, 6, 5, 11, 0, 0, 0, 0, 0]),
        (5_632, &[2, 1, 24, 25, 0, 2, 0, 0, name(122, 1), 0, 0]),
        (5_643, &[0, 1, 20, 21, 0, 0, 0, 0, 0, 0, 0]),
        (5_654, &[4, 1, 20, 25, 0, 0, 0, 0, 0, 2, 1]),
        (11_264, &[0, 0, 2, 0, 0, 0, 1, 0]),
    ];
    for (at, row) in rows {
        assert_eq!(&words[at..at + row.len()], row, "words from {at}");
    }
    assert_eq!(words[12_288..12_292], [0, name(65, 1), 0, 0]);
    let other = words.iter().filter(|word| **word != 0).count();
    let named = rows.iter().flat_map(|(_, row)| *row);
    assert_eq!(other, named.filter(|word| **word != 0).count() + 1);
}
