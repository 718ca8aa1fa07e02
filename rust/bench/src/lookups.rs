//! Lookups on a loaded index: the proved functions over its words, and the original's hash maps. The
//! proved ones are those of the crate `lookup_bench`; the library for users takes no record words.

use std::collections::hash_map::RandomState;
use std::hash::BuildHasherDefault;
use std::hint::black_box;

use index_file::load::load;
use index_file::records::Node;

use crate::hash_maps::{FxHasher, Tables};
use crate::lookup_library::{self, Loaded, Name};
use crate::timing::{Contender, medians};
use roognaps::raw::RECORD_WORDS;

/// What is asked: a name in a scope at a span, or an expression.
struct Question<'f> {
    m: usize,
    e: usize,
    s: usize,
    span: (u64, u64),
    place: Name,
    name: &'f str,
}

type FxMaps<'i> = Tables<'i, BuildHasherDefault<FxHasher>>;
type StdMaps<'i> = Tables<'i, RandomState>;

/// One lookup, by each side.
struct Lookup<'a> {
    name: &'static str,
    proved: &'a dyn Fn(&Question) -> Option<usize>,
    fx: &'a dyn Fn(&Question) -> Option<usize>,
    std: &'a dyn Fn(&Question) -> Option<usize>,
}

pub fn table(file: &[u8], rounds: usize) {
    let index = load(file).expect("a right file");
    let mut words = vec![0; RECORD_WORDS];
    assert_eq!(lookup_library::load(file, &mut words), 0, "accepted");
    let loaded = Loaded {
        file,
        words: &words,
    };
    let (fx, std) = (FxMaps::new(&index), StdMaps::new(&index));
    let names = names(file);
    let mut asked = Vec::new();
    let mut at = names.expressions.iter();
    for (m, module) in index.modules.iter().enumerate() {
        for (e, expression) in module.expressions.iter().enumerate() {
            let &(place, name) = at.next().expect("a line for each expression");
            let is_named = matches!(expression.node, Node::Ident { .. } | Node::StructLit { .. });
            if is_named {
                asked.push(Question {
                    m,
                    e,
                    s: expression.scope,
                    span: expression.span,
                    place,
                    name,
                });
            }
        }
    }
    let modules: Vec<Question> = names
        .modules
        .iter()
        .map(|&(place, name)| Question {
            m: 0,
            e: 0,
            s: 0,
            span: (0, 0),
            place,
            name,
        })
        .collect();
    println!("| lookup | questions | found | proved | FxHashMap | HashMap | FxHashMap / proved |");
    println!("|---|---|---|---|---|---|---|");
    row(
        &asked,
        rounds,
        Lookup {
            name: "latest_definition_index_by_name_in_chain",
            proved: &|q| {
                loaded.latest_definition_index_by_name_in_chain(q.m as u32, q.s as u32, q.place)
            },
            fx: &|q| fx.latest_definition_index_by_name_in_chain(q.m, q.s, q.name),
            std: &|q| std.latest_definition_index_by_name_in_chain(q.m, q.s, q.name),
        },
    );
    row(
        &asked,
        rounds,
        Lookup {
            name: "resolve_name_at_position",
            proved: &|q| {
                let span = (q.span.0 as u32, q.span.1 as u32);
                loaded.resolve_name_at_position(q.m as u32, q.place, q.s as u32, span)
            },
            fx: &|q| fx.resolve_name_at_position(q.m, q.name, q.s, q.span),
            std: &|q| std.resolve_name_at_position(q.m, q.name, q.s, q.span),
        },
    );
    row(
        &asked,
        rounds,
        Lookup {
            name: "definition_for_identifier_expr",
            proved: &|q| loaded.definition_for_identifier_expr(q.m as u32, q.e as u32),
            fx: &|q| fx.definition_for_identifier_expr(q.m, q.e),
            std: &|q| std.definition_for_identifier_expr(q.m, q.e),
        },
    );
    row(
        &asked,
        rounds,
        Lookup {
            name: "first_function_around (no map)",
            proved: &|q| loaded.first_function_around(q.m as u32, q.s as u32),
            fx: &|q| fx.first_function_around(q.m, q.s),
            std: &|q| std.first_function_around(q.m, q.s),
        },
    );
    row(
        &modules,
        rounds,
        Lookup {
            name: "module_by_name (std's map in the original)",
            proved: &|q| loaded.module_by_name(q.place),
            fx: &|q| fx.module_by_name(q.name),
            std: &|q| std.module_by_name(q.name),
        },
    );
}

/// Asks all questions of each side; the answers must be the same.
fn row(questions: &[Question], rounds: usize, lookup: Lookup) {
    let mut found = 0;
    for question in questions {
        let answer = (lookup.proved)(question);
        assert_eq!(answer, (lookup.fx)(question), "{}", lookup.name);
        assert_eq!(answer, (lookup.std)(question), "{}", lookup.name);
        found += answer.is_some() as usize;
    }
    let all = |ask: &'static str| -> &dyn Fn(&Question) -> Option<usize> {
        match ask {
            "proved" => lookup.proved,
            "fx" => lookup.fx,
            _ => lookup.std,
        }
    };
    let contender = |ask: &'static str| -> Contender {
        let ask = all(ask);
        Box::new(move || {
            for question in questions {
                black_box(ask(black_box(question)));
            }
        })
    };
    let times = medians(
        rounds,
        [contender("proved"), contender("fx"), contender("std")],
    );
    let [proved, fx, std] = times.map(|time| time / questions.len() as f64);
    println!(
        "| {} | {} | {found} | {proved:.1} ns | {fx:.1} ns | {std:.1} ns | {:.2} |",
        lookup.name,
        questions.len(),
        fx / proved,
    );
}

/// Names with their places in the file.
struct Names<'f> {
    modules: Vec<(Name, &'f str)>,
    /// The eleventh field of each E line, which is the name of an identifier or a struct literal.
    expressions: Vec<(Name, &'f str)>,
}

fn names(file: &[u8]) -> Names<'_> {
    let mut names = Names {
        modules: Vec::new(),
        expressions: Vec::new(),
    };
    let mut start = 0;
    for line in file.split_inclusive(|byte| *byte == b'\n') {
        let text = std::str::from_utf8(line).expect("ASCII").trim_end();
        let field = |number: usize| {
            let value = text.split('\t').nth(number).unwrap_or("");
            let before: usize = text.split('\t').take(number).map(|f| f.len() + 1).sum();
            let place = Name {
                start: (start + before) as u32,
                length: value.len() as u32,
            };
            (place, value)
        };
        match line[0] {
            b'M' => names.modules.push(field(1)),
            b'E' => names.expressions.push(field(10)),
            _ => {}
        }
        start += line.len();
    }
    names
}
