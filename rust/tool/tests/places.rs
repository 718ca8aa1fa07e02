//! The places of scopes and of names in types, which the exporter takes from the parse tree: those of the
//! records, and none else.

#![cfg(originals)]

mod common;

use export::places::{Places, ScopePlace, Span};
use export::sources::{Source, export_with_places};
use index_file::records::{DefinitionKind, Module, ScopeKind, TypeExpr};
use oracle::with_large_stack;
use typetool::corpus::programs;
use typetool::generate::{Random, program_indexes};

fn lies_within(inner: Span, outer: Span) -> bool {
    outer.0 <= inner.0 && inner.0 <= inner.1 && inner.1 <= outer.1
}

/// How much a run has looked at.
#[derive(Debug, Default)]
struct Seen {
    /// By kind, in the order of `ScopeKind`.
    scopes: [usize; 4],
    definitions: usize,
    expressions: usize,
    type_names: usize,
    /// Definitions whose type is a name alone.
    typed: usize,
}

fn check(sources: &[Source], seen: &mut Seen) {
    let (index, places) = export_with_places(sources).expect("it exports");
    assert_eq!(
        (index.modules.len(), places.len()),
        (sources.len(), sources.len())
    );
    for ((source, module), places) in sources.iter().zip(&index.modules).zip(&places) {
        check_scopes(source, module, places, seen);
        check_records(source, module, places, seen);
        check_type_names(source, module, places, sources.len() == 1);
        seen.type_names += places.type_names.len();
        check_type_scopes(source, module, places, seen);
    }
}

/// One place for each S record, of its kind, within that of the parent.
fn check_scopes(source: &Source, module: &Module, places: &Places, seen: &mut Seen) {
    let text = &source.text;
    assert!(places.are_of(module), "{text}");
    assert_eq!(places.scopes.len(), module.scopes.len(), "{text}");
    assert_eq!(places.scopes[0].span, (0, text.len() as u64), "{text}");
    for ScopePlace { scope, span } in &places.scopes {
        let parent = scope.parent.map(|parent| places.scopes[parent].span);
        let within = lies_within(*span, parent.unwrap_or((0, text.len() as u64)));
        assert!(within, "{span:?} in {parent:?}: {text}");
        let part = &text[span.0 as usize..span.1 as usize];
        let begins = |words: &[&str]| words.iter().any(|word| part.starts_with(word));
        let fits = match scope.kind {
            ScopeKind::Module => scope.parent.is_none(),
            ScopeKind::Function => begins(&["fn "]) && part.ends_with('}'),
            // The branch of an `if` may be the next `if`.
            ScopeKind::Block => begins(&["{", "if "]) && part.ends_with('}'),
            ScopeKind::Loop => begins(&["loop ", "while ", "for "]) && part.ends_with('}'),
        };
        assert!(fits, "{scope:?}: {part}");
        seen.scopes[scope.kind as usize] += 1;
    }
}

/// Definitions and expressions stand within their scopes.
fn check_records(source: &Source, module: &Module, places: &Places, seen: &mut Seen) {
    let definitions = module.definitions.iter();
    let definitions = definitions.flat_map(|d| [(d.scope, d.name_span), (d.scope, d.full_span)]);
    let expressions = module.expressions.iter().map(|e| (e.scope, e.span));
    for (scope, span) in definitions.chain(expressions) {
        let outer = places.scopes[scope].span;
        assert!(
            lies_within(span, outer),
            "{span:?} in {outer:?}: {}",
            source.text
        );
    }
    seen.definitions += module.definitions.len();
    seen.expressions += module.expressions.len();
}

/// The text has each name at its place, within the scope that it is looked up from, and the names are
/// those of the T records. These also have the types of fields of other modules' structs.
fn check_type_names(source: &Source, module: &Module, places: &Places, alone: bool) {
    let text = &source.text;
    for type_name in &places.type_names {
        let (start, end) = type_name.span;
        assert_eq!(text[start as usize..end as usize], type_name.name, "{text}");
        let scopes = [Some(type_name.scope), type_name.in_signature];
        for scope in scopes.into_iter().flatten() {
            let outer = places.scopes[scope].span;
            assert!(lies_within(type_name.span, outer), "{text}");
        }
    }
    let records = module.types.iter().filter_map(|ty| match ty {
        TypeExpr::Custom(name) => Some(name.as_str()),
        _ => None,
    });
    let mut records: Vec<&str> = records.collect();
    for type_name in &places.type_names {
        let at = records.iter().position(|name| *name == type_name.name);
        records.swap_remove(at.expect("a T record for each name"));
    }
    assert!(!alone || records.is_empty(), "{records:?}: {text}");
}

/// The type of a parameter, a let or a constant, where it is a name alone.
fn named_type<'m>(module: &'m Module, kind: &DefinitionKind) -> Option<&'m str> {
    let ty = match kind {
        DefinitionKind::Param { ty } => Some(*ty),
        DefinitionKind::Const { ty, .. } => *ty,
        DefinitionKind::Let {
            ty,
            destructured: None,
            ..
        } => *ty,
        _ => None,
    };
    match module.types.get(ty?)? {
        TypeExpr::Custom(name) => Some(name),
        _ => None,
    }
}

/// The name behind a definition's is that of its type, looked up from the definition's scope.
fn check_type_scopes(source: &Source, module: &Module, places: &Places, seen: &mut Seen) {
    for definition in &module.definitions {
        let Some(name) = named_type(module, &definition.kind) else {
            continue;
        };
        let names = places.type_names.iter();
        let behind = names.filter(|name| name.span.0 >= definition.name_span.1);
        let next = behind.min_by_key(|name| name.span);
        let next = next.map(|next| (next.name.as_str(), next.scope));
        assert_eq!(next, Some((name, definition.scope)), "{}", source.text);
        seen.typed += 1;
    }
}

#[test]
fn of_the_corpus() {
    let mut seen = Seen::default();
    with_large_stack(|| {
        for program in programs(&common::in_workspace("programs")).expect("the corpus") {
            check(&program.texts().expect("readable"), &mut seen);
        }
    });
    assert!(seen.scopes.iter().all(|count| *count >= 5), "{seen:?}");
    assert!(seen.type_names >= 20 && seen.typed >= 10, "{seen:?}");
}

#[test]
fn of_generated_programs() {
    let mut seen = Seen::default();
    with_large_stack(|| {
        for seed in 0..150 {
            let sources = program_indexes::sources(&mut Random::new(seed));
            check(&sources, &mut seen);
        }
    });
    assert!(seen.scopes.iter().all(|count| *count >= 100), "{seen:?}");
    assert!(seen.definitions.min(seen.expressions) >= 1000, "{seen:?}");
    assert!(seen.type_names >= 100 && seen.typed >= 50, "{seen:?}");
}

fn source(text: &str) -> Source {
    Source {
        module: "main".to_string(),
        path: "main.cm".to_string(),
        text: text.to_string(),
    }
}

const EVERY_SCOPE: &str = "struct P { p: P* }
const C: P = 0;
fn f(p: [P; 2], q: (P, felt)) -> P {
    if (true) { 1; } else if (false) { 2; } else { { 3; } }
    loop { let a: P = 4 as P; }
    while (true) { const B: P = 5; }
    for (let i = 0; i < 3; i = i + 1) { new P[6]; }
    return p;
}
fn g() { }";

/// Each scope with its parent, its kind and what its place begins with.
#[test]
fn of_every_scope() {
    let sources = [source(EVERY_SCOPE)];
    let (_, places) = with_large_stack(|| export_with_places(&sources)).expect("it exports");
    let shown = places[0].scopes.iter().map(|place| {
        let (start, end) = (place.span.0 as usize, place.span.1 as usize);
        let text = EVERY_SCOPE[start..end].split(';').next();
        (
            place.scope.parent,
            place.scope.kind,
            text.unwrap_or_default(),
        )
    });
    use ScopeKind::{Block, Function, Loop, Module};
    let owed = [
        (None, Module, "struct P { p: P* }\nconst C: P = 0"),
        (Some(0), Function, "fn f(p: [P"),
        (Some(1), Block, "{ 1"),
        (Some(2), Block, "{ 1"),
        (Some(1), Block, "if (false) { 2"),
        (Some(4), Block, "{ 2"),
        (Some(5), Block, "{ 2"),
        (Some(4), Block, "{ { 3"),
        (Some(7), Block, "{ { 3"),
        (Some(8), Block, "{ 3"),
        (Some(1), Loop, "loop { let a: P = 4 as P"),
        (Some(10), Block, "{ let a: P = 4 as P"),
        (Some(1), Loop, "while (true) { const B: P = 5"),
        (Some(12), Block, "{ const B: P = 5"),
        (Some(1), Loop, "for (let i = 0"),
        (Some(14), Block, "{ new P[6]"),
        (Some(0), Function, "fn g() { }"),
    ];
    assert_eq!(shown.collect::<Vec<_>>(), owed);
}

/// Each name in a type with the scopes that it is looked up from.
#[test]
fn of_every_type() {
    let sources = [source(EVERY_SCOPE)];
    let (_, places) = with_large_stack(|| export_with_places(&sources)).expect("it exports");
    let shown = places[0].type_names.iter().map(|name| {
        let start = name.span.0 as usize;
        (
            &EVERY_SCOPE[start - 3..start + 1],
            name.scope,
            name.in_signature,
        )
    });
    let owed = [
        ("p: P", 0, None),
        ("C: P", 0, None),
        ("-> P", 0, None),
        (": [P", 1, Some(0)),
        (": (P", 1, Some(0)),
        ("a: P", 11, None),
        ("as P", 11, None),
        ("B: P", 13, None),
        ("ew P", 15, None),
    ];
    assert_eq!(shown.collect::<Vec<_>>(), owed);
}
