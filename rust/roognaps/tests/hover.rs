//! The type at a byte of a source.

#![cfg(all(feature = "export", originals))]

use std::path::{Path, PathBuf};

use index_file::load::load;
use roognaps::export::{AskError, Source};
use roognaps::{AnswerLine, Question, Refusal, Resolver, Type, on_large_stack};

fn source(module: &str, text: &str) -> Source {
    Source {
        module: module.to_string(),
        path: format!("{module}.cm"),
        text: text.to_string(),
    }
}

/// The sources of a program of the corpus, `main.cm` first.
fn program(name: &str) -> Vec<Source> {
    let folder = Path::new(env!("CARGO_MANIFEST_DIR")).join("../programs");
    let files = std::fs::read_dir(folder.join(name)).expect("it is there");
    let files = files.map(|file| file.expect("an entry").path());
    let mut files: Vec<PathBuf> = files
        .filter(|file| file.extension().is_some_and(|end| end == "cm"))
        .collect();
    files.sort_by_key(|file| (!file.ends_with("main.cm"), file.clone()));
    let sources = files.iter().map(|file| file.to_str().expect("text"));
    let sources = sources.map(|file| Source::from_argument(file).expect("it is there"));
    sources.collect()
}

/// The answer lines of a module's expressions, by their numbers.
fn of_module(lines: &[AnswerLine], number: usize) -> Vec<&AnswerLine> {
    let lines = lines.iter();
    let lines = lines.filter(|line| {
        matches!(line.question, Question::Expression { module, .. } if module as usize == number)
    });
    lines.collect()
}

/// At each byte of a program stands the expression that covers it and has none in it that does, with the
/// line that `expr` gives, or nothing. Gives how often there is an expression.
fn each_byte(name: &str) -> usize {
    let sources = program(name);
    let mut resolver = Resolver::new();
    let (index, lines) = resolver.ask_sources(&sources).expect("right source");
    let mut found = 0;
    for (number, source) in sources.iter().enumerate() {
        let spans = index.modules[number].expressions.iter();
        let spans: Vec<_> = spans
            .map(|expression| expression.span.0 as usize..expression.span.1 as usize)
            .collect();
        let lines = of_module(&lines, number);
        for byte in 0..=source.text.len() {
            let hover = resolver.type_at_index(&index, &sources, number, byte);
            let Some(hover) = hover.expect("right source") else {
                assert!(spans.iter().all(|span| !span.contains(&byte)), "{byte}");
                continue;
            };
            assert!(hover.span.contains(&byte), "{byte}");
            assert_eq!(hover.span, spans[hover.expression]);
            assert_eq!(hover.text, source.text[hover.span.clone()]);
            let inside = |span: &&std::ops::Range<usize>| {
                span.contains(&byte) && span.len() < hover.span.len()
            };
            assert_eq!(spans.iter().find(inside), None, "{byte}");
            let line = lines[hover.expression];
            assert_eq!(hover.result.as_ref().ok(), line.ty(), "{byte}");
            assert_eq!(hover.result.err(), line.result.clone().err(), "{byte}");
            found += 1;
        }
    }
    found
}

#[test]
fn each_byte_of_some_programs() {
    let found = on_large_stack(|| ["shop", "constants", "pairs"].map(each_byte));
    let found = found.expect("a thread");
    assert!(found.iter().all(|found| *found > 100), "{found:?}");
}

/// Names from other modules, as a person sees them.
#[test]
fn through_other_modules() {
    let sources = program("shop");
    let mut resolver = Resolver::new();
    let mut shown = |text: &str| {
        let place = sources[0].text.find(text).expect(text);
        let hover = resolver.type_at(&sources, 0, place).expect("right source");
        hover.expect("an expression").shown
    };
    assert_eq!(shown("weight(basket, 5)"), "fn basket.weight");
    assert_eq!(shown("(basket, 5)"), "u32");
    assert_eq!(shown("basket, 5"), "struct basket.Basket");
    assert_eq!(shown("missing;"), "error");
    let alone = Resolver::new().type_at(&sources[..1], 0, sources[0].text.find("weight(").unwrap());
    let alone = alone.expect("right source").expect("an expression");
    assert_eq!(
        (alone.text.as_str(), alone.result),
        ("weight", Ok(Type::Error))
    );
}

#[test]
fn a_refused_line() {
    let sources = [source("main", "const a = a;")];
    let hover = Resolver::new().type_at(&sources, 0, 10);
    let hover = hover.expect("right source").expect("an expression");
    assert_eq!((hover.expression, hover.span), (0, 10..11));
    assert_eq!(hover.result, Err(Refusal::Ring));
    assert_eq!(hover.shown, Refusal::Ring.to_string());
}

#[test]
fn where_nothing_stands() {
    let sources = [source("main", "const a = 1;\n"), source("empty", "")];
    let mut resolver = Resolver::new();
    let mut at = |source, position| resolver.type_at(&sources, source, position);
    assert!(at(0, 10).expect("right source").is_some());
    for position in [
        0,
        9,
        11,
        12,
        13,
        14,
        65_536,
        u32::MAX as usize,
        1 << 32,
        usize::MAX,
    ] {
        assert_eq!(at(0, position), Ok(None), "{position}");
        assert_eq!(at(1, position), Ok(None), "{position}");
    }
    for source in [2, 8, 65_535, 65_536, 1 << 32, usize::MAX] {
        assert_eq!(at(source, 10), Ok(None), "{source}");
    }
}

/// Of equally short ones the highest number, wherever they start; a span without bytes covers nothing.
#[test]
fn records_of_ones_own() {
    let file = "index 1\nM main\nS - module\nE 0 2 6 - - plain - - bool\nE 0 4 8 - - plain - - lit -\n\
        E 0 5 5 - - plain - - lit u32\nE 0 0 9 - - plain - - tuple 0\n";
    let index = load(file.replace(' ', "\t").as_bytes()).expect("a file");
    let sources = [source("main", "0123456789")];
    let mut resolver = Resolver::new();
    let mut at = |position| {
        let hover = resolver.type_at_index(&index, &sources, 0, position);
        let hover = hover.expect("an index");
        hover.map(|hover| (hover.expression, hover.text, hover.shown))
    };
    let owed = |expression, text: &str, shown: &str| {
        Some((expression, text.to_string(), shown.to_string()))
    };
    assert_eq!(at(1), owed(3, "012345678", "(bool)"));
    assert_eq!(at(2), owed(0, "2345", "bool"));
    assert_eq!(at(4), owed(1, "4567", "felt"));
    assert_eq!(at(5), owed(1, "4567", "felt"));
    assert_eq!(at(8), owed(3, "012345678", "(bool)"));
    assert_eq!(at(9), None);
    // Another source than the records are of has another text, or none.
    let other = [source("main", "0123")];
    let hover = resolver.type_at_index(&index, &other, 0, 2);
    assert_eq!(hover.expect("an index").expect("there").text, "");
}

/// The records' own questions aren't asked, however many.
#[test]
fn many_questions_of_the_index() {
    let function = |n: usize| format!("fn f{n}(x: u32) -> u32 {{ return 1 + x; }}\n");
    let text: String = (0..60).map(function).collect();
    let place = text.rfind("x;").expect("it is there");
    let hover = Resolver::new().type_at(&[source("main", &text)], 0, place);
    let hover = hover.expect("right source").expect("an expression");
    assert_eq!((hover.text.as_str(), hover.result), ("x", Ok(Type::U32)));
}

#[test]
fn errors() {
    let mut resolver = Resolver::new();
    let wrong = resolver.type_at(&[source("main", "fn f( {")], 0, 0);
    let error = wrong.expect_err("no program");
    assert!(matches!(error, AskError::Source(_)));
    assert!(error.to_string().starts_with("main.cm:1:"), "{error}");

    // Also where no expression is asked for.
    let many: String = (0..200).map(|n| format!("fn f{n}() {{}}\n")).collect();
    for (number, position) in [(0, 0), (1, 0), (0, usize::MAX)] {
        let given = resolver.type_at(&[source("main", &many)], number, position);
        let error = given.expect_err("201 scopes");
        assert!(error.to_string().contains("128"), "{error}");
    }
    let twice = [source("main", ""), source("main", "")];
    assert!(resolver.type_at(&twice, 0, 0).is_err());
}
