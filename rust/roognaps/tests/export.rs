//! Source and the original's indexes straight to the types.

#![cfg(all(feature = "export", originals))]

use export::sources::semantic_indexes;
use index_file::records::DefinitionKind;
use roognaps::export::{
    AskError, ExportError, Index, ModuleIndex, QuestionRecord, Source, SourceError,
};
use roognaps::{Question, Resolver, STACK_BYTES, Type};

fn source(text: String) -> Source {
    Source {
        module: "main".to_string(),
        path: "main.cm".to_string(),
        text,
    }
}

/// More questions than a file may have are asked in several.
#[test]
fn three_hundred_questions() {
    let function = |n: usize| format!("fn f{n}(x: u32) -> u32 {{ return 1 + x; }}\n");
    let sources = [source((0..60).map(function).collect())];
    let mut resolver = Resolver::new();
    let (index, lines) = resolver.ask_sources(&sources).expect("right source");
    assert_eq!(index.modules.len(), 1);
    assert_eq!(lines.len(), 60 * 5);
    for (number, line) in lines.iter().enumerate() {
        assert_eq!(line.question.number() as usize, number % 180);
        let owed = match line.question {
            // The 1 in the sum, asked alone. The sum itself is u32, as its x is.
            Question::Expression { expression, .. } if expression % 3 == 1 => Type::Felt,
            Question::Definition { definition, .. } if definition < 60 => Type::Function {
                module: 0,
                definition,
            },
            _ => Type::U32,
        };
        assert_eq!(line.ty(), Some(&owed), "{line}");
    }

    let indexes = semantic_indexes(&sources).expect("right source");
    let modules = [ModuleIndex {
        name: "main",
        index: &indexes[0],
    }];
    assert_eq!(resolver.ask_modules(&modules), Ok(lines));
}

#[test]
fn wrong_source_is_an_error() {
    let given = Resolver::new().ask_sources(&[source("fn f( {".to_string())]);
    let error = given.expect_err("no program");
    assert!(matches!(error, AskError::Source(_)));
    assert!(error.to_string().starts_with("main.cm:1:"), "{error}");
}

#[test]
fn a_limit_is_an_error() {
    let function = |n: usize| format!("fn f{n}() {{}}\n");
    let given = Resolver::new().ask_sources(&[source((0..200).map(function).collect())]);
    let error = given.expect_err("201 scopes");
    assert!(error.to_string().contains("128"), "{error}");
}

/// An index is the caller's own: one that its text doesn't mean is an error.
#[test]
fn an_index_that_would_be_read_as_another() {
    let text = "struct S { a: felt }\nconst C = 1;";
    let mut resolver = Resolver::new();
    let (mut index, _) = resolver
        .ask_sources(&[source(text.to_string())])
        .expect("right source");
    let question = QuestionRecord::Def {
        module: 0,
        definition: 0,
    };
    index.questions = vec![question];
    assert_eq!(
        resolver.ask_index(index.clone()).map(|lines| lines.len()),
        Ok(1)
    );

    let asked_with_a_field = |name: &str| {
        let mut index = index.clone();
        rename_field(&mut index, name);
        Resolver::new().ask_index(index)
    };
    assert!(asked_with_a_field("b").is_ok());
    let owed = AskError::Source(SourceError::Export(ExportError::NotAsWritten));
    assert_eq!(asked_with_a_field("a\t0\tb"), Err(owed));
}

fn rename_field(index: &mut Index, name: &str) {
    let kind = &mut index.modules[0].definitions[0].kind;
    let DefinitionKind::Struct { fields } = kind else {
        panic!("{kind:?} is no struct");
    };
    fields[0].0 = name.to_string();
}

/// The parser of the original runs on the large stack too: on this thread's it would end the process.
#[test]
fn deep_source_from_a_small_stack() {
    let small = 256 << 10;
    assert!(small * 8 < STACK_BYTES);
    let deep = format!("const C = {}1{};", "(".repeat(300), ")".repeat(300));
    let thread = std::thread::Builder::new().stack_size(small);
    let asked = thread.spawn(move || Resolver::new().ask_sources(&[source(deep)]));
    let (index, lines) = asked
        .expect("a thread")
        .join()
        .expect("it ends")
        .expect("right source");
    assert_eq!(index.modules[0].expressions.len(), 301);
    assert_eq!(lines.len(), 302);
}
