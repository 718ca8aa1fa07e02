//! The exporter as a compiler calls it, and its errors.

#![cfg(originals)]

use export::sources::{Source, SourceError, export_sources, semantic_indexes};
use export::{ExportError, ModuleIndex, NameFault, all_questions, index_text, records};
use index_file::limits::PassedLimit;
use index_file::load::load;
use index_file::records::{
    Definition, DefinitionKind, Index, Module, Question, Scope, ScopeKind, TypeExpr,
};
use oracle::{Options, Oracle, with_large_stack};

fn source(module: &str, text: &str) -> Source {
    Source {
        module: module.to_string(),
        path: format!("{module}.cm"),
        text: text.to_string(),
    }
}

fn exported(text: &str) -> Result<String, String> {
    with_large_stack(|| {
        let (index, _) = export_sources(&[source("main", text)]).map_err(|e| e.to_string())?;
        let text = export::text(&index).map_err(|e| e.to_string())?;
        Ok(text.replace('\t', " "))
    })
}

const TWO_MODULES: [(&str, &str); 2] = [
    (
        "main",
        "use other::{P, g};\nfn f(p: P) -> u32 { let (a, b) = (p.x, 1 + p.x); return g(a, b); }",
    ),
    (
        "other",
        "struct P { x: u32 }\nfn g(a: u32, b: u32) -> u32 { if (a == b) { return 1; } return a; }",
    ),
];

/// A compiler has the indexes; asked directly and through the file, the answers are the same.
#[test]
fn round_trip_of_a_compilers_own_indexes() {
    with_large_stack(|| {
        let sources = TWO_MODULES.map(|(module, text)| source(module, text));
        let indexes = semantic_indexes(&sources).expect("it compiles");
        let modules: Vec<ModuleIndex> = TWO_MODULES
            .iter()
            .zip(&indexes)
            .map(|((name, _), index)| ModuleIndex { name, index })
            .collect();
        let index = records(&modules).expect("it exports");
        let questions = all_questions(&index);
        assert!(questions.len() > 20);

        let text = index_text(&modules, questions.clone()).expect("within the limits");
        let loaded = load(text.as_bytes()).expect("it loads");
        assert_eq!(loaded.questions, questions);
        let through_file = Oracle::new(&loaded, Options::default()).answers();
        let directly = Oracle::of_originals(&loaded, indexes, Options::default()).answers();
        assert_eq!(through_file, directly);
    });
}

#[test]
fn export_of_a_function() {
    let text = exported("fn f(x: u32) -> u32 { return 1 + x; }").unwrap();
    assert_eq!(
        text,
        "index 1\nM main\nS - module\nS 0 function\nT u32\nT u32\nD 0 f 3 4 0 37 fn 1 x 0\n\
         D 1 x 5 6 5 6 param 0\nE 1 29 34 - - return - - bin + 1 2\n\
         E 1 29 30 - - plain - - lit -\nE 1 33 34 - 1 plain - - ident x\nQ expr 0 0 -\n\
         Q expr 0 1 -\nQ expr 0 2 -\nQ def 0 0\nQ def 0 1\n"
    );
}

const EVERY_FORM: &str = "use other::thing;\n\
    struct P { x: felt, y: (u32, bool)* }\n\
    const C: [u32; 2] = [1, 2];\n\
    fn f(p: P) {\n\
        let (a, (b, c)) = (1u32, (true, -C[0]));\n\
        let q = P { x: (3), y: new felt[4] };\n\
        q.x = p.x as felt;\n\
        if (!b) { assert(a == a); } else { loop { break; } }\n\
        for (let i = 0; i < 3; i = i + 1) { continue; }\n\
        while (q.y[0].1) { f(p); }\n\
        let r = [(a,); 3];\n\
        return;\n\
    }\n";

#[test]
fn export_of_every_form() {
    let text = exported(EVERY_FORM).unwrap();
    let forms = "use other thing|struct x |const |let - 3 3 1 0\n|param|fn |field |arg |assign \
        |cond - - |lit u32|ident C|un -|un !|bin ==|call |member |index |slit P|tuple |tidx |arr \
        |rep |cast |new |paren |S 1 block|S 1 loop|array |ptr |custom P";
    for form in forms.split('|') {
        assert!(text.contains(form), "{form:?} is missing in\n{text}");
    }
}

#[test]
fn messages_say_where() {
    assert_eq!(
        exported("fn f() {\n    let = 1;\n}"),
        Err("main.cm:2:9: unexpected Eq".to_string())
    );
    assert_eq!(
        exported("const A = 1;\n#"),
        Err("main.cm:2:1: unknown character '#'".to_string())
    );
}

/// The modules stand in a hash map; the messages don't follow its order.
#[test]
fn messages_come_in_the_order_of_the_sources() {
    let names = ["d", "b", "a", "c"];
    let sources = names.map(|name| source(name, "const = 1;"));
    let error = with_large_stack(|| semantic_indexes(&sources)).unwrap_err();
    let text = error.to_string();
    let files: Vec<&str> = text.lines().map(|line| &line[..1]).collect();
    assert_eq!(files, names);
}

#[test]
fn names_out_of_form() {
    let long = format!("const {} = 1;", "n".repeat(70));
    assert_eq!(
        exported(&long),
        Err(format!(
            "module main: the name {:?} can't be written: 70 bytes, 6 more than the 64 of a name",
            "n".repeat(70)
        ))
    );
    for (name, fault) in [
        ("", NameFault::Empty),
        ("-", NameFault::Dash),
        ("a b", NameFault::Byte { byte: b' ' }),
    ] {
        let sources = [source(name, "const A = 1;")];
        let error = with_large_stack(|| export_sources(&sources).map(|_| ())).unwrap_err();
        let expected = ExportError::Name {
            module: None,
            text: name.to_string(),
            fault,
        };
        assert_eq!(error, SourceError::Export(expected));
    }
}

#[test]
fn two_modules_of_one_name() {
    let sources = [source("m", ""), source("m", "")];
    let error = with_large_stack(|| export_sources(&sources).map(|_| ())).unwrap_err();
    let name = "m".to_string();
    assert_eq!(error, SourceError::Export(ExportError::SameModule { name }));
}

#[test]
fn passed_limits_are_all_named() {
    let many = format!("fn f() {{ {} }}", "f(1); ".repeat(200));
    assert_eq!(
        exported(&many),
        Err("600 expressions: 88 more than the 512 of an index file\n\
             601 questions: 345 more than the 256 of an index file"
            .to_string())
    );
}

/// Questions are the caller's; one that leads nowhere is refused, as loading would.
#[test]
fn a_question_that_no_file_may_ask() {
    let sources = [source("main", "fn f() -> u32 { return 1; }")];
    with_large_stack(|| {
        let indexes = semantic_indexes(&sources).expect("it compiles");
        let modules = [ModuleIndex {
            name: "main",
            index: &indexes[0],
        }];
        let question = Question::Type {
            module: 0,
            ty: 9,
            scope: 0,
        };
        let error = index_text(&modules, vec![question]).unwrap_err();
        assert!(matches!(error, ExportError::Refused(r) if r.number == 5));
    });
}

/// An index that somebody made by hand, with a struct that has one field.
fn made_by_hand(field: &str) -> Index {
    let structure = Definition {
        scope: 0,
        name: "s".to_string(),
        name_span: (0, 1),
        full_span: (0, 9),
        kind: DefinitionKind::Struct {
            fields: vec![(field.to_string(), 0)],
        },
    };
    let module = Module {
        name: "m".to_string(),
        scopes: vec![Scope {
            parent: None,
            kind: ScopeKind::Module,
        }],
        types: vec![TypeExpr::Felt],
        definitions: vec![structure],
        expressions: Vec::new(),
    };
    Index {
        modules: vec![module],
        ..Index::default()
    }
}

/// One field whose name has tabs is written as two, and loading would accept them.
#[test]
fn an_index_that_would_be_read_as_another() {
    assert!(export::text(&made_by_hand("a")).is_ok());
    for field in ["a\t0\tb", "a\t0\nQ\tdef\t0\t0\nQ\tdef\t0"] {
        let index = made_by_hand(field);
        assert!(load(index.to_text().as_bytes()).is_ok(), "{field:?}");
        assert_eq!(export::text(&index), Err(ExportError::NotAsWritten));
    }
}

/// Numbers in errors are the caller's too: none is too small to be told.
#[test]
fn errors_of_any_numbers_have_a_text() {
    let long = NameFault::Long { bytes: 3 };
    assert_eq!(long.to_string(), "3 bytes, 0 more than the 64 of a name");
    let passed = PassedLimit {
        what: "bytes",
        count: 1,
        limit: 2,
    };
    assert_eq!(
        ExportError::Limits(vec![passed]).to_string(),
        "1 bytes: 0 more than the 2 of an index file"
    );
}

#[test]
fn sources_named_by_arguments() {
    let path = std::env::temp_dir().join(format!("argument-{}.cm", std::process::id()));
    std::fs::write(&path, "const A = 1;\n  #").expect("a file");
    let path = path.to_str().expect("text");
    let read = Source::from_argument(path);
    let named = Source::from_argument(&format!("main={path}"));
    std::fs::remove_file(path).expect("it is there");
    let (read, named) = (read.expect("it is there"), named.expect("it is there"));
    assert!(read.module.starts_with("argument-"), "{}", read.module);
    assert_eq!((named.module.as_str(), named.path.as_str()), ("main", path));
    assert_eq!(named.text, read.text);
    assert_eq!(read.line_and_column(15), (2, 3));
    assert_eq!(read.line_and_column(usize::MAX), (2, 4));
    let error = Source::from_argument(path).expect_err("it is gone");
    assert!(error.starts_with(path), "{error}");
}

/// Each byte has a line and a column of its own, and no other place has a byte.
#[test]
fn bytes_of_lines_and_columns() {
    for text in ["", "\n", "a", "a\n", "ab\n\nc", "\u{e9}\r\n\n  x\n\n"] {
        let source = source("main", text);
        let bytes: Vec<usize> = (0..text.len()).collect();
        let places = bytes.iter().map(|byte| source.line_and_column(*byte));
        let back = places.map(|(line, column)| source.byte_at(line, column));
        assert_eq!(
            back.collect::<Option<Vec<usize>>>(),
            Some(bytes),
            "{text:?}"
        );
        let all = (0..9).flat_map(|line| (0..9).map(move |column| (line, column)));
        let found = all.filter_map(|(line, column)| source.byte_at(line, column));
        assert_eq!(found.count(), text.len(), "{text:?}");
        assert_eq!(source.byte_at(usize::MAX, usize::MAX), None);
        assert_eq!(source.byte_at(1, usize::MAX), None);
    }
}
