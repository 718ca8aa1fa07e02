//! `typetool name`.

#![cfg(originals)]

mod common;

use common::{fails, file, prints};
use export::places::Places;
use export::sources::{Source, export_with_places};
use index_file::load::load;
use index_file::name_lookup::{FoundName, Supplied};
use index_file::records::{Index, Module, Node, Question};
use oracle::{Options, Oracle, Outcome, with_large_stack};
use typetool::corpus::programs;
use typetool::generate::{self, Kind, Random, program_indexes};
use typetool::name_at::Program;

const MAIN: &str = "use other::{helper, Thing, gone, again};
use absent::far;
const late = 1;

fn f(x: u32, p: Point) -> Point {
    let before = late;
    let late = x;
    let x = late;
    if (x == late) {
        let inner = x;
        helper(inner, gone, far, again);
    }
    for (let i = 0; i < 3; i = i + 1) {
        let twice = i + i;
    }
    let point = Point { at: x };
    let thing = Thing { at: nobody };
    assert(behind == -x);
    let none: Missing = f() as Point;
    return p;
}
struct Point { at: u32 }
const behind = 2;
fn g(Point: Point) -> Point {
    let value = value;
    loop { let value = Point; break; }
}
";
const OTHER: &str = "use third::again;\nstruct Thing { at: felt }\nfn helper() {}\n";
const THIRD: &str = "const again = 1;\n";

/// The byte of a sign `|` in a part of the text that stands there without it.
fn byte(text: &str, part: &str) -> usize {
    let at = text.find(&part.replace('|', "")).expect("it stands there");
    at + part.find('|').expect("a byte is marked")
}

/// What is printed at the marked byte of the main file, which stands for `MAIN`; the others are given too.
fn shown(test: &str, part: &str, owed: &str) {
    let main = file(&format!("{test}/main.cm"), MAIN);
    let other = file(&format!("{test}/other.cm"), OTHER);
    let third = file(&format!("{test}/third.cm"), THIRD);
    let owed = owed.replace("MAIN", &main).replace("OTHER", &other);
    let owed = owed.replace("THIRD", &third);
    let place = format!("{main}:{}", byte(MAIN, part));
    prints("name", &[&place, &other, &third], &owed);
}

const FUNCTION: &str = "    scope: function at MAIN:5:1-21:2\n";
const MODULE: &str = "    scope: module at MAIN\n";

#[test]
fn a_parameter_and_the_let_that_shadows_it() {
    let parameter = "    definition: parameter x at MAIN:5:6-5:7\n";
    let owed = format!("MAIN:7:16-7:17 (bytes 147 to 148): x\n{parameter}{FUNCTION}");
    shown("shadowed", "let late = |x;", &owed);
    let variable = "    definition: let x at MAIN:8:9-8:10\n";
    let owed = format!("MAIN:9:9-9:10 (bytes 176 to 177): x\n{variable}{FUNCTION}");
    shown("shadowed", "if (|x == late", &owed);
    let owed = format!("MAIN:16:29-16:30 (bytes 360 to 361): x\n{variable}{FUNCTION}");
    shown("shadowed", "at: |x }", &owed);
}

/// In front of the let the constant of the module is meant, behind it the let.
#[test]
fn a_let_behind_the_use() {
    let constant = "    definition: constant late at MAIN:3:7-3:11\n";
    let owed = format!("MAIN:6:18-6:22 (bytes 126 to 130): late\n{constant}{MODULE}");
    shown("behind", "let before = la|te;", &owed);
    let variable = "    definition: let late at MAIN:7:9-7:13\n";
    let owed = format!("MAIN:8:13-8:17 (bytes 162 to 166): late\n{variable}{FUNCTION}");
    shown("behind", "let x = lat|e;", &owed);
    // The own name in a let's value, which no other definition has.
    let owed = "MAIN:25:17-25:22 (bytes 572 to 577): value\n    no definition of this name is visible \
                here, neither in the scope where it stands nor in one around it\n";
    shown("behind", "let value = |value;", owed);
    // A constant that begins behind the use.
    let owed = "MAIN:18:12-18:18 (bytes 414 to 420): behind\n    no definition of this name is visible \
                here, neither in the scope where it stands nor in one around it\n";
    shown("behind", "assert(|behind", owed);
}

#[test]
fn in_a_block_and_a_loop() {
    let inner = "    definition: let inner at MAIN:10:13-10:18\n";
    let block = "    scope: block at MAIN:9:20-12:6\n";
    let owed = format!("MAIN:11:16-11:21 (bytes 227 to 232): inner\n{inner}{block}");
    shown("within", "helper(|inner", &owed);
    let variable = "    definition: let i at MAIN:13:14-13:15\n";
    let in_loop = "    scope: loop at MAIN:13:5-15:6\n";
    let owed = format!("MAIN:13:21-13:22 (bytes 279 to 280): i\n{variable}{in_loop}");
    shown("within", "|i < 3", &owed);
    let owed = format!("MAIN:14:21-14:22 (bytes 319 to 320): i\n{variable}{in_loop}");
    shown("within", "twice = |i", &owed);
    // A block in a loop, and a parameter used there.
    let owed = "MAIN:26:24-26:29 (bytes 602 to 607): Point\n    definition: parameter Point at \
                MAIN:24:6-24:11\n    scope: function at MAIN:24:1-27:2\n";
    shown("within", "value = |Point; break", owed);
}

#[test]
fn struct_literals() {
    let point = "    definition: struct Point at MAIN:22:8-22:13\n";
    let owed = format!("MAIN:16:17-16:22 (bytes 348 to 353): Point\n{point}{MODULE}");
    shown("literal", "point = |Point {", &owed);
    shown("literal", "point = Poin|t {", &owed);
    let thing = "    definition: use Thing at MAIN:1:21-1:26\n    leads to: Thing of module other: \
                 struct Thing at OTHER:2:8-2:13\n";
    let owed = format!("MAIN:17:17-17:22 (bytes 381 to 386): Thing\n{thing}{MODULE}");
    shown("literal", "thing = |Thing {", &owed);
    // Behind the name, at a field, and at the brackets.
    for part in ["= Point| { at: x", "Point { |at: x", "= Point |{ at: x"] {
        shown("literal", part, "none\n");
    }
}

/// What each `use` leads to: a function, another `use`, nothing, and a module that isn't given.
#[test]
fn uses_of_other_files() {
    for (part, name, definition, leads) in [
        (
            "|helper(inner",
            "MAIN:11:9-11:15 (bytes 220 to 226): helper",
            "use helper at MAIN:1:13-1:19",
            "    leads to: helper of module other: function helper at OTHER:3:4-3:10\n",
        ),
        (
            "far, |again)",
            "MAIN:11:34-11:39 (bytes 245 to 250): again",
            "use again at MAIN:1:34-1:39",
            "    leads to: again of module other: use again at OTHER:1:12-1:17\n    leads to: again \
             of module third: constant again at THIRD:1:7-1:12\n",
        ),
        (
            "|gone, far",
            "MAIN:11:23-11:27 (bytes 234 to 238): gone",
            "use gone at MAIN:1:28-1:32",
            "    leads to: gone of module other, which doesn't have it\n",
        ),
        (
            "|far, again",
            "MAIN:11:29-11:32 (bytes 240 to 243): far",
            "use far at MAIN:2:13-2:16",
            "    leads to: far of module absent, which isn't given\n",
        ),
    ] {
        let owed = format!("{name}\n    definition: {definition}\n{leads}{MODULE}");
        shown("uses", part, &owed);
    }
    let alone = file("alone/main.cm", MAIN);
    let owed = format!(
        "{alone}:11:9-11:15 (bytes 220 to 226): helper\n    definition: use helper at \
         {alone}:1:13-1:19\n    leads to: helper of module other, which isn't given\n    scope: module \
         at {alone}\n"
    );
    prints("name", &[&format!("{alone}:11:9")], &owed);
}

#[test]
fn found_nowhere_and_built_in() {
    let owed = "MAIN:17:29-17:35 (bytes 393 to 399): nobody\n    no definition of this name is visible \
                here, neither in the scope where it stands nor in one around it\n";
    shown("nowhere", "at: |nobody", owed);
    let owed = "MAIN:18:5-18:11 (bytes 407 to 413): assert\n    built in: this function is no \
                definition of a file, and no scope supplies it\n";
    shown("nowhere", "|assert(", owed);
}

#[test]
fn names_in_types() {
    let point = "    definition: struct Point at MAIN:22:8-22:13\n";
    for (part, place) in [
        ("p: |Point)", "5:17-5:22 (bytes 91 to 96)"),
        ("p: Point) -> |Point", "5:27-5:32 (bytes 101 to 106)"),
        ("f() as |Point", "19:32-19:37 (bytes 460 to 465)"),
        // In the module, though the parameter of the function has the name too.
        ("Point: Point) -> |Point", "24:23-24:28 (bytes 548 to 553)"),
    ] {
        shown(
            "types",
            part,
            &format!("MAIN:{place}: Point\n{point}{MODULE}"),
        );
    }
    let owed = "MAIN:19:15-19:22 (bytes 443 to 450): Missing\n    no definition has this name, neither \
                in the scope where it is looked up nor in one around it\n";
    shown("types", "none: |Missing", owed);
    let owed = format!(
        "MAIN:24:13-24:18 (bytes 538 to 543): Point\n  for the parameter:\n    definition: parameter \
         Point at MAIN:24:6-24:11\n    scope: function at MAIN:24:1-27:2\n  for the function's \
         signature:\n{point}{MODULE}"
    );
    shown("types", "g(Point: |Point", &owed);
    shown("types", "x: |u32", "none\n");
}

#[test]
fn names_of_definitions() {
    for (part, name, kind, place, scope) in [
        (
            "fn |f(",
            "f",
            "function",
            "5:4-5:5 (bytes 78 to 79)",
            MODULE,
        ),
        (
            "struct |Point",
            "Point",
            "struct",
            "22:8-22:13 (bytes 490 to 495)",
            MODULE,
        ),
        (
            "const la|te",
            "late",
            "constant",
            "3:7-3:11 (bytes 64 to 68)",
            MODULE,
        ),
        (
            "f(|x: u32",
            "x",
            "parameter",
            "5:6-5:7 (bytes 80 to 81)",
            FUNCTION,
        ),
        (
            "let |late",
            "late",
            "let",
            "7:9-7:13 (bytes 140 to 144)",
            FUNCTION,
        ),
        (
            "let |i =",
            "i",
            "let",
            "13:14-13:15 (bytes 272 to 273)",
            "    scope: loop at MAIN:13:5-15:6\n",
        ),
        (
            "absent::|far",
            "far",
            "use",
            "2:13-2:16 (bytes 53 to 56)",
            "    leads to: far of module absent, which isn't given\n    scope: module at MAIN\n",
        ),
    ] {
        let range = place.split(' ').next().expect("a first word");
        let definition = format!("    definition: {kind} {name} at MAIN:{range}, this place\n");
        let owed = format!("MAIN:{place}: {name}\n{definition}{scope}");
        shown("definitions", part, &owed);
    }
}

#[test]
fn none() {
    for part in [
        "|use other",
        "use |other",
        "{ |at: u32",
        "i < |3",
        "|loop",
        "bre|ak;",
    ] {
        shown("none", part, "none\n");
    }
    let path = file("none/text.cm", "const a = 1;\n// \u{e9}\n");
    for place in [
        "1:8",
        "1:12",
        "1:13",
        "1:14",
        "2:5",
        "3:1",
        "999:1",
        "12",
        "13",
        "19",
        "99999999999999999999",
    ] {
        prints("name", &[&format!("{path}:{place}")], "none\n");
    }
    prints(
        "name",
        &[&format!("{}:0", file("none/nothing.cm", ""))],
        "none\n",
    );
}

#[test]
fn wrong_places_and_files() {
    let path = file("wrong/right.cm", "const a = 1;\n");
    fails("name", &[], "no place is named; see `typetool name --help`");
    fails("name", &["--fast"], "unknown option --fast");
    fails(
        "name",
        &[&path],
        "nor FILE:BYTE; see `typetool name --help`",
    );
    fails("name", &[&format!("{path}:1:x")], "is neither");
    fails("name", &[&format!("{path}:0:1")], "there is no line 0");
    fails("name", &[&format!("{path}:1:0")], "there is no column 0");
    fails("name", &["nowhere.cm:1:1"], "nowhere.cm: No such file");
    fails("name", &["no\nwhere.cm:1:1"], "no; where.cm: No such file");
    let place = format!("{path}:1");
    fails("name", &[&place, "nowhere.cm"], "nowhere.cm: No such file");
    fails("name", &[&place, &path], "two modules are named \"right\"");
    let two = file("wrong/two.cm", "fn f( {\nfn g( {\n");
    fails("name", &[&format!("{two}:1")], "two.cm:1:7: unexpected");
    let odd = file("wrong/odd name.cm", "const a = 1;\n");
    fails(
        "name",
        &[&format!("{odd}:1")],
        "\"odd name\" can't be written: byte 20",
    );
    let many: String = (0..300).map(|n| format!("fn f{n}() {{}}\n")).collect();
    let many = file("wrong/many.cm", &many);
    fails(
        "name",
        &[&format!("{many}:1")],
        "301 scopes: 173 more than the 128",
    );
    let ring = file("wrong/ring.cm", "use second::a;\n");
    let second = file("wrong/second.cm", "use ring::a;\n");
    fails("name", &[&format!("{ring}:12"), &second], "Cyclic import");
    let deep = format!("const a = {}1{};", "(".repeat(600), ")".repeat(600));
    let deep = file("wrong/deep.cm", &deep);
    fails("name", &[&format!("{deep}:10")], "601 expressions");
}

/// The word of letters, digits and `_` around a byte.
fn word(text: &str, byte: usize) -> &str {
    let is_part = |byte: u8| byte.is_ascii_alphanumeric() || byte == b'_';
    let before = text.as_bytes()[..byte].iter().rev();
    let start = byte - before.take_while(|byte| is_part(**byte)).count();
    let behind = text.as_bytes()[byte..].iter();
    let end = byte + behind.take_while(|byte| is_part(**byte)).count();
    &text[start..end]
}

/// Where names stand in a module: those of definitions, in types, and in expressions.
fn spans_of_names(module: &Module, places: &Places) -> Vec<(u64, u64)> {
    let defined = module.definitions.iter().map(|d| d.name_span);
    let in_types = places.type_names.iter().map(|name| name.span);
    let expressions = 0..module.expressions.len();
    let used = expressions.filter_map(|e| Some(module.name_used_by(e)?.span));
    defined.chain(in_types).chain(used).collect()
}

/// At each byte of the sources: a name is the word that stands there, and where a name stands it is found.
fn check_every_byte(sources: &[Source]) -> usize {
    let (index, places) = export_with_places(sources).expect("it exports");
    let program = Program {
        sources,
        index: &index,
        places: &places,
    };
    let mut names = 0;
    for (module, source) in sources.iter().enumerate() {
        for byte in 0..=source.text.len() {
            let Some(shown) = program.shown_at(module, byte as u64) else {
                continue;
            };
            let first = shown.lines().next().expect("a first line");
            let owed = format!("): {}", word(&source.text, byte));
            assert!(first.ends_with(&owed), "{byte}: {first}, not {owed}");
            assert!(shown.lines().count() > 1, "{shown}");
            names += 1;
        }
        assert_eq!(program.shown_at(module, u64::MAX), None);
        for (start, end) in spans_of_names(&index.modules[module], &places[module]) {
            let bytes = format!("(bytes {start} to {end})");
            for byte in start..end {
                let shown = program.shown_at(module, byte).expect("a name");
                assert!(shown.contains(&bytes), "{shown}");
            }
        }
    }
    assert_eq!(program.shown_at(sources.len(), 0), None);
    names
}

#[test]
fn every_byte_of_the_corpus_and_of_generated_programs() {
    with_large_stack(|| {
        for program in programs(&common::in_workspace("programs")).expect("the corpus") {
            let names = check_every_byte(&program.texts().expect("readable"));
            assert!(names > 20, "{}", program.name);
        }
        for seed in 0..20 {
            check_every_byte(&program_indexes::sources(&mut Random::new(seed)));
        }
    });
}

/// The type that the original finds for a question; none if it finds none.
fn type_of(oracle: &Oracle, question: &Question) -> Option<String> {
    match oracle.answer(question).outcome {
        Outcome::Type(text) => Some(text),
        _ => None,
    }
}

/// The type that a name owes its expression: that of the definition that is found for it, of the built-in
/// function `()`, and `error` where none is found.
fn type_by_name(oracle: &Oracle, module: usize, supplied: Supplied) -> Option<String> {
    match supplied {
        Supplied::By(FoundName { definition, .. }) => {
            type_of(oracle, &Question::Def { module, definition })
        }
        Supplied::BuiltIn => Some("()".to_string()),
        Supplied::Nowhere => Some("error".to_string()),
    }
}

/// By the original an identifier has the type of its name, and so has a struct literal if it is a struct,
/// else `error`. Gives how many were compared. (The expression's demand is open too, so it may be refused
/// where the definition isn't.)
fn check_types(index: &Index) -> usize {
    let oracle = Oracle::new(index, Options::default());
    let mut compared = 0;
    for (module, records) in index.modules.iter().enumerate() {
        for (expression, record) in records.expressions.iter().enumerate() {
            let used = records.name_used_by(expression);
            let owed = used.and_then(|used| type_by_name(&oracle, module, used.supplied));
            let question = Question::Expr {
                module,
                expression,
                context: None,
            };
            let (Some(owed), Some(answer)) = (owed, type_of(&oracle, &question)) else {
                continue;
            };
            let is_literal = matches!(record.node, Node::StructLit { .. });
            let is_wrong = is_literal && !owed.starts_with("struct:");
            let owed = if is_wrong { "error" } else { &owed };
            assert_eq!(answer, owed, "{used:?}");
            compared += 1;
        }
    }
    compared
}

#[test]
fn a_name_has_the_type_of_its_definition() {
    with_large_stack(|| {
        let mut compared = 0;
        for program in programs(&common::in_workspace("programs")).expect("the corpus") {
            let sources = program.texts().expect("readable");
            let (index, _) = export_with_places(&sources).expect("it exports");
            compared += check_types(&index);
        }
        assert!(compared >= 200, "{compared}");
        for seed in 0..40 {
            let file = generate::file(Kind::Records, seed);
            compared += load(&file).map_or(0, |index| check_types(&index));
        }
        assert!(compared >= 400, "{compared}");
    });
}
