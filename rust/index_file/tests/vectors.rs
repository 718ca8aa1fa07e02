//! The framing of vectors, the text form, the limits and the coverage.

use index_file::coverage;
use index_file::limits;
use index_file::load::load;
use index_file::records::{Index, Module};
use index_file::vectors::{Vector, read};

const CASE: &str = "index 1\nM main\nS - module\nS 0 function\nT u32\nD 0 f 3 4 0 30 fn 0 x 0\n\
    D 1 x 5 6 5 11 param 0\nE 1 24 25 - 1 plain - - ident x\nE 1 20 21 - - plain - - lit -\n\
    E 1 20 25 - - plain - - bin + 1 0\nQ expr 0 2 -\nQ expr 0 1 -\n";

fn vector(name: &str, index: &str, answer: &str) -> Vector {
    Vector {
        name: name.to_string(),
        index: index.replace(' ', "\t").into_bytes(),
        answer: answer.replace(' ', "\t").into_bytes(),
    }
}

#[test]
fn vectors_are_read_as_written() {
    let mut strange = vector("strange", "", "refused 2 1\n");
    strange.index = vec![0, b'\n', 0xFF, b'v', b'e'];
    let all = [
        vector("case", CASE, "expr 0 2 type u32\nexpr 0 1 type felt\n"),
        strange,
        vector("no-questions", "index 1\n", ""),
    ];
    let mut bytes = Vec::new();
    all.iter().for_each(|vector| vector.write(&mut bytes));
    assert_eq!(read(&bytes), Ok(all.to_vec()));
}

#[test]
fn what_is_no_vector() {
    for (text, at, reason) in [
        ("vector a 0 0", 0, "without LF"),
        ("vector a 0\n", 0, "isn't `vector"),
        ("vektor a 0 0\n", 0, "isn't `vector"),
        ("vector a x 0\n", 0, "no number"),
        ("vector a 1 1\nx", 0, "more bytes than follow"),
        ("vector a 1 0\nxvector", 14, "without LF"),
        ("vector a 1 0\nx\n", 14, "isn't `vector"),
        (
            "vector a 1 0\nxvector b 9 0\n",
            14,
            "more bytes than follow",
        ),
    ] {
        let fault = read(text.as_bytes()).expect_err(text);
        assert_eq!(fault.at, at, "{text}");
        assert!(fault.to_string().contains(reason), "{text}: {fault}");
    }
}

#[test]
fn text_form_and_version() {
    let index = load(CASE.replace(' ', "\t").as_bytes()).expect("the case is right");
    assert_eq!(index.version, 1);
    assert_eq!(index.to_text().replace('\t', " "), CASE);
    let later = Index {
        version: 2,
        ..index
    };
    assert!(later.to_text().starts_with("index\t2\n"));
}

#[test]
fn passed_limits_say_by_how_much() {
    let mut index = Index::default();
    assert!(limits::passed(&index).is_empty());
    for number in 0..10 {
        index.modules.push(Module {
            name: format!("m{number}"),
            ..Module::default()
        });
    }
    let passed = limits::passed(&index);
    assert_eq!(passed.len(), 1);
    assert_eq!(
        passed[0].to_string(),
        "10 modules: 2 more than the 8 of an index file"
    );
}

#[test]
fn coverage_counts_what_is_there_and_asked() {
    let vectors = [
        vector("case", CASE, "expr 0 2 type u32\nexpr 0 1 type felt\n"),
        vector("wrong", "index 2\n", "refused 2 1\n"),
    ];
    let rows = coverage::rows(&vectors);
    let row = |group, name| {
        let found = rows.iter().find(|row| row.form == (group, name));
        found.map(|row| (row.has, row.asks)).expect("a form")
    };
    assert_eq!(row("node", "bin"), (1, 1));
    assert_eq!(row("node", "ident"), (1, 0));
    assert_eq!(row("binary", "+"), (1, 1));
    assert_eq!(row("binary", "-"), (0, 0));
    assert_eq!(row("definition", "param"), (1, 0));
    assert_eq!(row("answer", "u32"), (1, 1));
    assert_eq!(row("answer", "error"), (0, 0));
    assert_eq!(row("refusal", "2"), (1, 1));
    assert!(coverage::table(&vectors).starts_with("vectors\t2\n"));
}
