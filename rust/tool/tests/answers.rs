//! The rows of document 01, and rules of a question's refusals.

#![cfg(originals)]

mod common;

use common::{ask, ask_bytes};
use typetool::generate::{at, rows};

/// Every row that the Rust can answer.
#[test]
fn rows_of_01() {
    let rows = rows::rows();
    assert_eq!(rows.len(), rows::files().len());
    for row in rows {
        let answers = ask(&format!("index 1\n{}", row.lines));
        assert_eq!(answers.len(), row.answers.len(), "{}", row.name);
        for (answer, expected) in answers.iter().zip(&row.answers) {
            let end = answer.splitn(4, ' ').last().expect("four parts");
            let fits = end == *expected || (expected.ends_with(',') && end.starts_with(expected));
            assert!(fits, "{}: {answer:.80}, expected {expected}", row.name);
        }
    }
}

/// Each sentence about `at`.
#[test]
fn cases_of_at() {
    let cases = at::cases();
    assert_eq!(cases.len(), at::files().len());
    for case in cases {
        let answers = ask(&format!("index 1\n{}", case.lines));
        assert_eq!(answers.len(), case.answers.len(), "{}", case.name);
        for (answer, expected) in answers.iter().zip(&case.answers) {
            let end = answer.splitn(4, ' ').last().expect("four parts");
            let fits = end == *expected || (expected.ends_with(',') && end.starts_with(expected));
            assert!(fits, "{}: {answer:.80}, expected {expected}", case.name);
        }
    }
}

/// The whole line: kind, module, position, and what is said.
#[test]
fn lines_of_at() {
    let text = "index 1\nM main\nS - module\nE 0 5 8 - - plain - - bool\n\
        E 0 20 21 - - plain - - un ! -\nQ at 0 7\nQ at 0 20\nQ at 0 4294967295\nQ at 65535 0\n";
    let owed = [
        "at 0 7 type bool",
        "at 0 20 refused 6",
        "at 0 4294967295 none",
        "at 65535 0 none",
    ];
    assert_eq!(ask(text), owed);
}

/// The whole lines of the case in 01, byte for byte.
#[test]
fn whole_case() {
    let files = rows::files();
    let case = files.iter().find(|file| file.name == "row-whole-case");
    let answers = ask_bytes(case.expect("it is among the rows").text.as_bytes());
    assert_eq!(answers, ["expr 0 2 type u32", "expr 0 1 type felt"]);
}

/// A tuple type of 1,023 structs, asked in scopes where the name means different structs.
#[test]
fn items_of_types() {
    let tuple = format!("T tuple{}\n", " 0".repeat(1023));
    let struct_with = |scope: usize, fields: usize| {
        let fields: String = (0..fields).map(|n| format!(" f{n} 2")).collect();
        format!("D {scope} A 0 1 0 1 struct{fields}\n")
    };
    let text = |fields: usize| {
        format!(
            "index 1\nM main\nS - module\nS 0 block\nT custom A\n{tuple}T felt\n\
             {}{}D 0 f 0 1 0 1 fn 1\nE 1 0 1 - - return - - cast 1\nQ expr 0 0 -\n",
            struct_with(0, 0),
            struct_with(1, fields),
        )
    };
    // Two tuples of 1,023 and the fields; the text is too long in any case.
    assert_eq!(ask(&text(2)), ["expr 0 0 refused 10"]);
    assert_eq!(ask(&text(3)), ["expr 0 0 refused 9"]);
}

/// A tuple of `felts` times felt, then `u32s` times u32.
fn tuple_text(felts: usize, u32s: usize) -> String {
    format!(
        "index 1\nM main\nS - module\nT felt\nT u32\nT tuple{}{}\nQ type 0 2 0\n",
        " 0".repeat(felts),
        " 1".repeat(u32s),
    )
}

#[test]
fn length_of_text() {
    // Each felt takes 5 bytes with its comma, each u32 takes 4, and the brackets one more.
    let longest = &ask(&tuple_text(819, 0))[0];
    assert_eq!(longest.len() - "type 0 2 type ".len(), 4096);
    assert_eq!(ask(&tuple_text(820, 0)), ["type 0 2 refused 10"]);
    assert_eq!(ask(&tuple_text(816, 4)), ["type 0 2 refused 10"]);
}

#[test]
fn missing_children() {
    for (node, expected) in [
        ("un ! -", "refused 6"),
        ("un - -", "refused 6"),
        ("bin + - 0", "refused 6"),
        ("bin + 0 -", "refused 6"),
        ("tidx - 0", "refused 6"),
        ("arr - 0", "refused 6"),
        ("arr 0 -", "type error"),
        ("rep - 3", "refused 6"),
        ("call -", "type error"),
        ("member - x", "type error"),
        ("index - 0", "type error"),
        ("index 0 -", "type error"),
        ("tuple 0 -", "type error"),
        ("new 0 -", "type ptr(u32)"),
        ("paren -", "type error"),
    ] {
        let text = format!(
            "index 1\nM main\nS - module\nT u32\nE 0 0 1 - - plain - - lit u32\n\
             E 0 1 2 - - plain - - {node}\nQ expr 0 1 -\n"
        );
        assert_eq!(ask(&text), [format!("expr 0 1 {expected}")], "{node}");
    }
}

/// Small files that take very long are given up, by a number of demands and not by time.
#[test]
fn a_question_is_given_up() {
    let mut text = "index 1\nM main\nS - module\n".to_string();
    for number in 0..60 {
        text.push_str(&format!("D 0 c{number} 0 1 0 1 const - {}\n", 2 * number));
    }
    for number in 0..60 {
        let (sum, name) = (2 * number, 2 * number + 1);
        let next = (number + 1) % 60;
        text.push_str(&format!(
            "E 0 {sum} 999 - - plain - - bin + {name} {name}\n"
        ));
        text.push_str(&format!(
            "E 0 {name} 999 - {next} plain - - ident c{next}\n"
        ));
    }
    // The last is a number instead of a name.
    text = text.replace(
        "E 0 119 999 - 0 plain - - ident c0",
        "E 0 119 999 - - plain - - lit u32",
    );
    text.push_str("Q def 0 0\n");
    assert_eq!(ask(&text), ["def 0 0 budget"]);
}
