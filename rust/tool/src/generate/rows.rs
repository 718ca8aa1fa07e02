//! The whole case of document 01, its "Expressions worth trying", its "Likely errors" and the order
//! of its refusals within a question, one small file a row.

use super::Fixed;

/// Name, lines behind the first (blanks for tabs), and what the questions are answered with, without
/// the lead fields.
pub struct Row {
    pub name: &'static str,
    pub lines: String,
    pub answers: Vec<&'static str>,
}

/// A function `f(y: u32) -> u32`; expression 0 is `y`.
const WITH_Y: &str = "M main\nS - module\nS 0 function\nT u32\nT felt\nT array 0 7\nT array 1 3\n\
    T array 1 0\nT array 1 2\nT array 5 3\nD 0 f 3 4 0 90 fn 0 y 0\nD 1 y 5 6 5 11 param 0\n\
    E 1 24 25 - 1 plain - - ident y\n";

/// Rows about expressions behind `y`: name, lines, answers.
const AFTER_Y: &[(&str, &str, &[&str])] = &[
    (
        "number-plus-y",
        "E 1 20 21 - - plain - - lit -\nE 1 20 25 - - plain - - bin + 1 0\nQ expr 0 2 -\n",
        &["type u32"],
    ),
    (
        "number-minus-y",
        "E 1 20 21 - - plain - - lit -\nE 1 20 25 - - plain - - bin - 1 0\nQ expr 0 2 -\n",
        &["type error"],
    ),
    (
        "number-in-parentheses-plus-y",
        "E 1 20 21 - - plain - - lit -\nE 1 19 22 - - plain - - paren 1\n\
         E 1 19 25 - - plain - - bin + 2 0\nQ expr 0 3 -\n",
        &["type error"],
    ),
    (
        "error-plus-error",
        "E 1 20 21 - - plain - - ident nowhere\nE 1 20 25 - - plain - - bin + 1 1\nQ expr 0 2 -\n",
        &["type felt"],
    ),
    (
        "error-less-than-error",
        "E 1 20 21 - - plain - - ident nowhere\nE 1 20 25 - - plain - - bin < 1 1\nQ expr 0 2 -\n",
        &["type bool"],
    ),
    (
        "empty-array-with-context",
        "E 1 30 32 - - plain - - arr\nQ expr 0 1 2\n",
        &["type [u32;0]"],
    ),
    (
        "empty-array-expected-of-three",
        "E 1 30 32 3 - plain - - arr\nQ expr 0 1 -\n",
        &["type error"],
    ),
    (
        "empty-array-expected-of-none",
        "E 1 30 32 4 - plain - - arr\nQ expr 0 1 -\n",
        &["type [felt;0]"],
    ),
    ("array-of-arrays", "Q type 0 6 1\n", &["type error"]),
    (
        "too-many-arguments",
        "E 1 30 31 - 0 plain - - ident f\nE 1 32 33 - - arg 1 0 lit -\nE 1 34 35 - - arg 1 1 bool\n\
         E 1 30 35 - - plain - - call 1 2 3\nQ expr 0 4 -\n",
        &["type u32"],
    ),
    (
        "unknown-suffix",
        "E 1 30 33 - - plain - - lit u8\nQ expr 0 1 0\n",
        &["type u32"],
    ),
    (
        "own-assert",
        "E 1 30 31 - 0 plain - - ident assert\nE 1 30 35 - - plain - - call 1\nQ expr 0 2 -\n",
        &["type ()"],
    ),
    (
        "arguments-of-no-function",
        "E 1 30 31 - - plain - - un ! -\nE 1 30 35 - - plain - - call 0 1\nQ expr 0 2 -\n\
         Q expr 0 1 -\n",
        &["type error", "refused 6"],
    ),
];

/// Rows that stand for themselves.
const ALONE: &[(&str, &str, &[&str])] = &[
    (
        "whole-case",
        "M main\nS - module\nS 0 function\nT u32\nD 0 f 3 4 0 30 fn 0 x 0\nD 1 x 5 6 5 11 param 0\n\
         E 1 24 25 - 1 plain - - ident x\nE 1 20 21 - - plain - - lit -\n\
         E 1 20 25 - - plain - - bin + 1 0\nQ expr 0 2 -\nQ expr 0 1 -\n",
        &["type u32", "type felt"],
    ),
    (
        "return-of-the-second-function",
        "M main\nS - module\nS 0 function\nS 0 function\nT u32\nT felt\nD 0 first 3 8 0 30 fn 0\n\
         D 0 second 33 38 30 60 fn 1\nE 2 50 51 - - return - - lit -\nQ expr 0 0 -\n",
        &["type u32"],
    ),
    (
        "constant-of-itself",
        "M main\nS - module\nD 0 a 6 7 0 12 const - 0\nE 0 10 11 - 0 plain - - ident a\nQ def 0 0\n\
         Q expr 0 0 -\n",
        &["refused 7", "refused 7"],
    ),
    (
        "argument-of-an-imported-function",
        "M main\nS - module\nD 0 g 0 1 0 1 use library g\nE 0 0 1 - 0 plain - - ident g\n\
         E 0 2 3 - - arg 0 0 lit -\nE 0 0 3 - - plain - - call 0 1\nM library\nS - module\nT u32\n\
         T bool\nD 0 g 0 1 0 1 fn 1 x 0\nQ expr 0 1 -\nQ expr 0 2 -\nQ expr 0 0 -\n",
        &["type felt", "type bool", "type fn:1.0"],
    ),
    (
        "absent-records",
        "M main\nS - module\nQ expr 0 0 9\nQ expr 1 0 9\nQ def 0 0\nQ def 65535 0\nQ type 1 7 7\n",
        &[
            "type error",
            "type error",
            "type error",
            "type error",
            "type error",
        ],
    ),
    (
        "struct-that-holds-itself",
        "M main\nS - module\nT custom Node\nT ptr 0\nD 0 Node 0 1 0 1 struct next 1\nQ def 0 0\n\
         Q type 0 1 0\n",
        &["refused 7", "refused 7"],
    ),
    ("no-module", "Q def 0 0\n", &["type error"]),
];

/// `count` constants, each naming the next, the last `true`, asked from the first.
fn constants(count: usize) -> String {
    let mut text = "M main\nS - module\n".to_string();
    for number in 0..count {
        text.push_str(&format!("D 0 c{number} 0 1 0 1 const - {number}\n"));
    }
    for number in 1..count {
        let next = format!("E 0 {number} 999 - {number} plain - - ident c{number}\n");
        text.push_str(&next);
    }
    text.push_str("E 0 0 999 - - plain - - bool\nQ def 0 0\n");
    text
}

/// A tuple type of arrays of felt, sizes 1 to `count`.
fn arrays(count: usize) -> String {
    let mut text = "M main\nS - module\nT felt\n".to_string();
    let mut tuple = "T tuple".to_string();
    for number in 1..=count {
        text.push_str(&format!("T array 0 {number}\n"));
        tuple.push_str(&format!(" {number}"));
    }
    text.push_str(&format!("{tuple}\nQ type 0 {} 0\n", count + 1));
    text
}

pub fn rows() -> Vec<Row> {
    let row = |name, lines, answers: &[&'static str]| Row {
        name,
        lines,
        answers: answers.to_vec(),
    };
    let alone = ALONE
        .iter()
        .map(|(name, lines, answers)| row(name, lines.to_string(), answers));
    let after_y = AFTER_Y
        .iter()
        .map(|(name, lines, answers)| row(name, format!("{WITH_Y}{lines}"), answers));
    let counted = [
        row("constants-128", constants(128), &["type bool"]),
        row("constants-129", constants(129), &["refused 8"]),
        row("arrays-249", arrays(249), &["type ([felt;1],[felt;2],"]),
        row("arrays-250", arrays(250), &["refused 9"]),
    ];
    alone.chain(after_y).chain(counted).collect()
}

/// The rows as files.
pub fn files() -> Vec<Fixed> {
    let rows = rows().into_iter();
    let files = rows.map(|row| Fixed {
        name: format!("row-{}", row.name),
        text: format!("index 1\n{}", row.lines).replace(' ', "\t"),
    });
    files.collect()
}
