//! Each limit of document 01 is reached by one file and passed by another.

#![cfg(originals)]

mod common;

use common::ask_bytes;
use typetool::generate::{Fixed, edges};

/// A limit, the beginnings of the answers where it is reached, and where it is passed.
const EXPECTED: &[(&str, &[&str], &[&str])] = &[
    ("modules", &["type error", "type error"], &["refused 3 26"]),
    ("scopes", &["type error", "type error"], &["refused 3 131"]),
    ("types", &["type error", "type error"], &["refused 3 516"]),
    (
        "definitions",
        &["type felt", "type error"],
        &["refused 3 260"],
    ),
    (
        "expressions",
        &["type error", "type bool"],
        &["refused 3 516"],
    ),
    ("questions", &[], &["refused 3 260"]),
    ("items-of-a-tuple-type", &["refused 10"], &["refused 3 5"]),
    (
        "items-of-many-kinds",
        &["refused 7", "refused 7"],
        &["refused 3 12"],
    ),
    ("bytes", &["type struct:0.0"], &["refused 3 0"]),
    ("name", &["type felt"], &["refused 4 4"]),
    (
        "bytes-of-names",
        &["type struct:0.0", "type felt"],
        &["refused 4 5"],
    ),
    ("link", &["type error", "type error"], &["refused 4 4"]),
    ("position", &["type felt"], &["refused 4 4"]),
    (
        "size",
        &[
            "type [felt;18446744073709551615]",
            "type [felt;18446744073709551615]",
        ],
        &["refused 4 5"],
    ),
    (
        "open-demands-of-constants",
        &["type bool", "type bool", "type bool"],
        &["refused 8", "type bool", "refused 8"],
    ),
    (
        "open-demands-of-expressions",
        &["type bool", "type bool"],
        &["refused 8", "type bool"],
    ),
    // The pointers are made on the way back, the 257th type before the last.
    (
        "open-demands-of-types",
        &["refused 9", "refused 9"],
        &["refused 8", "refused 8"],
    ),
    (
        "order-in-a-signature",
        &["refused 7", "refused 8"],
        &["refused 7", "refused 8"],
    ),
    (
        "open-demands-at-a-second-use",
        &["type (bool,bool)", "type bool"],
        &["refused 8", "type bool"],
    ),
    (
        "open-demands-below-a-struct",
        &["refused 8", "type struct:0.1", "type struct:0.1"],
        &["refused 8", "refused 8", "refused 8"],
    ),
    (
        "open-demands-of-uses",
        &["refused 7", "type felt"],
        &["refused 7", "type felt"],
    ),
    (
        "ring-at-the-depth-limit",
        &["refused 7", "refused 7", "refused 7"],
        &["refused 8", "refused 8", "refused 8"],
    ),
    (
        "distinct-types",
        &["type ([felt;1],", "type [felt;1]"],
        &["refused 9", "type [felt;1]"],
    ),
    (
        "distinct-functions",
        &["type (u32,", "type u32"],
        &["refused 9", "type u32"],
    ),
    (
        "items-of-types",
        &["refused 10", "type felt"],
        &["refused 9", "type felt"],
    ),
    (
        "text",
        &["type (felt,", "type felt"],
        &["refused 10", "type felt"],
    ),
];

fn check(file: &Fixed, name: &str, expected: &[&str]) {
    assert_eq!(file.name, name);
    let answers = ask_bytes(file.text.as_bytes());
    if !expected.is_empty() {
        assert_eq!(answers.len(), expected.len(), "{name}: {answers:.200?}");
    }
    for (answer, expected) in answers.iter().zip(expected) {
        let end = answer.splitn(4, ' ').last().expect("four parts");
        let fits = answer == expected || end.starts_with(expected);
        assert!(fits, "{name}: {answer:.200}, expected {expected}");
    }
}

#[test]
fn edges_of_limits() {
    let files = edges::files();
    assert_eq!(files.len(), 2 * EXPECTED.len());
    let (reached, passed) = files.split_at(EXPECTED.len());
    for (number, (name, at_limit, over_limit)) in EXPECTED.iter().enumerate() {
        check(&reached[number], &format!("limit-{name}-reached"), at_limit);
        check(&passed[number], &format!("limit-{name}-passed"), over_limit);
    }
}

/// The same demand again is 7, though no place is free; a demand with another context is 8.
#[test]
fn contexts_at_the_depth_limit() {
    let files = typetool::generate::depths::files();
    let refusals = files.iter().map(|file| {
        let answers = ask_bytes(file.text.as_bytes());
        let number = answers[0].rsplit(' ').next().expect("a field");
        (file.name.ends_with("in-time"), number.to_string())
    });
    for (in_time, number) in refusals {
        assert_eq!(number, if in_time { "7" } else { "8" });
    }
    assert_eq!(files.len(), 6);
}
