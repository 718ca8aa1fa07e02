//! Refusals 2 to 5 and their order.

use index_file::load::{Refusal, load};

/// Blanks stand for tabs; no field of an index has a blank.
fn bytes(text: &str) -> Vec<u8> {
    text.replace(' ', "\t").into_bytes()
}

/// Refused with this number at this line.
fn check(text: &str, number: u8, line: usize) {
    assert_eq!(
        load(&bytes(text)),
        Err(Refusal { number, line }),
        "{text:?}"
    );
}

fn accepted(text: &str) {
    assert_eq!(load(&bytes(text)).err(), None, "{text:?}");
}

const HEAD: &str = "index 1\nM main\nS - module\n";

fn with_head(lines: &str) -> String {
    format!("{HEAD}{lines}")
}

#[test]
fn first_line() {
    for text in [
        "",
        "index 1",
        "index 2\n",
        "index 1 \n",
        "index 1\r\n",
        "\nindex 1\n",
    ] {
        check(text, 2, 1);
    }
    accepted("index 1\n");
    accepted(HEAD);
}

/// Lines of wrong form.
const WRONG_FORMS: &[&str] = &[
    "",
    " ",
    "X",
    "m main",
    "M",
    "M -",
    "M two names",
    "S -",
    "S 0 module",
    "S - function",
    "S - loop",
    "S 00 block",
    "T felt ",
    "T custom -",
    "T ptr",
    "T ptr 0 0",
    "T array 0",
    "T array 0 18446744073709551616",
    "T tuple -",
    "D 0 a 0 0 0 0 let - - - 1",
    "D 0 a 0 0 0 0 const -",
    "D 0 a 0 0 0 4294967296 loop",
    "D 0 a 0 0 0 0 struct x",
    "E 0 0 0 - - plain - - lit",
    "E 0 0 0 - - plain 0 - bool",
    "E 0 0 0 - - field 0 - bool",
    "E 0 0 0 - - arg - 0 bool",
    "E 0 0 0 - - assign 0 0 bool",
    "E 0 0 0 - - plain - - un + 0",
    "E 0 0 0 - - plain - - bin ! 0 0",
    "E 0 0 0 - - plain - - tidx 0 65536",
    "Q",
    "Q expr 0 0",
    "Q def 0 0 -",
    "Q type 0 0",
    "Q def 0 65536",
    "Q def 0 +1",
    "Q at",
    "Q at 0",
    "Q at 0 0 0",
    "Q at 0 0 -",
    "Q at - 0",
    "Q at 0 -",
    "Q at 0 4294967296",
    "Q at 0 01",
    "Q at 65536 0",
];

#[test]
fn forms() {
    for line in WRONG_FORMS {
        check(&with_head(&format!("{line}\n")), 4, 4);
    }
    let long = "n".repeat(65);
    check(&with_head(&format!("M {long}\n")), 4, 4);
    check(&with_head("M na\u{e9}\n"), 4, 4);
    check(&with_head("M na\u{7f}\n"), 4, 4);
}

#[test]
fn places() {
    check("index 1\nS - module\n", 4, 2);
    check(&with_head("D 0 a 0 0 0 0 loop\nT felt\n"), 4, 5);
    check(&with_head("Q def 0 0\nM other\n"), 4, 5);
    check(&with_head("M main\n"), 4, 4);
    check(&with_head("T felt"), 4, 4);
}

#[test]
fn links() {
    for line in [
        "S 1 block",
        "S - module",
        "T ptr 0",
        "T tuple 0",
        "D 1 a 0 0 0 0 loop",
        "D 0 a 0 0 0 0 param 0",
        "D 0 a 0 0 0 0 const - 0",
        "D 0 a 0 0 0 0 let - - 0",
        "E 1 0 0 - - plain - - bool",
        "E 0 0 0 0 - plain - - bool",
        "E 0 0 0 - 0 plain - - bool",
        "E 0 0 0 - - assign 1 - bool",
        "E 0 0 0 - - plain - - paren 1",
        "E 0 0 0 - - plain - - cast 0",
        "Q type 0 0 0",
    ] {
        check(&with_head(&format!("{line}\n")), 5, 4);
    }
    check("index 1\nM main\nS 0 function\n", 5, 3);
    check("index 1\nM main\nT felt\nM other\nT ptr 7\n", 5, 2);
    check(
        &with_head("E 0 0 0 - - plain - - bool\nQ expr 0 0 0\n"),
        5,
        5,
    );
    accepted(&with_head(
        "T felt\nT ptr 0\nE 0 0 0 1 - assign 0 - paren 0\n",
    ));
}

/// Nothing that `at` names has to be there.
#[test]
fn at_has_no_links() {
    accepted(&with_head("Q at 0 4294967295\nQ at 1 0\nQ at 65535 7\n"));
    accepted("index 1\nQ at 0 0\n");
}

#[test]
fn limits() {
    let repeated = |line: &str, count: usize| with_head(&format!("{line}\n").repeat(count));
    accepted(&repeated("S 0 block", 127));
    check(&repeated("S 0 block", 128), 3, 131);
    check(&repeated("T felt", 513), 3, 516);
    check(&repeated("D 0 a 0 0 0 0 loop", 257), 3, 260);
    check(&repeated("E 0 0 0 - - plain - - bool", 513), 3, 516);
    check(&repeated("Q def 7 7", 257), 3, 260);
    let modules: String = (0..9).map(|n| format!("M m{n}\nS - module\n")).collect();
    check(&format!("index 1\n{modules}"), 3, 18);

    let tuple = |items: usize| format!("T felt\nT tuple{}\n", " 0".repeat(items));
    accepted(&with_head(&tuple(2048)));
    check(&with_head(&tuple(2049)), 3, 5);
}

#[test]
fn bytes_of_the_file() {
    // 65,536 bytes exactly: the last line is filled with items' names.
    let mut text = with_head("T felt\nD 0 a 0 0 0 0 struct");
    while text.len() < 65_000 {
        text.push_str(&format!(" {} 0", "f".repeat(64)));
    }
    let missing = 65_536 - text.len() - 1;
    let names = missing / 67;
    let rest = missing - names * 67;
    for _ in 0..names {
        text.push_str(&format!(" {} 0", "f".repeat(64)));
    }
    // Shorter names make up the difference.
    assert!(rest >= 4, "choose other names");
    text.push_str(&format!(" {} 0\n", "f".repeat(rest - 3)));
    assert_eq!(text.len(), 65_536);
    accepted(&text);
    text.push('x');
    check(&text, 3, 0);
    check(&"x".repeat(65_537), 3, 0);
}

/// 3 before 4 in one line; the first line with either; 5 only when all lines have the right form.
#[test]
fn order() {
    let scopes = with_head(&"S 0 block\n".repeat(127));
    check(&format!("{scopes}S nonsense\n"), 3, 131);
    check(&format!("{scopes}S\n"), 3, 131);
    check(&with_head("S 7 block\nX\n"), 4, 5);
    check(&with_head("S 7 block\nT ptr 9\n"), 5, 4);
    let items = format!("T felt\nT tuple{}\n", " 0".repeat(2048));
    // Items count only in lines of right form.
    check(&with_head(&format!("{items}T tuple 0 x\n")), 4, 6);
    check(&with_head(&format!("{items}T tuple 0\n")), 3, 6);
    // A right form in a wrong place.
    check(
        &with_head(&format!("{items}D 0 a 0 0 0 0 loop\nT tuple 0\n")),
        3,
        7,
    );
    check(
        &with_head(&format!("{items}D 0 a 0 0 0 0 loop\nT tuple\n")),
        4,
        7,
    );
    // No LF at the end.
    check(&with_head(&format!("{items}T tuple 0")), 3, 6);
    // The first line is looked at after the length, before all others.
    let mut long = bytes("index 2\n");
    long.resize(65_537, b'x');
    assert_eq!(load(&long), Err(Refusal { number: 3, line: 0 }));
}
