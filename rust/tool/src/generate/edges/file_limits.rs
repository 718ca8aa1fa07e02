//! Limits of a file, refusals 3 and 4.

use index_file::limits;

use super::HEAD;

const ASKS: &str = "Q def 0 0\nQ expr 0 0 -\n";

/// The line so often, behind the head.
fn repeated(line: &str, count: usize) -> String {
    format!("{HEAD}{}", format!("{line}\n").repeat(count))
}

/// The number of records of each kind.
pub fn records(over: usize) -> Vec<(&'static str, String)> {
    let asked = |line: &str, count: usize| format!("{}{ASKS}", repeated(line, count + over));
    let modules: String = (0..limits::MODULES + over)
        .map(|n| format!("M m{n}\nS - module\nD 0 a 0 1 0 1 use m{} a\n", n + 1))
        .collect();
    let expression = "E 0 0 1 - - plain - - bool";
    vec![
        ("modules", format!("index 1\n{modules}{ASKS}")),
        ("scopes", asked("S 0 block", limits::SCOPES - 1)),
        ("types", asked("T felt", limits::TYPES)),
        (
            "definitions",
            asked("D 0 a 0 1 0 1 loop", limits::DEFINITIONS),
        ),
        ("expressions", asked(expression, limits::EXPRESSIONS)),
        ("questions", repeated("Q def 0 0", limits::QUESTIONS + over)),
    ]
}

/// Items, bytes, names and numbers.
pub fn parts(over: usize) -> Vec<(&'static str, String)> {
    let name = "n".repeat(limits::NAME_BYTES + over);
    let link = 65_535 + over;
    let position = 4_294_967_295 + over as u64;
    let size = u128::from(u64::MAX) + over as u128;
    let items = " 0".repeat(limits::ITEMS + over);
    vec![
        (
            "items of a tuple type",
            format!("{HEAD}T felt\nT tuple{items}\nQ type 0 1 0\n"),
        ),
        ("items of many kinds", items_of_many_kinds(over)),
        ("bytes", bytes(limits::BYTES + over)),
        (
            "name",
            format!("{HEAD}D 0 {name} 0 1 0 1 loop\nQ def 0 0\n"),
        ),
        ("bytes of names", bytes_of_names(over)),
        ("link", format!("{HEAD}Q def 0 {link}\nQ def 65535 0\n")),
        (
            "position",
            format!("{HEAD}D 0 a {position} 1 0 1 loop\nQ def 0 0\n"),
        ),
        (
            "size",
            format!(
                "{HEAD}T felt\nT array 0 {size}\nE 0 0 1 - - plain - - rep 1 {size}\n\
                 E 0 1 2 - - plain - - lit -\nQ type 0 1 0\nQ expr 0 0 -\n"
            ),
        ),
    ]
}

fn items_of_many_kinds(over: usize) -> String {
    let rest = " 2".repeat(limits::ITEMS - 7 + over);
    format!(
        "{HEAD}T felt\nT tuple 0\nD 0 f 0 1 0 1 fn 0 a 0\nD 0 s 0 1 0 1 struct a 0\n\
         D 0 l 0 1 0 1 let - - 0 0\nE 0 0 1 - - plain - - call 0 0\n\
         E 0 1 2 - - plain - - arr 0\nE 0 2 3 - - plain - - tuple 0\n\
         E 0 3 4 - - plain - - tuple{rest}\nQ expr 0 3 -\nQ def 0 2\n"
    )
}

/// Names of all bytes from 21 to 7E, two halves; passed, the second ends in 7F.
fn bytes_of_names(over: usize) -> String {
    let name = |bytes: std::ops::Range<u8>| -> String { bytes.map(char::from).collect() };
    let (first, second) = (name(0x21..0x50), name(0x50..0x7F + over as u8));
    format!(
        "{HEAD}T custom {first}\nT custom {second}\nD 0 {first} 0 1 0 1 struct {second} 1\n\
         D 0 {second} 0 1 0 1 struct\nE 0 0 1 - - plain - - lit {second}\n\
         Q def 0 0\nQ expr 0 0 -\n"
    )
}

/// A file of exactly so many bytes: a struct with long field names.
fn bytes(count: usize) -> String {
    let name = "n".repeat(64);
    let mut text = format!("{HEAD}T felt\nD 0 a 0 1 0 1 struct");
    let end = "\nQ def 0 0\n";
    let goal = count - end.len();
    while text.len() + 2 * 67 <= goal {
        text.push_str(&format!(" {name} 0"));
    }
    // Two shorter names make up the difference.
    let rest = goal - text.len();
    for length in [rest / 2, rest - rest / 2] {
        text.push_str(&format!(" {} 0", "n".repeat(length - 3)));
    }
    format!("{text}{end}")
}
