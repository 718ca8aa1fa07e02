//! Files with one wrong line, field by field: a file with a line of every form, where one field is
//! missing or something else. Some of them are right all the same; the loader says which.

use super::Fixed;

/// A right file, by the lines of each kind; blanks stand for tabs. The line under test follows those
/// of its kind.
const RIGHT: &[(char, &str)] = &[
    ('M', "M main\n"),
    ('S', "S - module\nS 0 function\n"),
    ('T', "T felt\nT u32\n"),
    ('D', "D 0 d 0 1 0 1 loop\n"),
    ('E', "E 0 0 1 - - plain - - bool\n"),
    ('Q', "Q def 0 0\n"),
];

/// A right line of every form.
const LINES: &[&str] = &[
    "S 0 block",
    "S 1 loop",
    "T bool",
    "T custom A",
    "T ptr 0",
    "T tuple 0 1",
    "T array 0 3",
    "D 0 f 2 3 4 5 fn 0 x 1",
    "D 0 s 2 3 4 5 struct x 0 y 1",
    "D 0 c 2 3 4 5 const 0 0",
    "D 0 l 2 3 4 5 let 0 0 0 1 0",
    "D 1 p 2 3 4 5 param 1",
    "D 0 u 2 3 4 5 use main d",
    "E 0 2 3 0 0 plain - - lit -",
    "E 0 2 3 - - plain - - lit u32",
    "E 0 2 3 - - field 0 x ident d",
    "E 0 2 3 - - arg 0 1 un - 0",
    "E 0 2 3 - - assign 0 - bin + 0 0",
    "E 0 2 3 - - return - - call 0 0 -",
    "E 0 2 3 - - cond - - member 0 x",
    "E 0 2 3 - - plain - - index 0 0",
    "E 0 2 3 - - plain - - slit A 4 5",
    "E 0 2 3 - - plain - - tuple 0 -",
    "E 0 2 3 - - plain - - tidx 0 1",
    "E 0 2 3 - - plain - - arr 0 -",
    "E 0 2 3 - - plain - - rep 0 7",
    "E 0 2 3 - - plain - - cast 0",
    "E 0 2 3 - - plain - - new 0 0",
    "E 0 2 3 - - plain - - paren 0",
    "Q expr 0 0 1",
    "Q def 0 0",
    "Q type 0 1 1",
];

/// Those of the question `at`: of a module that is there, and of the last numbers that there are.
const LINES_OF_AT: &[&str] = &["Q at 0 7", "Q at 65535 4294967295"];

/// What stands in a number's place, `-` included. The small ones are links just past the last record
/// in some fields and right in others.
const NUMBERS: &[&str] = &[
    "",
    "-",
    "00",
    "01",
    "+1",
    "1",
    "2",
    "3",
    "9999",
    "65536",
    "4294967296",
    "18446744073709551616",
];

/// What stands in a word's place: bytes just outside a name's, and lengths.
const WORDS: &[&str] = &[
    "",
    "-",
    "0",
    "x y",
    "\u{1f}x",
    "x\u{7f}",
    "\u{e9}",
    "x\r",
    "nnnnnnnnnnnnnnnnnnnnnnnnnnnnnnnnnnnnnnnnnnnnnnnnnnnnnnnnnnnnnnnnn",
];

/// Faults of whole files and of the order of lines; blanks stand for tabs.
const WHOLE: &[(&str, &str)] = &[
    ("empty", ""),
    ("first-line-without-lf", "index 1"),
    ("version-2", "index 2\n"),
    ("first-line-longer", "index 1 \n"),
    ("first-line-with-cr", "index 1\r\n"),
    ("empty-line-first", "\nindex 1\n"),
    ("empty-line", "index 1\nM main\nS - module\n\n"),
    ("unknown-letter", "index 1\nM main\nS - module\nX\n"),
    ("scope-before-module", "index 1\nS - module\n"),
    ("type-before-module", "index 1\nT felt\n"),
    ("definition-before-module", "index 1\nD 0 a 0 0 0 0 loop\n"),
    (
        "expression-before-module",
        "index 1\nE 0 0 0 - - plain - - bool\n",
    ),
    (
        "type-behind-definition",
        "index 1\nM main\nS - module\nD 0 a 0 0 0 0 loop\nT felt\n",
    ),
    (
        "definition-behind-expression",
        "index 1\nM main\nS - module\nE 0 0 0 - - plain - - bool\nD 0 a 0 0 0 0 loop\n",
    ),
    (
        "module-behind-question",
        "index 1\nM main\nS - module\nQ def 0 0\nM other\n",
    ),
    (
        "same-module",
        "index 1\nM main\nS - module\nM main\nS - module\n",
    ),
    (
        "last-line-without-lf",
        "index 1\nM main\nS - module\nT felt",
    ),
    (
        "module-without-scope",
        "index 1\nM main\nS - module\nM other\n",
    ),
    ("first-scope-with-parent", "index 1\nM main\nS 0 function\n"),
    (
        "second-scope-without-parent",
        "index 1\nM main\nS - module\nS - module\n",
    ),
    ("type-of-itself", "index 1\nM main\nS - module\nT ptr 0\n"),
    (
        "form-before-link",
        "index 1\nM main\nS - module\nT ptr 9\nX\n",
    ),
    (
        "first-link-counts",
        "index 1\nM main\nS - module\nS 7 block\nT ptr 9\n",
    ),
    (
        "path-without-value",
        "index 1\nM main\nS - module\nD 0 a 0 0 0 0 let - - - 1\n",
    ),
];

/// Faults that need many items: 3 before 4 in a line of right form.
fn items() -> Vec<(&'static str, String)> {
    let most = format!(
        "index 1\nM main\nS - module\nT felt\nT tuple{}\n",
        " 0".repeat(2048)
    );
    let scopes = format!("index 1\nM main\nS - module\n{}", "S 0 block\n".repeat(127));
    vec![
        ("items-in-a-wrong-form", format!("{most}T tuple 0 x\n")),
        ("items-in-a-right-form", format!("{most}T tuple 0\n")),
        (
            "items-in-a-wrong-place",
            format!("{most}D 0 a 0 0 0 0 loop\nT tuple 0\n"),
        ),
        (
            "no-items-in-a-wrong-place",
            format!("{most}D 0 a 0 0 0 0 loop\nT tuple\n"),
        ),
        ("items-without-lf", format!("{most}T tuple 0")),
        ("scopes-and-a-wrong-form", format!("{scopes}S nonsense\n")),
        ("too-long-and-a-wrong-first-line", "x".repeat(65_537)),
    ]
}

/// The file with this line under test, whose fields are parted by tabs.
fn with_line(line: &str) -> String {
    let mut text = "index\t1\n".to_string();
    for (kind, lines) in RIGHT {
        text.push_str(&lines.replace(' ', "\t"));
        if line.starts_with(*kind) {
            text.push_str(line);
            text.push('\n');
        }
    }
    text
}

/// The line with its fields changed in one place, by name.
fn variants(line: &str) -> Vec<(String, String)> {
    let fields: Vec<&str> = line.split(' ').collect();
    let mut variants = vec![("longer".to_string(), format!("{}\t0", fields.join("\t")))];
    for (at, field) in fields.iter().enumerate().skip(1) {
        let mut changed = |name: String, value: Option<&str>| {
            let mut fields = fields.clone();
            fields.splice(at..=at, value);
            variants.push((format!("{at}-{name}"), fields.join("\t")));
        };
        changed("missing".to_string(), None);
        let is_number = *field == "-" || field.bytes().all(|byte| byte.is_ascii_digit());
        let values = if is_number { NUMBERS } else { WORDS };
        for (number, value) in values.iter().enumerate() {
            changed(format!("{number}"), Some(value));
        }
    }
    variants
}

pub fn files() -> Vec<Fixed> {
    let whole = WHOLE.iter().map(|(name, text)| (*name, text.to_string()));
    let whole = whole.chain(items()).map(|(name, text)| Fixed {
        name: format!("wrong-{name}"),
        text: text.replace(' ', "\t"),
    });
    whole.chain(changed_lines(LINES)).collect()
}

/// The same for the question `at`, by themselves: the others stay what they were.
pub fn files_of_at() -> Vec<Fixed> {
    changed_lines(LINES_OF_AT).collect()
}

fn changed_lines(lines: &'static [&'static str]) -> impl Iterator<Item = Fixed> {
    lines.iter().flat_map(|line| {
        let form = line.replace(' ', "_");
        let variants = variants(line).into_iter();
        variants.map(move |(name, changed)| Fixed {
            name: format!("wrong-{form}-{name}"),
            text: with_line(&changed),
        })
    })
}
