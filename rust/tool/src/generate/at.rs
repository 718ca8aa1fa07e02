//! Files about the question `at`: one small file for each sentence about it, with the lines owed, and
//! random ones. Which expression is found is told by its type, so those of one file mostly differ.

use index_file::compared::misled_children;
use index_file::limits;
use index_file::load::load;
use index_file::records::{Expr, Index, Module, Question};

use super::{Fixed, Random};

/// Name, lines behind the first (blanks for tabs), and what the questions are answered with, without
/// the lead fields.
pub struct Case {
    pub name: &'static str,
    pub lines: String,
    pub answers: Vec<&'static str>,
}

/// Records behind `M main` and `S - module`, questions, answers.
const CASES: &[(&str, &str, &[&str])] = &[
    (
        "start-is-in-end-is-out",
        "E 0 5 8 - - plain - - bool\nQ at 0 4\nQ at 0 5\nQ at 0 7\nQ at 0 8\nQ at 0 9\n",
        &["none", "type bool", "type bool", "none", "none"],
    ),
    (
        "one-byte",
        "E 0 0 1 - - plain - - bool\nQ at 0 0\nQ at 0 1\n",
        &["type bool", "none"],
    ),
    (
        "the-shortest",
        "E 0 0 10 - - plain - - tuple\nE 0 2 6 - - plain - - lit -\nE 0 3 4 - - plain - - bool\n\
         Q at 0 1\nQ at 0 2\nQ at 0 3\nQ at 0 4\nQ at 0 5\nQ at 0 6\nQ at 0 9\nQ at 0 10\n",
        &[
            "type ()",
            "type felt",
            "type bool",
            "type felt",
            "type felt",
            "type ()",
            "type ()",
            "none",
        ],
    ),
    (
        "the-shortest-first",
        "E 0 3 4 - - plain - - bool\nE 0 2 6 - - plain - - lit -\nE 0 0 10 - - plain - - tuple\n\
         Q at 0 1\nQ at 0 2\nQ at 0 3\nQ at 0 4\nQ at 0 6\n",
        &["type ()", "type felt", "type bool", "type felt", "type ()"],
    ),
    // A higher number doesn't help a longer span, by one byte at either end.
    (
        "longer-by-one-byte",
        "E 0 4 6 - - plain - - bool\nE 0 4 7 - - plain - - lit -\nE 0 3 6 - - plain - - tuple\n\
         Q at 0 3\nQ at 0 4\nQ at 0 5\nQ at 0 6\n",
        &["type ()", "type bool", "type bool", "type felt"],
    ),
    (
        "one-span-twice",
        "E 0 2 6 - - plain - - bool\nE 0 2 6 - - plain - - lit -\nE 0 0 9 - - plain - - tuple\n\
         Q at 0 1\nQ at 0 2\nQ at 0 5\nQ at 0 6\n",
        &["type ()", "type felt", "type felt", "type ()"],
    ),
    // The highest number wins wherever they start: here the one that starts later, below the other.
    (
        "equally-short-the-later-start",
        "E 0 2 6 - - plain - - bool\nE 0 4 8 - - plain - - lit -\n\
         Q at 0 1\nQ at 0 3\nQ at 0 4\nQ at 0 5\nQ at 0 6\nQ at 0 7\nQ at 0 8\n",
        &[
            "none",
            "type bool",
            "type felt",
            "type felt",
            "type felt",
            "type felt",
            "none",
        ],
    ),
    (
        "equally-short-the-earlier-start",
        "E 0 4 8 - - plain - - bool\nE 0 2 6 - - plain - - lit -\n\
         Q at 0 3\nQ at 0 4\nQ at 0 5\nQ at 0 6\nQ at 0 7\n",
        &[
            "type felt",
            "type felt",
            "type felt",
            "type bool",
            "type bool",
        ],
    ),
    (
        "three-equally-short",
        "E 0 1 5 - - plain - - bool\nE 0 3 7 - - plain - - lit -\nE 0 2 6 - - plain - - tuple\n\
         Q at 0 1\nQ at 0 2\nQ at 0 4\nQ at 0 5\nQ at 0 6\n",
        &["type bool", "type ()", "type ()", "type ()", "type felt"],
    ),
    // Neither the start nor the end of an empty span is covered.
    (
        "empty-span",
        "E 0 5 5 - - plain - - bool\nE 0 0 0 - - plain - - bool\nQ at 0 0\nQ at 0 4\nQ at 0 5\nQ at 0 6\n",
        &["none", "none", "none", "none"],
    ),
    (
        "empty-span-in-another",
        "E 0 0 9 - - plain - - lit -\nE 0 5 5 - - plain - - bool\nQ at 0 4\nQ at 0 5\nQ at 0 6\n",
        &["type felt", "type felt", "type felt"],
    ),
    (
        "reversed-span",
        "E 0 7 4 - - plain - - bool\nQ at 0 3\nQ at 0 4\nQ at 0 5\nQ at 0 6\nQ at 0 7\nQ at 0 8\n",
        &["none", "none", "none", "none", "none", "none"],
    ),
    (
        "reversed-span-in-another",
        "E 0 0 9 - - plain - - lit -\nE 0 7 4 - - plain - - bool\nE 0 6 5 - - plain - - bool\n\
         Q at 0 4\nQ at 0 5\nQ at 0 6\nQ at 0 7\n",
        &["type felt", "type felt", "type felt", "type felt"],
    ),
    // As numbers of 32 bits these reversed spans would have the lengths 1 and 2.
    (
        "reversed-span-around-the-end",
        "E 0 4294967295 0 - - plain - - bool\nE 0 4294967295 1 - - plain - - bool\n\
         Q at 0 4294967295\nQ at 0 0\nQ at 0 1\n",
        &["none", "none", "none"],
    ),
    // No span covers the last position, since its end would have to be 2^32.
    (
        "the-last-positions",
        "E 0 0 4294967295 - - plain - - tuple\nE 0 4294967294 4294967295 - - plain - - bool\n\
         Q at 0 0\nQ at 0 4294967293\nQ at 0 4294967294\nQ at 0 4294967295\n",
        &["type ()", "type ()", "type bool", "none"],
    ),
    (
        "absent-module",
        "E 0 0 9 - - plain - - bool\nQ at 1 0\nQ at 7 5\nQ at 8 0\nQ at 65535 4294967295\nQ at 0 0\n",
        &["none", "none", "none", "none", "type bool"],
    ),
    (
        "empty-module",
        "T felt\nQ at 0 0\nQ at 0 7\n",
        &["none", "none"],
    ),
    // Each module has its own bytes.
    (
        "two-modules",
        "E 0 0 9 - - plain - - bool\nE 0 2 3 - - plain - - tuple\nM other\nS - module\n\
         E 0 2 5 - - plain - - lit -\nQ at 0 0\nQ at 0 2\nQ at 0 4\nQ at 1 0\nQ at 1 2\nQ at 1 4\nQ at 1 5\n",
        &[
            "type bool",
            "type ()",
            "type bool",
            "none",
            "type felt",
            "type felt",
            "none",
        ],
    ),
    (
        "module-without-expressions-between",
        "E 0 0 9 - - plain - - bool\nM second\nS - module\nT felt\nM third\nS - module\n\
         E 0 0 9 - - plain - - lit -\nQ at 0 3\nQ at 1 3\nQ at 2 3\nQ at 3 3\n",
        &["type bool", "none", "type felt", "none"],
    ),
    // An expression is asked for as it stands: its origin gives the context, what is around it doesn't.
    (
        "origin-assign",
        "T u32\nD 0 y 0 1 0 1 param 0\nE 0 10 11 - 0 plain - - ident y\n\
         E 0 14 15 - - assign 0 - lit -\nE 0 16 17 - - plain - - lit -\n\
         Q at 0 10\nQ at 0 14\nQ at 0 16\n",
        &["type u32", "type u32", "type felt"],
    ),
    (
        "origin-argument",
        "T u32\nD 0 f 0 1 0 1 fn 0 a 0\nE 0 10 11 - 0 plain - - ident f\n\
         E 0 12 13 - - arg 0 0 lit -\nE 0 10 13 - - plain - - call 0 1\n\
         Q at 0 10\nQ at 0 11\nQ at 0 12\n",
        &["type fn:0.0", "type u32", "type u32"],
    ),
    (
        "origin-field-return-and-condition",
        "S 0 function\nT u32\nD 0 P 0 1 0 1 struct p 0\nD 0 f 0 1 0 1 fn 0\n\
         E 1 10 20 - - plain - - slit P 10 11\nE 1 12 13 - - field 0 p lit -\n\
         E 1 30 31 - - return - - lit -\nE 1 40 41 - - cond - - lit -\n\
         Q at 0 11\nQ at 0 12\nQ at 0 30\nQ at 0 40\n",
        &["type struct:0.0", "type u32", "type u32", "type felt"],
    ),
    (
        "expected-type",
        "T u32\nE 0 3 4 0 - plain - - lit -\nE 0 5 6 - - plain - - lit -\nQ at 0 3\nQ at 0 5\n",
        &["type u32", "type felt"],
    ),
    // The number of `1 + y` alone is felt, the sum u32.
    (
        "no-context-from-outside",
        "T u32\nD 0 y 0 1 0 1 param 0\nE 0 24 25 - 0 plain - - ident y\n\
         E 0 20 21 - - plain - - lit -\nE 0 20 25 - - plain - - bin + 1 0\n\
         Q at 0 20\nQ at 0 21\nQ at 0 22\nQ at 0 24\nQ at 0 25\n",
        &["type felt", "type u32", "type u32", "type u32", "none"],
    ),
    // Spans decide, not the tree: here the parent's is the shorter one.
    (
        "a-parent-inside-its-child",
        "E 0 0 9 - - plain - - lit -\nE 0 3 5 - - plain - - tuple 0\nQ at 0 2\nQ at 0 3\nQ at 0 5\n",
        &["type felt", "type (felt)", "type felt"],
    ),
    // Nor do scopes.
    (
        "any-scope",
        "S 0 function\nS 1 block\nE 2 0 9 - - plain - - bool\nE 0 3 4 - - plain - - lit -\n\
         E 1 5 6 - - plain - - tuple\nQ at 0 2\nQ at 0 3\nQ at 0 5\n",
        &["type bool", "type felt", "type ()"],
    ),
    // `const a = a;`, and a missing operand; what covers the byte besides isn't asked.
    (
        "refused-7-and-6",
        "D 0 a 6 7 0 12 const - 0\nE 0 10 11 - 0 plain - - ident a\nE 0 20 30 - - plain - - un ! -\n\
         E 0 22 23 - - plain - - bool\nE 0 9 12 - - plain - - bool\n\
         Q at 0 9\nQ at 0 10\nQ at 0 11\nQ at 0 20\nQ at 0 22\nQ at 0 30\n",
        &[
            "type bool",
            "refused 7",
            "type bool",
            "refused 6",
            "type bool",
            "none",
        ],
    ),
    (
        "among-other-questions",
        "T u32\nD 0 y 0 1 0 1 param 0\nE 0 5 6 - 0 plain - - ident y\nE 0 4 7 - - plain - - bool\n\
         Q at 0 4\nQ expr 0 0 -\nQ at 0 5\nQ def 0 0\nQ at 0 9\nQ type 0 0 0\nQ at 0 5\nQ expr 0 1 -\n",
        &[
            "type bool",
            "type u32",
            "type u32",
            "type u32",
            "none",
            "type u32",
            "type u32",
            "type bool",
        ],
    ),
];

/// 256 records in each of two modules: the first is the shortest in one, the last of equal ones is
/// found in the other.
fn many() -> String {
    let others = "E 0 0 9 - - plain - - bool\n".repeat(255);
    format!(
        "E 0 3 4 - - plain - - lit -\n{others}M other\nS - module\n{others}\
         E 0 0 9 - - plain - - lit -\nQ at 0 3\nQ at 0 2\nQ at 1 3\nQ at 1 8\nQ at 1 9\n"
    )
}

/// So many parentheses around each other, from the innermost on, each one byte longer to the right.
fn parentheses(count: usize) -> String {
    let mut lines = "E 0 0 1 - - plain - - bool\n".to_string();
    for number in 1..=count {
        let (end, child) = (number + 1, number - 1);
        lines.push_str(&format!("E 0 0 {end} - - plain - - paren {child}\n"));
    }
    let last = count - 1;
    format!("{lines}Q at 0 {count}\nQ at 0 {last}\nQ at 0 0\n")
}

/// A cast to so many arrays of felt, and to one of them.
fn arrays(count: usize) -> String {
    let sizes = || 1..=count;
    let arrays: String = sizes().map(|size| format!("T array 0 {size}\n")).collect();
    let tuple: String = sizes().map(|number| format!(" {number}")).collect();
    let last = count + 1;
    format!(
        "T felt\n{arrays}T tuple{tuple}\nE 0 0 1 - - plain - - cast {last}\n\
         E 0 1 2 - - plain - - cast 1\nQ at 0 0\nQ at 0 1\n"
    )
}

/// A cast to a tuple of so many felts, whose text has 5 bytes for each and one more.
fn text(felts: usize) -> String {
    let felts = " 0".repeat(felts);
    format!("T felt\nT tuple{felts}\nE 0 7 8 - - plain - - cast 1\nQ at 0 7\nQ at 0 8\n")
}

pub fn cases() -> Vec<Case> {
    let case = |name, records: &str, answers: &[&'static str]| Case {
        name,
        lines: format!("M main\nS - module\n{records}"),
        answers: answers.to_vec(),
    };
    let mut cases = vec![Case {
        name: "no-modules",
        lines: "Q at 0 0\nQ at 65535 7\n".to_string(),
        answers: vec!["none", "none"],
    }];
    let written = CASES.iter();
    cases.extend(written.map(|(name, records, answers)| case(name, records, answers)));
    let found = ["type felt", "type bool", "type felt", "type felt", "none"];
    let bools = ["type bool"; 3];
    cases.extend([
        case("many-records", &many(), &found),
        case("depth-reached", &parentheses(255), &bools),
        case(
            "depth-passed",
            &parentheses(256),
            &["refused 8", "type bool", "type bool"],
        ),
        case(
            "types-passed",
            &arrays(250),
            &["refused 9", "type [felt;1]"],
        ),
        case("text-reached", &text(819), &["type (felt,", "none"]),
        case("text-passed", &text(820), &["refused 10", "none"]),
    ]);
    cases
}

/// The cases as files.
pub fn files() -> Vec<Fixed> {
    let cases = cases().into_iter();
    let files = cases.map(|case| Fixed {
        name: format!("at-{}", case.name),
        text: format!("index 1\n{}", case.lines).replace(' ', "\t"),
    });
    files.collect()
}

/// The last position that there is.
const LAST: u64 = limits::POSITION - 1;

/// An accepted file with most of its questions replaced by `at`, in half of the files after some spans
/// were changed.
pub fn asked(random: &mut Random, bytes: &[u8]) -> Vec<u8> {
    let mut index = load(bytes).expect("an accepted file");
    let mut changed = Vec::new();
    if random.percent(50) {
        for _ in 0..random.between(2, 24) {
            changed.extend(change_span(random, &mut index));
        }
    }
    for number in 0..index.questions.len() {
        if random.percent(85) {
            index.questions[number] = question(random, &index, &changed);
        }
    }
    index.to_text().into_bytes()
}

/// An expression, by module and number.
type Place = (usize, usize);

/// Changes one span, unless the Rust would then take another expression for a child: such files
/// aren't compared. None if nothing is changed.
fn change_span(random: &mut Random, index: &mut Index) -> Option<Place> {
    let module = random.below(index.modules.len());
    let expressions = &index.modules[module].expressions;
    if expressions.is_empty() {
        return None;
    }
    let changed = random.below(expressions.len());
    // Of a few the shortest, which is found more often.
    let others = [0; 4].map(|_| random.pick(expressions).span);
    let other = others.into_iter().min_by_key(|span| length(*span));
    let span = span_beside(random, other.expect("there are four"));
    let misled = misled_children(index).len();
    let record = &mut index.modules[module].expressions[changed];
    let before = std::mem::replace(&mut record.span, span);
    if misled_children(index).len() > misled {
        index.modules[module].expressions[changed].span = before;
        return None;
    }
    Some((module, changed))
}

/// The bytes of a span; of one without bytes more than any has.
fn length((start, end): (u64, u64)) -> u64 {
    match end.checked_sub(start) {
        Some(length) if length > 0 => length,
        _ => u64::MAX,
    }
}

/// The same span, one as long or nearly so, one that has no bytes, or one at the end of all positions.
fn span_beside(random: &mut Random, (start, end): (u64, u64)) -> (u64, u64) {
    let near = random.below(4) as u64;
    let length = end.saturating_sub(start);
    let (start, end) = match random.below(10) {
        0 | 1 => (start, end),
        2 | 3 => (start + near, start + near + length),
        4 => (start, end + 1),
        5 => (start + 1, end),
        6 => (start, start),
        7 => (end, start),
        8 => (LAST - near, LAST),
        _ => (LAST, near),
    };
    (start.min(LAST), end.min(LAST))
}

/// Mostly about a module that is there; where spans were changed, often about one of them.
fn question(random: &mut Random, index: &Index, changed: &[Place]) -> Question {
    if !changed.is_empty() && random.percent(50) {
        let (module, expression) = *random.pick(changed);
        let record = &index.modules[module].expressions[expression];
        let position = position_by(random, record.span);
        return Question::At { module, position };
    }
    let module = match random.percent(4) {
        true => random.between(index.modules.len(), 65_535),
        false => random.below(index.modules.len()),
    };
    let absent = Module::default();
    let records = index.modules.get(module).unwrap_or(&absent);
    let position = position(random, &records.expressions);
    Question::At { module, position }
}

/// A byte at the border of some expression, in it, or anywhere.
fn position(random: &mut Random, expressions: &[Expr]) -> u64 {
    if expressions.is_empty() || random.percent(5) {
        return *random.pick(&[0, 1, 7, 40, 65_536, LAST - 1, LAST]);
    }
    let span = random.pick(expressions).span;
    position_by(random, span)
}

/// A byte at the border of a span, or in it.
fn position_by(random: &mut Random, (start, end): (u64, u64)) -> u64 {
    let position = match random.below(8) {
        0 | 1 => start,
        2 => start.saturating_sub(1),
        3 => end.saturating_sub(1),
        4 => end,
        5 => end + 1,
        _ => start + random.below(end.saturating_sub(start).max(1) as usize) as u64,
    };
    position.min(LAST)
}
