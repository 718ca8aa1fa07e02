//! Contexts that show only in the count of open demands. A child whose answer isn't used is asked with
//! a context; where it is the parent again, the context decides whether that demand is open already
//! (7) or the one too many (8).

use super::Fixed;

/// A chain of parentheses on the expression `inner`, the first of them expression `first`.
fn parentheses(inner: usize, first: usize, count: usize) -> String {
    let mut text = String::new();
    for number in 0..count {
        let child = match number {
            0 => inner,
            _ => first + number - 1,
        };
        text.push_str(&format!(
            "E 0 1 {} - - plain - - paren {child}\n",
            number + 2
        ));
    }
    text
}

/// The records, the chain on their last expression, and the question for its top.
fn file(records: &str, inner: usize, count: usize, context: &str) -> String {
    let first = records.lines().filter(|line| line.starts_with('E')).count();
    let chain = parentheses(inner, first, count);
    let top = first + count - 1;
    format!("index 1\nM m\nS - module\nT felt\nT u32\n{records}{chain}Q expr 0 {top} {context}\n")
}

pub fn files() -> Vec<Fixed> {
    let count = "E 0 0 1 - - plain - - new 0 0\n";
    let element = "E 0 0 1 - - plain - - index 1 0\nE 0 0 2 - - plain - - bool\n";
    let condition = "E 0 0 1 - - plain - - new 0 0\nE 0 0 2 - - cond - - paren 0\n";
    let cases = [
        ("count-in-time", file(count, 0, 255, "0")),
        ("count-too-late", file(count, 0, 255, "1")),
        ("index-in-time", file(element, 0, 254, "0")),
        ("index-too-late", file(element, 0, 254, "-")),
        ("condition-in-time", file(condition, 1, 253, "-")),
        ("condition-too-late", file(condition, 1, 254, "-")),
    ];
    let files = cases.into_iter().map(|(name, text)| Fixed {
        name: format!("depth-{name}"),
        text: text.replace(' ', "\t"),
    });
    files.collect()
}
