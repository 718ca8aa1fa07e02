//! Files at the limits of document 01: each limit exactly reached, and passed by one.

mod file_limits;
mod question_limits;

use super::Fixed;

/// The first lines of most files; blanks stand for tabs until the end.
const HEAD: &str = "index 1\nM main\nS - module\n";

/// Each limit with the file that lies this far over it, 0 or 1.
fn cases(over: usize) -> Vec<(&'static str, String)> {
    let mut cases = file_limits::records(over);
    cases.extend(file_limits::parts(over));
    cases.extend(question_limits::open_demands(over));
    cases.extend(question_limits::types(over));
    cases
}

/// For each limit the file that reaches it, then for each limit the file that passes it.
pub fn files() -> Vec<Fixed> {
    let mut files = Vec::new();
    for (over, end) in [(0, "reached"), (1, "passed")] {
        files.extend(cases(over).into_iter().map(|(name, text)| Fixed {
            name: format!("limit-{}-{end}", name.replace(' ', "-")),
            text: text.replace(' ', "\t"),
        }));
    }
    files
}
