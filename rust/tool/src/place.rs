//! A place in a source, as an argument names it behind the file.

/// A place in a text.
#[derive(Debug, Clone, Copy, PartialEq, Eq)]
pub enum Place {
    /// From 0.
    Byte(usize),
    /// Both from 1, the column counted in bytes.
    LineAndColumn { line: usize, column: usize },
}

/// The file and the place of an argument `FILE:LINE:COLUMN` or `FILE:BYTE` of a command. It is read from
/// its end, so a path may have colons.
pub fn parse<'a>(command: &str, argument: &'a str) -> Result<(&'a str, Place), String> {
    let no_place = || {
        format!(
            "{argument:?} is neither FILE:LINE:COLUMN nor FILE:BYTE; see `typetool {command} --help`"
        )
    };
    let (before, last) = argument.rsplit_once(':').ok_or_else(no_place)?;
    let last = number(last).ok_or_else(no_place)?;
    let with_line = before.rsplit_once(':');
    let with_line = with_line.and_then(|(file, line)| Some((file, number(line)?)));
    let (file, place) = match with_line {
        None => (before, Place::Byte(last)),
        Some((_, 0)) => return Err(from_1(argument, "line")),
        Some(_) if last == 0 => return Err(from_1(argument, "column")),
        Some((file, line)) => (file, Place::LineAndColumn { line, column: last }),
    };
    if file.is_empty() {
        return Err(no_place());
    }
    Ok((file, place))
}

fn from_1(argument: &str, what: &str) -> String {
    format!("{argument:?}: a {what} is counted from 1, and there is no {what} 0")
}

/// A number in decimal digits. One that is too large for a number is behind the end of any text, as the
/// largest is.
pub fn number(text: &str) -> Option<usize> {
    let digits = !text.is_empty() && text.bytes().all(|byte| byte.is_ascii_digit());
    digits.then(|| text.parse().unwrap_or(usize::MAX))
}

#[cfg(test)]
mod tests {
    use super::*;

    fn lines(line: usize, column: usize) -> Place {
        Place::LineAndColumn { line, column }
    }

    #[test]
    fn places() {
        let largest = usize::MAX;
        for (argument, file, place) in [
            ("a.cm:0", "a.cm", Place::Byte(0)),
            ("a.cm:103", "a.cm", Place::Byte(103)),
            ("a.cm:007", "a.cm", Place::Byte(7)),
            ("a.cm:7:15", "a.cm", lines(7, 15)),
            ("main=a.cm:7:15", "main=a.cm", lines(7, 15)),
            ("a:b/c:d.cm:1:2", "a:b/c:d.cm", lines(1, 2)),
            ("a:3/b.cm:1:2", "a:3/b.cm", lines(1, 2)),
            ("a:3/b.cm:1", "a:3/b.cm", Place::Byte(1)),
            ("a.cm:5:1:2", "a.cm:5", lines(1, 2)),
            ("a.cm::2", "a.cm:", Place::Byte(2)),
            ("a.cm:-1:2", "a.cm:-1", Place::Byte(2)),
            ("a.cm:18446744073709551616", "a.cm", Place::Byte(largest)),
            ("a.cm:99999999999999999999:1", "a.cm", lines(largest, 1)),
        ] {
            assert_eq!(parse("hover", argument), Ok((file, place)), "{argument}");
        }
    }

    #[test]
    fn no_places() {
        for argument in [
            "",
            ":",
            "a.cm",
            "a.cm:",
            "a.cm:x",
            "a.cm:+1",
            "a.cm:-1",
            "a.cm:1:",
            "a.cm:1:x",
            "a.cm:1: 2",
            "a.cm: 1",
            "a.cm:1.5",
            "a.cm:\u{0661}",
            ":7",
            ":7:15",
            "7",
        ] {
            let error = parse("name", argument).expect_err(argument);
            let start = format!("{argument:?} is neither FILE:LINE:COLUMN nor FILE:BYTE");
            assert!(error.starts_with(&start), "{error}");
            assert!(error.ends_with("see `typetool name --help`"), "{error}");
        }
        for (argument, what) in [
            ("a.cm:0:3", "line"),
            ("a.cm:3:0", "column"),
            ("a.cm:0:0", "line"),
        ] {
            let error = parse("hover", argument).expect_err(argument);
            assert!(error.contains(&format!("no {what} 0")), "{error}");
        }
    }
}
