//! `typetool hover`.

#![cfg(originals)]

mod common;

use common::fails;

#[cfg(not(feature = "library"))]
#[test]
fn without_the_library_it_says_what_to_build() {
    for words in [&[][..], &["a.cm:1"], &["a.cm"]] {
        fails(
            "hover",
            words,
            "`rt lib` in the repository's folder crates/export",
        );
        fails(
            "hover",
            words,
            "cargo build --offline --release --features library",
        );
    }
}

#[cfg(feature = "library")]
mod with_library {
    use super::common::{file, prints};
    use super::*;

    const SUM: &str = "fn f(a: u32) -> u32 {\n    // \u{e9}\n    return a +\n        1;\n}\n";

    #[test]
    fn by_line_and_column_and_by_byte() {
        let path = file("hover.cm", SUM);
        let a = format!("{path}:3:12-3:13 (bytes 43 to 44): u32\n    a\n");
        let sum = format!("{path}:3:12-4:10 (bytes 43 to 56): u32\n    a +\n            1\n");
        for (place, owed) in [
            ("3:12", &a),
            ("43", &a),
            ("3:13", &sum),
            ("3:14", &sum),
            ("45", &sum),
            // The LF of the line, and the blanks in front of the 1.
            ("3:15", &sum),
            ("4:1", &sum),
        ] {
            prints("hover", &[&format!("{path}:{place}")], owed);
        }
        prints("hover", &[&format!("other={path}:43")], &a);
    }

    #[test]
    fn none() {
        let path = file("none.cm", SUM);
        // Behind the sum, the end of a line and no column of it, behind the last line, the end and behind.
        for place in [
            "0",
            "1:1",
            "4:10",
            "2:8",
            "2:9",
            "3:16",
            "3:999",
            "5:2",
            "6:1",
            "7:1",
            "999:1",
            "59",
            "60",
            "4294967296",
            "99999999999999999999",
            "1:99999999999999999999",
        ] {
            prints("hover", &[&format!("{path}:{place}")], "none\n");
        }
        prints(
            "hover",
            &[&format!("{}:0", file("nothing.cm", ""))],
            "none\n",
        );
    }

    #[test]
    fn names_of_structs_and_functions_of_other_files() {
        let programs = common::in_workspace("programs/shop");
        let path = |name: &str| programs.join(name).display().to_string();
        let (main, basket, tax) = (path("main.cm"), path("basket.cm"), path("tax.cm"));
        let shown = |place: &str, owed: &str| {
            let words = [&format!("{main}:{place}"), &basket, &tax];
            prints(
                "hover",
                &words.map(String::as_str),
                &format!("{main}:{owed}\n"),
            );
        };
        shown(
            "7:17",
            "7:17-7:23 (bytes 202 to 208): fn basket.weight\n    weight",
        );
        shown(
            "8:15",
            "8:15-8:21 (bytes 235 to 241): struct basket.Basket\n    basket",
        );
        shown(
            "12:16",
            "12:16-12:23 (bytes 336 to 343): error\n    missing",
        );
    }

    #[test]
    fn a_refusal_is_printed() {
        let path = file("ring.cm", "const a = a;\n");
        let owed = "refused with 7: the type is needed to find itself: a ring";
        let owed = format!("{path}:1:11-1:12 (bytes 10 to 11): {owed}\n    a\n");
        prints("hover", &[&format!("{path}:1:11")], &owed);
    }

    #[test]
    fn wrong_places() {
        let path = file("wrong.cm", "const a = 1;\n");
        fails("hover", &[], "no place is named");
        fails("hover", &["--fast"], "unknown option --fast");
        fails(
            "hover",
            &[&path],
            "is neither FILE:LINE:COLUMN nor FILE:BYTE",
        );
        fails("hover", &[&format!("{path}:")], "is neither");
        fails("hover", &[&format!("{path}:x")], "is neither");
        fails("hover", &[&format!("{path}:1:x")], "is neither");
        fails("hover", &[&format!("{path}:0:1")], "there is no line 0");
        fails("hover", &[&format!("{path}:1:0")], "there is no column 0");
        fails(
            "hover",
            &[&format!("{path}:-1:1")],
            "wrong.cm:-1: No such file",
        );
    }

    #[test]
    fn wrong_files() {
        fails("hover", &["nowhere.cm:1:1"], "nowhere.cm: No such file");
        let right = file("right.cm", "const a = 1;\n");
        let place = format!("{right}:1");
        fails("hover", &[&place, "nowhere.cm"], "nowhere.cm: No such file");
        fails(
            "hover",
            &[&place, &right],
            "two modules are named \"right\"",
        );
        let path = file("two.cm", "fn f( {\nfn g( {\n");
        fails("hover", &[&format!("{path}:1")], "two.cm:1:7: unexpected");
        fails("hover", &[&place, &path], "two.cm:1:7: unexpected");
        let path = file("odd hover.cm", "const a = 1;\n");
        fails(
            "hover",
            &[&format!("{path}:1")],
            "\"odd hover\" can't be written: byte 20",
        );
        let many: String = (0..300).map(|n| format!("fn f{n}() {{}}\n")).collect();
        let path = file("scopes.cm", &many);
        fails(
            "hover",
            &[&format!("{path}:1")],
            "301 scopes: 173 more than the 128",
        );
        fails(
            "hover",
            &[&format!("{path}:999:1")],
            "; 300 definitions: 44 more than the 256",
        );
        // A path may have an LF.
        fails("hover", &["no\nwhere.cm:1:1"], "no; where.cm: No such file");
        fails(
            "hover",
            &[&place, "no\nwhere.cm"],
            "no; where.cm: No such file",
        );
        fails("hover", &["--fa\nst"], "unknown option --fa; st");
        let path = file("two\nlines.cm", "fn f( {\n");
        fails("hover", &[&format!("{path}:1")], "lines.cm:1:7: unexpected");
        // Nested more deeply than the stack of the library's thread would bear.
        let deep = format!("const a = {}1{};", "(".repeat(5_000), ")".repeat(5_000));
        let path = file("deep.cm", &deep);
        fails("hover", &[&format!("{path}:10")], "5001 expressions");
    }
}
