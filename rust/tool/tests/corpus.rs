//! The corpus and the vectors, as they are committed.

mod common;

use common::{in_workspace, run};
use index_file::compared::misled_children;
use index_file::coverage;
use index_file::load::load;
use index_file::vectors::Vector;
use typetool::corpus::programs;
use typetool::vectors::{FILE_BYTES, loads_as_answered, paths, read_all};

#[test]
fn corpus_holds() {
    let folder = in_workspace("programs");
    let count = programs(&folder).expect("the corpus").len();
    assert!(count >= 12, "{count}");
    let (status, output, _) = run(&["corpus", "check", &folder.display().to_string()]);
    assert_eq!((status, output), (0, format!("{count} programs checked\n")));
}

/// The bare number of `opening`, which returns felt, is expression 1 in one order of the functions
/// and expression 0 in the other. Only the order decides its type.
#[test]
fn wrong_balance() {
    let all = programs(&in_workspace("programs")).expect("the corpus");
    let line = |name: &str, number: usize| {
        let program = all.iter().find(|program| program.name == name);
        let expected = program
            .expect("it is there")
            .expected()
            .expect("it is readable");
        let text = String::from_utf8(expected).expect("it is text");
        text.lines().nth(number).expect("the line").to_string()
    };
    assert_eq!(line("balance_wrong", 1), "expr\t0\t1\ttype\tu32");
    assert_eq!(line("balance_moved", 0), "expr\t0\t0\ttype\tfelt");
}

#[test]
fn vectors_hold() {
    let folder = in_workspace("vectors");
    let count = read_all(&folder).expect("the vectors").len();
    let (status, output, _) = run(&["vectors", "check", &folder.display().to_string()]);
    assert_eq!((status, output), (0, format!("{count} vectors hold\n")));
}

#[test]
fn vectors_are_enough_and_their_files_small() {
    let folder = in_workspace("vectors");
    for path in paths(&folder).expect("the files") {
        let length = std::fs::metadata(&path).expect("the file").len();
        assert!(length <= FILE_BYTES as u64, "{}", path.display());
    }
    let all = read_all(&folder).expect("the vectors");
    let accepted = all.iter().filter(|v| load(&v.index).is_ok()).count();
    assert!(accepted >= 300, "{accepted}");
    assert!(all.len() - accepted >= 200, "{}", all.len() - accepted);
    assert!(all.iter().all(loads_as_answered));
    let readme = std::fs::read_to_string(folder.join("README.md")).expect("it is there");
    let malformed = all.len() - accepted;
    let counts = format!("{accepted} accepted files and {malformed} malformed ones");
    assert!(readme.contains(&counts), "{counts}");
}

/// The bounds that the README of the vectors promises to a program that reads them.
#[test]
fn vectors_are_as_small_as_promised() {
    let all = read_all(&in_workspace("vectors")).expect("the vectors");
    for vector in &all {
        let Vector {
            name,
            index,
            answer,
        } = vector;
        assert!(name.len() <= 80 && !name.contains(' '), "{name}");
        assert!(index.len() <= 65_537 && answer.len() <= 4_889, "{name}");
        assert!(answer.last().is_none_or(|byte| *byte == b'\n'), "{name}");
    }
    let mut names: Vec<&str> = all.iter().map(|vector| vector.name.as_str()).collect();
    names.sort_unstable();
    names.dedup();
    assert_eq!(names.len(), all.len());
}

#[test]
fn vectors_reach_every_form() {
    let all = read_all(&in_workspace("vectors")).expect("the vectors");
    for row in coverage::rows(&all) {
        assert!(row.has >= 3 && row.asks >= 3, "{row:?}");
    }
}

/// Exactly the vectors outside the set that 01 compares with the Rust are named `fields-...`.
#[test]
fn vectors_outside_the_compared_set_say_so() {
    let all = read_all(&in_workspace("vectors")).expect("the vectors");
    for vector in &all {
        let Ok(index) = load(&vector.index) else {
            continue;
        };
        let outside = !misled_children(&index).is_empty();
        assert_eq!(
            vector.name.starts_with("fields-"),
            outside,
            "{}",
            vector.name
        );
    }
}

/// On the compared set the Rust gives these answers also where it finds children by its own spans.
#[cfg(originals)]
#[test]
fn compared_vectors_hold_by_the_rusts_own_spans() {
    let all = read_all(&in_workspace("vectors")).expect("the vectors");
    let options = oracle::Options {
        real_spans: true,
        ..oracle::Options::default()
    };
    let compared = all.iter().filter(|v| !v.name.starts_with("fields-"));
    oracle::with_large_stack(|| {
        for vector in compared {
            let answer = oracle::answer_bytes(&vector.index, options);
            assert!(answer == vector.answer, "{}", vector.name);
        }
    });
}

#[cfg(originals)]
#[test]
fn vectors_are_made_again_byte_for_byte() {
    let path = |name| in_workspace(name).display().to_string();
    let (status, output, _) = run(&["vectors", "remake", &path("vectors"), &path("programs")]);
    assert_eq!(status, 0, "{output}");
}

#[cfg(originals)]
#[test]
fn programs_give_the_same_answers_through_their_files() {
    oracle::with_large_stack(|| {
        for program in programs(&in_workspace("programs")).expect("the corpus") {
            let sources = program.texts().expect("readable");
            let mut names = typetool::name_check::Counts::default();
            let result = typetool::self_check::check_round_trip(&sources, &mut names);
            assert_eq!(result, Ok(()), "{}", program.name);
            assert!(names.latest.found > 0, "{}", program.name);
            assert!(names.by_position.found > 0, "{}", program.name);
        }
    });
}
