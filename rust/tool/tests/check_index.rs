//! The line of `check_index`, and the files that it is compared on.

mod common;

use common::run;
use typetool::check_index::line;
use typetool::generate::faults::Faults;

fn line_of(file: &str) -> String {
    line(file.replace(' ', "\t").as_bytes()).replace('\t', " ")
}

#[test]
fn lines() {
    assert_eq!(line_of(""), "refused 2 1");
    assert_eq!(line_of("index 1\n"), "accepted 0 0 0 0 0 0 0");
    assert_eq!(line_of("index 1\nM main\nX\n"), "refused 4 3");
    assert_eq!(line_of("index 1\nM main\n"), "refused 5 2");
    assert_eq!(line(&[b'x'; 65_537]), "refused\t3\t0");
    let file = "index 1\nM main\nS - module\nT felt\nT tuple 0 0\nD 0 f 0 1 0 1 fn 0 a 0 b 1\n\
        D 0 l 0 1 0 1 let - - 0 1\nE 0 0 1 - - plain - - call - 0 -\nQ def 0 0\nQ def 0 1\n";
    assert_eq!(line_of(file), "accepted 1 1 2 2 1 2 7");
}

/// Each verdict is seen often enough; the same seed gives the same files.
#[test]
fn faults_of_every_depth() {
    for new in [Faults::new, Faults::about_at] {
        let files: Vec<Vec<u8>> = new(5).take(3_000).collect();
        let again: Vec<Vec<u8>> = new(5).take(3_000).collect();
        assert_eq!(files, again);
        let share = |lead: &str| {
            let lines = files.iter().map(|file| line(file));
            lines.filter(|line| line.starts_with(lead)).count()
        };
        assert!(share("accepted\t") > 600);
        for number in 2..=5 {
            let count = share(&format!("refused\t{number}\t"));
            assert!(count > 80, "{count} refused by {number}");
        }
    }
}

/// Those of before ask no `at`, most of the others do.
#[test]
fn faults_about_at() {
    let asks = |file: &Vec<u8>| file.windows(6).any(|bytes| bytes == b"\nQ\tat\t");
    assert!(!Faults::new(5).take(1_000).any(|file| asks(&file)));
    let count = Faults::about_at(5).take(1_000).filter(asks).count();
    assert!(count > 700, "{count}");
}

#[test]
fn command() {
    let (status, counts, _) = run(&["check-index", "count", "50", "1"]);
    assert_eq!(status, 0);
    assert!(counts.starts_with("50 files: "), "{counts}");
    assert!(counts.contains("\n6 files about `at`: "), "{counts}");
    let (status, _, error) = run(&["check-index", "run", "no-such-program", "1", "1"]);
    assert_eq!(status, 2);
    assert!(error.contains("no-such-program"), "{error}");
    let (status, _, error) = run(&["check-index"]);
    assert_eq!(status, 2);
    assert!(
        error.contains("see `typetool check-index --help`"),
        "{error}"
    );
}
