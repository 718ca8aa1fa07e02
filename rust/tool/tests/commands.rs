//! The commands, their errors and exit statuses.

mod common;

use std::ffi::OsStr;
use std::fs::File;
use std::os::unix::ffi::OsStrExt;
use std::process::{Command, Stdio};

use common::run;

#[test]
fn help_of_every_command() {
    let (status, usage, _) = run(&["--help"]);
    assert_eq!(status, 0);
    let names: Vec<&str> = usage
        .lines()
        .skip(1)
        .filter_map(|line| line.split_whitespace().next())
        .collect();
    assert!(names.len() >= 8, "{usage}");
    for name in names {
        let (status, help, _) = run(&[name, "--help"]);
        assert_eq!(status, 0, "{name}");
        assert!(
            help.starts_with(&format!("usage: typetool {name}")),
            "{help}"
        );
        assert!(help.contains("exit status"), "{help}");
    }
}

/// Status 2 and a line that says what is wrong.
fn fails(arguments: &[&str], message: &str) {
    let (status, _, error) = run(arguments);
    assert_eq!(status, 2, "{arguments:?}: {error}");
    assert!(error.contains(message), "{arguments:?}: {error}");
}

#[test]
fn wrong_arguments() {
    fails(&[], "usage: typetool COMMAND");
    fails(&["nonsense"], "\"nonsense\" is no command");
    fails(&["gen", "nonsense", "1"], "\"nonsense\" is no kind of file");
    fails(&["gen", "records", "x"], "\"x\" is no number");
    fails(&["gen", "records"], "see `typetool gen --help`");
    fails(&["gen", "fixed", "x"], "no fixed file is named \"x\"");
    fails(&["gen", "records", "1", "--fast"], "unknown option --fast");
    fails(&["vectors", "check", "no-such-folder"], "no-such-folder: ");
    fails(&["vectors"], "see `typetool vectors --help`");
    fails(&["corpus", "check", "no-such-folder"], "no-such-folder: ");
    fails(&["mutate"], "0 arguments instead of 1");
}

/// Status 2 and one line on standard error.
fn fails_with_one_line(command: &mut Command, message: &str) {
    let output = command.stderr(Stdio::piped()).spawn();
    let output = output.and_then(std::process::Child::wait_with_output);
    let output = output.expect("the tool runs");
    let error = String::from_utf8_lossy(&output.stderr);
    assert_eq!(output.status.code(), Some(2), "{error}");
    assert!(error.contains(message), "{error}");
    assert_eq!(error.lines().count(), 1, "{error}");
}

#[test]
fn arguments_that_are_not_utf_8() {
    let word = OsStr::from_bytes(b"a\xff.cm:1");
    for words in [&["hover"][..], &["name"], &["gen"], &[]] {
        let mut command = Command::new(env!("CARGO_BIN_EXE_typetool"));
        let command = command.args(words).arg(word);
        fails_with_one_line(command, "\"a\\xFF.cm:1\" isn't UTF-8");
    }
}

#[cfg(target_os = "linux")]
#[test]
fn output_that_cannot_be_written() {
    let vectors = common::in_workspace("vectors/accepted-1.txt");
    let vectors = vectors.display().to_string();
    for words in [
        &["--help"][..],
        &["gen", "--help"],
        &["gen", "records", "7"],
        &["gen", "fixed"],
        &["vectors", "list", &vectors],
    ] {
        let full = File::options().write(true).open("/dev/full");
        let full = full.expect("it is there");
        let mut command = Command::new(env!("CARGO_BIN_EXE_typetool"));
        let command = command.args(words).stdout(full);
        fails_with_one_line(command, "standard output: ");
    }
}

#[test]
fn a_closed_pipe_is_no_error() {
    let (reader, writer) = std::io::pipe().expect("a pipe");
    drop(reader);
    let mut command = Command::new(env!("CARGO_BIN_EXE_typetool"));
    let command = command.args(["gen", "records", "7"]).stdout(writer);
    let output = command.output().expect("the tool runs");
    assert_eq!(output.status.code(), Some(0));
    assert!(output.stderr.is_empty());
}

#[test]
fn generated_files_are_printed() {
    let (status, file, _) = run(&["gen", "records", "7"]);
    assert_eq!(status, 0);
    assert!(file.starts_with("index\t1\nM\tm0\n"), "{file}");
    let (_, names, _) = run(&["gen", "fixed"]);
    assert!(names.lines().any(|name| name == "row-whole-case"));
    let (status, file, _) = run(&["gen", "fixed", "row-whole-case"]);
    assert_eq!(status, 0);
    assert!(file.ends_with("Q\texpr\t0\t1\t-\n"), "{file}");
    assert!(names.lines().any(|name| name == "at-one-span-twice"));
    let (status, file, _) = run(&["gen", "fixed", "at-one-span-twice"]);
    assert_eq!(status, 0);
    assert!(file.ends_with("Q\tat\t0\t6\n"), "{file}");
}

#[cfg(not(originals))]
#[test]
fn what_needs_the_originals_says_so() {
    for arguments in [
        &["oracle"][..],
        &["export", "a.cm"],
        &["hover", "a.cm:1"],
        &["differential", "x", "1", "1"],
        &["self-check", "1", "1"],
        &["gen", "programs", "1"],
        &["gen", "at", "1"],
        &["vectors", "make", "a", "b"],
        &["corpus", "make", "a"],
    ] {
        fails(arguments, "needs the original Cairo-M sources");
    }
}

#[cfg(originals)]
mod with_originals {
    use std::os::unix::fs::PermissionsExt;
    use std::path::PathBuf;

    use super::common::file;
    use super::*;

    fn program(name: &str, end: &str) -> String {
        let tool = env!("CARGO_BIN_EXE_typetool");
        let path = file(name, &format!("#!/bin/sh\n'{tool}' oracle{end}\n"));
        let rights = std::fs::Permissions::from_mode(0o755);
        std::fs::set_permissions(&path, rights).expect("rights can be set");
        path
    }

    #[test]
    fn export_and_ask() {
        let source = file("sum.cm", "fn f(y: u32) -> u32 { return 1 + y; }\n");
        let (status, index, _) = run(&["export", &format!("main={source}")]);
        assert_eq!(status, 0);
        let index = file("sum.idx", &index);
        let (status, lines, _) = run(&["oracle", &index]);
        assert_eq!(status, 0);
        assert!(lines.starts_with("expr\t0\t0\ttype\tu32\n"), "{lines}");
        let (_, line, steps) = run(&["oracle", "--question", "1", "--steps", &index]);
        assert_eq!(line, "expr\t0\t1\ttype\tfelt\n");
        assert_eq!(steps, "1 demands, 1 open at once\n");
        let (_, line, _) = run(&["oracle", "--question", "99", &index]);
        assert_eq!(line, "refused\t5\t0\n");
    }

    #[test]
    fn export_and_ask_at() {
        let text = "fn f(y: u32) -> u32 { return 1 + y; }\n";
        let source = file("sum_at.cm", text);
        let byte = |part: &str| text.find(part).expect("it is there");
        let places = [byte("1"), byte("+"), byte("y;"), byte(";")];
        let places = places.map(|byte| format!("main:{byte}"));
        let mut arguments = vec!["export".to_string(), format!("main={source}")];
        for place in &places {
            arguments.extend(["--at".to_string(), place.clone()]);
        }
        let arguments: Vec<&str> = arguments.iter().map(String::as_str).collect();
        let (status, index, _) = run(&arguments);
        assert_eq!(status, 0);
        let index = file("sum_at.idx", &index);
        let (_, lines, _) = run(&["oracle", &index]);
        let said: Vec<&str> = lines
            .lines()
            .map(|line| line.splitn(4, '\t').last().expect("four fields"))
            .collect();
        assert_eq!(said, ["type\tfelt", "type\tu32", "type\tu32", "none"]);

        let source = format!("main={source}");
        fails(
            &["export", "--at", "5", &source],
            "\"5\" isn't `MODULE:BYTE`",
        );
        fails(
            &["export", "--at", "lib:5", &source],
            "no module is named \"lib\"",
        );
        for byte in ["x", "", "+3", "-3", " 3", "3.0"] {
            let place = format!("main:{byte}");
            let message = format!("{byte:?} is no number");
            fails(&["export", "--at", &place, &source], &message);
        }
        fails(&["export", &source, "--at"], "--at needs a value");
        for byte in ["4294967296", "99999999999999999999"] {
            let place = format!("main:{byte}");
            fails(&["export", "--at", &place, &source], "is no position");
        }
    }

    #[test]
    fn export_errors() {
        fails(&["export"], "no file is named");
        fails(&["export", "nowhere.cm"], "nowhere.cm: No such file");
        let source = file("odd name.cm", "const A = 1;\n");
        fails(
            &["export", &source],
            "\"odd name\" can't be written: byte 20",
        );
        let source = file("syntax.cm", "fn f( {\n");
        fails(&["export", &source], "syntax.cm:1:7: unexpected");
        let calls = format!("fn f() {{ {} }}\n", "f(1); ".repeat(90));
        let source = file("many.cm", &calls);
        fails(&["export", &source], "271 questions: 15 more than the 256");
        let (status, index, note) = run(&["export", "--fit", &source]);
        assert_eq!(
            (status, note.as_str()),
            (0, "256 of 271 questions written\n")
        );
        assert_eq!(
            index.lines().filter(|line| line.starts_with('Q')).count(),
            256
        );
        let (status, index, _) = run(&["export", "--skip", "256", &source]);
        assert_eq!(status, 0);
        assert_eq!(
            index.lines().filter(|line| line.starts_with('Q')).count(),
            15
        );
    }

    #[test]
    fn differential_finds_a_difference_and_reduces_it() {
        let equal = program("equal.sh", "");
        let (status, _, report) = run(&["differential", "--kind", "records", &equal, "20", "3"]);
        assert_eq!(status, 0, "{report}");
        assert!(report.contains("20 files equal"), "{report}");
        let (status, _, report) = run(&["differential", "--kind", "at", &equal, "5", "3"]);
        assert_eq!(status, 0, "{report}");
        assert!(report.contains(" none; refusals "), "{report}");
        let never = program("never.sh", " | sed 's/none$/refused\t6/'");
        let (status, output, _) = run(&["differential", "--kind", "at", &never, "0", "3"]);
        assert_eq!(status, 1);
        assert!(output.contains("none\n--- the program's"), "{output}");

        let wrong = program("wrong.sh", " | sed 's/bool$/felt/'");
        let keep = PathBuf::from(env!("CARGO_TARGET_TMPDIR")).join("kept");
        let keep = keep.display().to_string();
        let (status, output, _) = run(&[
            "differential",
            "--kind",
            "records",
            "--keep",
            &keep,
            &wrong,
            "20",
            "3",
        ]);
        assert_eq!(status, 1);
        assert!(output.contains("--- the oracle's lines"), "{output}");
        assert!(output.lines().count() < 20, "{output}");
        let (status, lines, _) = run(&["oracle", &format!("{keep}/reduced.idx")]);
        assert_eq!(status, 0);
        assert!(lines.ends_with("type\tbool\n"), "{lines}");
        fails(
            &["differential", "no-such-program", "1", "1"],
            "no-such-program: ",
        );
    }

    #[test]
    fn a_program_runs_the_vectors() {
        let folder = PathBuf::from(env!("CARGO_TARGET_TMPDIR")).join("few");
        std::fs::create_dir_all(&folder).expect("it can be made");
        let folder = folder.display().to_string();
        file(
            "few/accepted-1.txt",
            "vector one 18 19\nindex\t1\nQ\tdef\t0\t0\ndef\t0\t0\ttype\terror\n\
             vector two 8 12\nindex\t2\nrefused\t2\t1\n",
        );
        let (status, output, _) = run(&["vectors", "run", &folder, &program("same.sh", "")]);
        assert_eq!((status, output.as_str()), (0, "2 of 2 vectors equal\n"));
        let wrong = program("other.sh", " | sed 's/error/felt/'");
        let (status, output, _) = run(&["vectors", "run", &folder, &wrong]);
        assert_eq!(status, 1);
        assert_eq!(output, "one differs\n1 of 2 vectors equal\n");
        let slow = program("slow.sh", " > /dev/null; exec sleep 30");
        let (status, output, _) = run(&["vectors", "run", "--timeout", "1", &folder, &slow]);
        assert_eq!(status, 1);
        assert!(output.ends_with("0 of 2 vectors equal\n"), "{output}");
    }

    #[test]
    fn self_check_reports() {
        let (status, _, report) = run(&["self-check", "10", "5"]);
        assert_eq!(status, 0);
        assert!(report.contains("files equal"), "{report}");
        let names = report.rsplit("; ").next().unwrap_or_default();
        let numbers = names
            .split_whitespace()
            .filter_map(|word| word.parse().ok());
        let numbers: Vec<u64> = numbers.collect();
        let [latest, latest_found, by_position, by_position_found] = numbers[..] else {
            panic!("{names}");
        };
        assert!(latest > 1_000 && latest_found > 500, "{names}");
        assert!(
            by_position > 100_000 && by_position_found > 50_000,
            "{names}"
        );
    }

    /// The kept table is about today's places, every rule finds its text, and nothing is missed.
    #[test]
    fn mutation_table_is_todays() {
        let workspace = common::in_workspace(".").display().to_string();
        let (status, list, error) = run(&["mutate", "--list", &workspace]);
        assert_eq!(status, 0, "{error}");
        let table = common::in_workspace("MUTATIONS.md");
        let table = std::fs::read_to_string(table).expect("the table");
        let rows = table.lines().filter(|line| line.contains(".rs:")).count();
        let not_built = list.lines().count() - rows;
        let counts = format!("{rows} changes that are Rust ({not_built} more aren't)");
        assert!(table.contains(&counts), "{counts}");
        assert!(table.contains(", 0 missed."));
        assert!(rows >= 200, "{rows}");
        for (before, _) in typetool::mutate::rules::RULES {
            let field = format!("\t{before}\t");
            assert!(list.contains(&field), "{before:?} changes nothing");
        }
    }
}
