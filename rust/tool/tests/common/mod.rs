//! Index files in tests are written with blanks for tabs; no field of an index has a blank.

#![allow(dead_code)]

use std::path::PathBuf;
use std::process::{Command, Output};

#[cfg(originals)]
pub fn ask_bytes(bytes: &[u8]) -> Vec<String> {
    let lines = oracle::with_large_stack(|| oracle::resolve(bytes, oracle::Options::default()));
    lines.iter().map(|line| line.replace('\t', " ")).collect()
}

/// The answer lines, with blanks for tabs.
#[cfg(originals)]
pub fn ask(text: &str) -> Vec<String> {
    ask_bytes(&text.replace(' ', "\t").into_bytes())
}

/// A file or folder of the workspace.
pub fn in_workspace(name: &str) -> PathBuf {
    PathBuf::from(env!("CARGO_MANIFEST_DIR"))
        .join("..")
        .join(name)
}

pub fn typetool(arguments: &[&str]) -> Output {
    let mut command = Command::new(env!("CARGO_BIN_EXE_typetool"));
    command.args(arguments).output().expect("the tool runs")
}

/// Exit status, standard output and standard error.
pub fn run(arguments: &[&str]) -> (i32, String, String) {
    let output = typetool(arguments);
    let text = |bytes: &[u8]| String::from_utf8_lossy(bytes).to_string();
    let status = output.status.code().expect("no signal");
    (status, text(&output.stdout), text(&output.stderr))
}

/// A fresh file for a test.
pub fn file(name: &str, text: &str) -> String {
    let path = PathBuf::from(env!("CARGO_TARGET_TMPDIR")).join(name);
    let folder = path.parent().expect("a folder");
    std::fs::create_dir_all(folder).expect("it can be made");
    std::fs::write(&path, text).expect("it can be written");
    path.display().to_string()
}

/// The command prints this, and nothing on standard error.
pub fn prints(command: &str, words: &[&str], owed: &str) {
    let words = [&[command], words].concat();
    let (status, printed, error) = run(&words);
    assert_eq!((status, error.as_str()), (0, ""), "{words:?}");
    assert_eq!(printed, owed, "{words:?}");
}

/// Status 2, nothing printed, and one line that says what is wrong.
pub fn fails(command: &str, words: &[&str], message: &str) {
    let words = [&[command], words].concat();
    let (status, printed, error) = run(&words);
    assert_eq!((status, printed.as_str()), (2, ""), "{words:?}: {error}");
    assert!(error.contains(message), "{words:?}: {error}");
    assert_eq!(error.lines().count(), 1, "{words:?}: {error}");
}
