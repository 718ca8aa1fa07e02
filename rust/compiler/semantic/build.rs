//! Brings the original files of the semantic crate into OUT_DIR.
//!
//! All stay byte for byte, with two exceptions: `db.rs` loses the lines listed below (they become
//! empty, so that line numbers stay), and behind `semantic_index.rs` stands one added module that
//! may write the index's private fields.

include!("../originals.rs");
include!("../reachable.rs");
include!("../modules.rs");

/// What `db.rs` loses, by first and last line (from 1) with the text of the first line. It needs
/// the validators, the project crate or salsa's revisions, which aren't at hand.
const CUT: &[(usize, usize, &str)] = &[
    (
        21,
        21,
        "use crate::validation::validator::create_default_registry;",
    ),
    // project_validate_semantics
    (64, 99, "#[salsa::tracked]"),
    // crate_from_project
    (
        133,
        206,
        "/// Create a semantic crate from a cairo-m-project Project",
    ),
    // module_semantic_diagnostics
    (
        463,
        498,
        "/// Get semantic diagnostics for a specific module",
    ),
    // module_all_diagnostics
    (
        500,
        514,
        "/// Get all diagnostics (parse + semantic) for a specific module",
    ),
    // module_changed_since_revision
    (
        516,
        541,
        "/// Check if a specific module has changed since a given revision",
    ),
];

fn main() {
    if !originals_are_reachable() {
        return;
    }
    let source = |name: &str| original(&format!("semantic/src/{name}.rs"));
    write_modules(&[
        module("pub", "builtins", &source("builtins")),
        module("pub", "db", &cut(&source("db"))),
        module("pub", "definition", &source("definition")),
        module("pub", "place", &source("place")),
        module("pub(crate)", "semantic_errors", &source("semantic_errors")),
        module(
            "pub",
            "semantic_index",
            &with_from_records(source("semantic_index")),
        ),
        module("pub", "type_resolution", &source("type_resolution")),
        module("pub", "types", &source("types")),
    ]);
}

/// Declares the added module behind the original text.
fn with_from_records(mut semantic_index: String) -> String {
    let added = Path::new(env!("CARGO_MANIFEST_DIR")).join("src/from_records.rs");
    println!("cargo::rerun-if-changed={}", added.display());
    let path = added.display().to_string();
    semantic_index.push_str(&format!("\n#[path = {path:?}]\npub mod from_records;\n"));
    semantic_index
}

/// Empties the lines of [`CUT`].
fn cut(text: &str) -> String {
    let mut lines: Vec<&str> = text.split('\n').collect();
    for &(first, last, expected) in CUT {
        assert_eq!(
            lines[first - 1],
            expected,
            "line {first} of db.rs has changed"
        );
        for line in &mut lines[first - 1..last] {
            *line = "";
        }
    }
    lines.join("\n")
}
