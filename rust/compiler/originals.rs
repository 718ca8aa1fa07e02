// Where the original sources are: for the build scripts and for `typetool mutate`. They are never
// copied into this folder.

use std::path::{Path, PathBuf};

/// The originals that the build needs, named as under `crates/compiler`.
pub const NEEDED: &[&str] = &[
    "parser/src/db.rs",
    "parser/src/parser.rs",
    "semantic/src/builtins.rs",
    "semantic/src/db.rs",
    "semantic/src/definition.rs",
    "semantic/src/place.rs",
    "semantic/src/semantic_errors.rs",
    "semantic/src/semantic_index.rs",
    "semantic/src/type_resolution.rs",
    "semantic/src/types.rs",
];

/// What CAIRO_M_SRC names, seen from the workspace, or `shared/docs/src` beside the repository.
pub fn root(workspace: &Path) -> PathBuf {
    let named = std::env::var_os("CAIRO_M_SRC").unwrap_or_else(|| "../../shared/docs/src".into());
    workspace.join(named)
}

/// The file of an original below the root: in the tree `crates/compiler`, or flat as
/// `src--crates--compiler--...rs.txt`.
pub fn original_path(root: &Path, name: &str) -> PathBuf {
    let in_tree = root.join("crates/compiler").join(name);
    let flat_name = format!("src--crates--compiler--{}.txt", name.replace('/', "--"));
    let flat = root.join(flat_name);
    if flat.exists() { flat } else { in_tree }
}

/// The originals that aren't there.
pub fn missing(root: &Path) -> Vec<&'static str> {
    let needed = NEEDED.iter().copied();
    needed
        .filter(|name| !original_path(root, name).exists())
        .collect()
}
