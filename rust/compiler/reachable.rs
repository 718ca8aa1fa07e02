// Included by build scripts, behind originals.rs: whether all originals are there.

/// The folder of the originals, seen from a build script.
fn originals_root() -> PathBuf {
    let package = std::env::var_os("CARGO_MANIFEST_DIR").expect("cargo sets it");
    let ancestors = Path::new(&package).ancestors();
    let mut workspaces = ancestors.filter(|folder| folder.join("compiler/originals.rs").exists());
    root(workspaces.next().expect("that file is there"))
}

/// Whether all originals are there. Then the crate is compiled with `cfg(originals)`.
fn originals_are_reachable() -> bool {
    println!("cargo::rerun-if-env-changed=CAIRO_M_SRC");
    println!("cargo::rustc-check-cfg=cfg(originals)");
    let root = originals_root();
    for path in watched(&root) {
        println!("cargo::rerun-if-changed={}", path.display());
    }
    let reachable = missing(&root).is_empty();
    if reachable {
        println!("cargo::rustc-cfg=originals");
    }
    reachable
}

/// What a later build looks at: the originals that are there, and the folder that would hold the others.
/// A path that isn't there would have cargo build anew every time. (So where the folder itself is made
/// later, `touch` a build script or name it in CAIRO_M_SRC.)
fn watched(root: &Path) -> Vec<PathBuf> {
    let originals = NEEDED.iter().map(|name| original_path(root, name));
    let (mut paths, missing): (Vec<PathBuf>, Vec<PathBuf>) =
        originals.partition(|path| path.exists());
    if !missing.is_empty() && root.exists() {
        paths.push(root.to_path_buf());
    }
    paths
}
