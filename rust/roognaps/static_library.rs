// Included by build scripts, behind originals.rs: where the static libraries of the proved crates stand.

/// Links the static library of a proved crate: the one in the crate's folder out/, or in the folder that
/// `EXPORT_LIB` names. Where it isn't there, the build ends with one line that says what makes it. `ROOGNAPS_UNLINKED=1` is for `cargo check`, `clippy` and `doc`, which link nothing.
fn link_static_library(name: &str) {
    println!("cargo::rerun-if-env-changed=EXPORT_LIB");
    println!("cargo::rerun-if-env-changed=ROOGNAPS_UNLINKED");
    if std::env::var_os("ROOGNAPS_UNLINKED").is_some() {
        return;
    }
    let here = std::env::var("CARGO_MANIFEST_DIR").expect("cargo sets it");
    let folder = match std::env::var("EXPORT_LIB") {
        Ok(folder) => PathBuf::from(folder),
        Err(_) => {
            let repository = Path::new(&here).ancestors().nth(2);
            repository
                .expect("a crate of rust/")
                .join("crates")
                .join(name)
                .join("out")
        }
    };
    let library = folder.join(format!("lib{name}.a"));
    println!("cargo::rerun-if-changed={}", library.display());
    let Ok(library) = library.canonicalize() else {
        println!(
            "cargo::error={} isn't there: run `rt lib` in the repository's folder crates/{name}, \
             which proves the library and makes it, or name its folder in EXPORT_LIB",
            library.display()
        );
        return;
    };
    let folder = library.parent().expect("a folder and a name");
    println!("cargo::rustc-link-search=native={}", folder.display());
    println!("cargo::rustc-link-lib=static={name}");
}
