// Included by the build scripts of `parser` and `semantic`: brings originals into OUT_DIR as modules.

/// The text of an original.
fn original(name: &str) -> String {
    let path = original_path(&originals_root(), name);
    std::fs::read_to_string(&path).unwrap_or_else(|error| panic!("{}: {error}", path.display()))
}

fn out_dir() -> PathBuf {
    PathBuf::from(std::env::var_os("OUT_DIR").expect("cargo sets it"))
}

/// Writes one module file and returns the line that declares it.
fn module(visibility: &str, name: &str, text: &str) -> String {
    let path = out_dir().join(format!("{name}.rs"));
    std::fs::write(&path, text).expect("OUT_DIR can be written");
    let path = path.display().to_string();
    format!("#[path = {path:?}]\n{visibility} mod {name};\n")
}

/// Writes the declarations that `lib.rs` includes.
fn write_modules(declarations: &[String]) {
    let path = out_dir().join("modules.rs");
    std::fs::write(path, declarations.concat()).expect("OUT_DIR can be written");
}
