//! Links the static library of the crate `export`. With the feature `export` sets `cfg(originals)` where
//! the original sources are reachable.

include!("../compiler/originals.rs");
include!("../compiler/reachable.rs");
include!("static_library.rs");

fn main() {
    match std::env::var_os("CARGO_FEATURE_EXPORT") {
        Some(_) => _ = originals_are_reachable(),
        None => println!("cargo::rustc-check-cfg=cfg(originals)"),
    }
    link_static_library("export");
}
