//! Brings the two original files of the parser crate into OUT_DIR, unchanged. Where the originals
//! aren't reachable, this is the one build script that says so.

include!("../originals.rs");
include!("../reachable.rs");
include!("../modules.rs");

fn main() {
    if !originals_are_reachable() {
        println!(
            "cargo::warning=the originals aren't in {} (CAIRO_M_SRC names another folder): the oracle, \
             the exporter and what needs them are left out",
            originals_root().display()
        );
        return;
    }
    write_modules(&[
        module("pub", "parser", &original("parser/src/parser.rs")),
        module("pub", "db", &original("parser/src/db.rs")),
    ]);
}
