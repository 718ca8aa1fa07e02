//! Links the static library of the crate `lookup_bench`, which is for this benchmark alone; that of `export`
//! comes with the crate `roognaps`. Sets `cfg(originals)` where the original sources are reachable.

include!("../compiler/originals.rs");
include!("../compiler/reachable.rs");
include!("../roognaps/static_library.rs");

fn main() {
    originals_are_reachable();
    link_static_library("lookup_bench");
}
