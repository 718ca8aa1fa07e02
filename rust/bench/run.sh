#!/bin/sh
# Proves the crates `export` and `lookup_bench`, makes their static libraries and measures them against the
# Rust. Arguments go to the measuring program; see `run.sh --help`.
set -eu
cd "$(dirname "$0")/../.."
mkdir -p target
for name in export lookup_bench; do
    (cd crates/$name && rt lib) >target/$name.log 2>&1 || {
        cat target/$name.log
        exit 1
    }
done
cd rust
exec cargo run --offline --quiet --release -p bench -- "$@"
