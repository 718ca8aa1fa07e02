#!/bin/sh
# Fuzzes the static library with libFuzzer, guided by what the inputs reach in the Rust loader and, where
# the original sources are reachable, in the oracle. Needs cargo, python3 and clang with libFuzzer (Debian:
# clang and libclang-rt-14-dev). Arguments go to libFuzzer; without any: one million inputs, seed 1.
#
#     rust/fuzz/run.sh [-runs=N] [-seed=N] [-max_len=N] ..
#
# The inputs kept stand in target/fuzz/corpus, a failing one in target/fuzz.
set -eu
cd "$(dirname "$0")/.."
repository=$(cd .. && pwd)
made=$repository/target/fuzz
mkdir -p "$made/corpus"
library=${EXPORT_LIB:-$repository/crates/export/out}
[ -e "$library/libexport.a" ] || (cd ../crates/export && rt lib)

machine=x86_64-unknown-linux-gnu
flags="-Cpasses=sancov-module -Ccodegen-units=1"
for part in level=4 inline-8bit-counters pc-table trace-compares; do
    flags="$flags -Cllvm-args=-sanitizer-coverage-$part"
done
RUSTFLAGS=$flags cargo rustc --offline --quiet --release -p fuzz --lib --features libfuzzer \
    --crate-type staticlib --target $machine --target-dir "$made/build"
clang -fsanitize=fuzzer -o "$made/fuzz" "$made/build/$machine/release/libfuzz.a" -lpthread -ldl -lm

PYTHONPATH=$repository/tools python3 - "$made/corpus" <<'P'
import os, sys
import runs
for name in runs.VECTOR_FILES:
    for vector, file, _ in runs.vectors(name):
        with open(os.path.join(sys.argv[1], vector), "wb") as out:
            out.write(file)
P
# The oracle takes more stack than the library.
ulimit -s 524288
[ $# -gt 0 ] || set -- -runs=1000000 -seed=1
exec "$made/fuzz" -dict=fuzz/words.dict -artifact_prefix="$made/" \
    -mutate_depth=1 -max_len=20000 -print_final_stats=1 "$@" "$made/corpus"
