#!/bin/sh
# Builds and tests the workspace, formats and lints where the tools are at hand. One line a step; the
# first failure ends it. Where the original Cairo-M sources aren't reachable, one line says so and the
# parts that need them are left out.
set -u
cd "$(dirname "$0")" || exit 1

step() {
    name=$1
    shift
    started=$(date +%s)
    if output=$("$@" 2>&1); then
        echo "$name: ok ($(($(date +%s) - started)) s)"
    else
        echo "$name: FAILED"
        echo "$output"
        exit 1
    fi
}

at_hand() {
    "$@" --version >/dev/null 2>&1
}

step build cargo build --offline
if cargo run --offline --quiet -- self-check 0 0 >/dev/null 2>&1; then
    echo "originals: reachable"
else
    echo "originals: not reachable (CAIRO_M_SRC); oracle, exporter and what needs them are left out"
fi
step test cargo test --offline
if at_hand cargo fmt; then
    step format cargo fmt --check
    step "format of build parts" rustfmt --check --edition 2024 compiler/originals.rs compiler/reachable.rs compiler/modules.rs \
        roognaps/static_library.rs
else
    echo "format: cargo fmt isn't at hand"
fi
if at_hand cargo clippy; then
    # The crates over the static library are looked at without it.
    step lint env ROOGNAPS_UNLINKED=1 cargo clippy --offline --workspace --features roognaps/export,fuzz/libfuzzer,typetool/library -- -D warnings
    step "lint of tests" cargo clippy --offline --all-targets -- -D warnings
    # As on a machine that doesn't have the originals: what is left must be whole by itself.
    step "lint without the originals" env ROOGNAPS_UNLINKED=1 CAIRO_M_SRC=/nonexistent CARGO_TARGET_DIR=target/alone \
        cargo clippy --offline --workspace -- -D warnings
else
    echo "lint: cargo clippy isn't at hand"
fi
