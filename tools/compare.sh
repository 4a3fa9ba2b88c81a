#!/bin/sh
# compare.sh [CASES] [SEED]: has generated bundles judged by the proved library and by the independent judge in rust/, and compares every word of answers and reports.
# 20,000 cases with a fixed seed unless told otherwise.
set -eu
cd "$(dirname "$0")/.."
command -v cargo >/dev/null || {
    echo "missing tool: cargo, Rust's build tool. Put it on the PATH and run this again." >&2
    exit 1
}
tools/library.sh
export CARGO_TARGET_DIR="$PWD/target/rust" UDRASMIL_LIBRARY="$PWD/target/native"
cargo run --manifest-path rust/Cargo.toml --release --offline -q -p compare --features library -- plain library "$@"
