#!/bin/sh
# bench.sh [instructions]: times the proved library beside the independent judge in rust/, on the same chains, and prints the ratios.
# `instructions` also prints the instructions of a judgement, which valgrind counts; that takes a minute more.
# The status is 1 if an answer or a report differs.
set -eu
cd "$(dirname "$0")/.."
command -v cargo >/dev/null || {
    echo "missing tool: cargo, Rust's build tool. Put it on the PATH and run this again." >&2
    exit 1
}
tools/library.sh
export CARGO_TARGET_DIR="$PWD/target/rust" UDRASMIL_LIBRARY="$PWD/target/native"
cargo run --manifest-path rust/Cargo.toml --release --offline -q -p bench -- "$@"
