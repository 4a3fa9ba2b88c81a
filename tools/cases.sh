#!/bin/sh
# cases.sh [--check]: writes the list of cases that the program `replay` judges, and what it has to write; with --check it only compares.
# Cases and answers come from rust/compare/src/list.rs, by way of the independent judge.
set -eu
cd "$(dirname "$0")/.."
command -v cargo >/dev/null || {
    echo "missing tool: cargo, Rust's build tool. Put it on the PATH and run this again." >&2
    exit 1
}
made=$(mktemp -d)
trap 'rm -rf "$made"' EXIT
CARGO_TARGET_DIR="$PWD/target/rust" cargo build --manifest-path rust/Cargo.toml --release --offline -q -p compare
target/rust/release/compare list >"$made/cases"
target/rust/release/compare listed >"$made/stdout"
if [ "${1-}" = --check ]; then
    cmp "$made/cases" crates/replay/data/cases && cmp "$made/stdout" crates/replay/stdout || {
        echo "crates/replay is not what rust/compare makes of it: run tools/cases.sh and commit" >&2
        exit 1
    }
    exit
fi
mkdir -p crates/replay/data
cat "$made/cases" >crates/replay/data/cases
cat "$made/stdout" >crates/replay/stdout
