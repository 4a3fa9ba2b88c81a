#!/bin/sh
# judge.sh POLICY CHAIN [LISTS]: judges the bundle file CHAIN by POLICY, openssl or chrome, and builds first what that needs.
# chrome takes LISTS too, the bundle file of its lists. The status: 0 accepted, 1 a rule is broken, 2 it can't be judged, 3 a bundle is refused.
# Without arguments it judges two real chains, a good one and a bad one; the status is then 0 if they are found so.
set -eu
top=$(cd "$(dirname "$0")/.." && pwd)
command -v cargo >/dev/null || {
    echo "missing tool: cargo, Rust's build tool. Put it on the PATH and run this again." >&2
    exit 2
}
"$top/tools/library.sh" || exit 2
CARGO_TARGET_DIR="$top/target/rust" UDRASMIL_LIBRARY="$top/target/native" \
    cargo build --manifest-path "$top/rust/Cargo.toml" --release --offline -q -p judge || exit 2
program=$top/target/rust/release/judge

if [ $# -gt 0 ]; then
    exec "$program" "$@"
fi
for name in valid expired; do
    echo "samples/$name.bundle, a real chain of three:"
    status=0
    "$program" openssl "$top/samples/$name.bundle" || status=$?
    case $name$status in
        valid0 | expired1) ;;
        *) exit 2 ;;
    esac
done
