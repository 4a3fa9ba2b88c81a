#!/bin/sh
# Writes target/native/libudrasmil.a, unless it is newer than all that it is made of.
set -eu
cd "$(dirname "$0")/.."
library=target/native/libudrasmil.a
if [ -f "$library" ] && [ -z "$(find crates crates.txt tools/native.sh -name out -prune -o -newer "$library" -print -quit)" ]; then
    exit
fi
command -v rt >/dev/null || {
    echo "missing tool: rt, the Rattle kit, which proves and builds the library. Put it on the PATH and run this again." >&2
    exit 1
}
echo "Proving and building the library. From nothing this takes some minutes." >&2
tools/native.sh udrasmil >&2
